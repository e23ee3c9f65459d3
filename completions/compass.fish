# Completion of the words of compass in fish. Link it into ~/.config/fish/completions.

complete -c compass -f
complete -c compass -s h -l help -d 'Print help'
complete -c compass -n __fish_use_subcommand -s V -l version -d 'Print the version'

complete -c compass -n __fish_use_subcommand -a batch -d 'Assemble a source'
complete -c compass -n '__fish_seen_subcommand_from batch' -F
complete -c compass -n '__fish_seen_subcommand_from batch' -l part -x -a 'listing binary symbols flags all' -d 'What to write to standard output'
complete -c compass -n '__fish_seen_subcommand_from batch' -l listing -r -F -d 'File for the listing'
complete -c compass -n '__fish_seen_subcommand_from batch' -l binary -r -F -d 'File for the binary text'
complete -c compass -n '__fish_seen_subcommand_from batch' -l symbols -r -F -d 'File for the cross-reference'
complete -c compass -n '__fish_seen_subcommand_from batch' -l flags -r -F -d 'File for the flagged lines'
complete -c compass -n '__fish_seen_subcommand_from batch' -l page -r -F -d 'File for a page with all texts'

complete -c compass -n __fish_use_subcommand -a session -d 'Edit a source line by line, and ask for its texts'
complete -c compass -n '__fish_seen_subcommand_from session' -l source -r -F -d 'File whose lines it begins with'

complete -c compass -n __fish_use_subcommand -a check -d 'Tell what is wrong in a source'
complete -c compass -n '__fish_seen_subcommand_from check' -F
complete -c compass -n '__fish_seen_subcommand_from check' -l errors -d 'Tell errors alone, and no notes'

complete -c compass -n __fish_use_subcommand -a compare -d 'Compare the words of a source with an octal listing or dump'
complete -c compass -n '__fish_seen_subcommand_from compare' -F
complete -c compass -n '__fish_seen_subcommand_from compare' -l format -x -a 'rows dump own' -d 'How rows of the octal text are read'
complete -c compass -n '__fish_seen_subcommand_from compare' -l columns -x -d 'Columns of each row that are read, first-last'
complete -c compass -n '__fish_seen_subcommand_from compare' -l offset -x -d 'What is added to each address, in octal'
complete -c compass -n '__fish_seen_subcommand_from compare' -l from -x -d 'First address, in octal'
complete -c compass -n '__fish_seen_subcommand_from compare' -l to -x -d 'Last address, in octal'
complete -c compass -n '__fish_seen_subcommand_from compare' -l whole -d 'Each word has to be given, and all of it'
complete -c compass -n '__fish_seen_subcommand_from compare' -l all -d 'Tell all words that differ, and all rows not read'

complete -c compass -n __fish_use_subcommand -a disassemble -d 'Make a source for the words of an octal listing or dump'
complete -c compass -n '__fish_seen_subcommand_from disassemble' -F
complete -c compass -n '__fish_seen_subcommand_from disassemble' -l central -d 'Words of a central processor'
complete -c compass -n '__fish_seen_subcommand_from disassemble' -l peripheral -d 'Words of a peripheral processor'
complete -c compass -n '__fish_seen_subcommand_from disassemble' -l from -x -d 'First address, in octal'
complete -c compass -n '__fish_seen_subcommand_from disassemble' -l to -x -d 'Last address, in octal'
complete -c compass -n '__fish_seen_subcommand_from disassemble' -l columns -x -d 'Columns of each row that are read, first-last'
complete -c compass -n '__fish_seen_subcommand_from disassemble' -l format -x -a 'rows dump' -d 'How rows of the octal text are read'
complete -c compass -n '__fish_seen_subcommand_from disassemble' -l entry -x -d 'Where execution begins, octal addresses'
complete -c compass -n '__fish_seen_subcommand_from disassemble' -l code -x -d 'Words that are code, octal ranges'
complete -c compass -n '__fish_seen_subcommand_from disassemble' -l data -x -d 'Words that are data, octal ranges'
complete -c compass -n '__fish_seen_subcommand_from disassemble' -l names -r -d 'File with symbols and their values'
complete -c compass -n '__fish_seen_subcommand_from disassemble' -l ident -x -d 'Name of the program'
complete -c compass -n '__fish_seen_subcommand_from disassemble' -l bare -d 'Write no comments'

complete -c compass -n __fish_use_subcommand -a explain -d 'Explain a flag or an operation'
complete -c compass -n '__fish_seen_subcommand_from explain' -a 'A D E L O T U V' -d 'Flag'

complete -c compass -n __fish_use_subcommand -a server -d 'Answer an editor by the Language Server Protocol'
complete -c compass -n '__fish_seen_subcommand_from server' -l stdio -d 'Means nothing'

complete -c compass -n __fish_use_subcommand -a help -d 'Write the help of the program or of a command'
complete -c compass -n '__fish_seen_subcommand_from help' -a 'batch session check compare disassemble explain server help' -d 'Command'
