# Completion of the words of compass in bash. Read it in ~/.bashrc:
#   . ~/compass/completions/compass.bash

# The words that begin with - or name a command, by the command that stands before them.
_compass_words() {
  case $1 in
    '') echo 'batch session check compare disassemble explain server help -h --help -V --version' ;;
    batch) echo '--part --listing --binary --symbols --flags --page -h --help' ;;
    session) echo '--source -h --help' ;;
    check) echo '--errors -h --help' ;;
    compare) echo '--format --columns --offset --from --to --whole --all -h --help' ;;
    disassemble) echo '--central --peripheral --from --to --columns --format --entry --code --data --names --ident --bare -h --help' ;;
    explain) echo '-h --help' ;;
    server) echo '--stdio -h --help' ;;
    help) echo '-h --help' ;;
  esac
}

# Offers what begins as the word does that is typed: compgen's answer to the options that are given.
_compass_offer() {
  mapfile -t COMPREPLY < <(compgen "$@" -- "$word")
}

_compass_offer_files() {
  compopt -o filenames
  _compass_offer -f
}

_compass() {
  local word=$2 before=$3 command=
  COMPREPLY=()
  [ "$COMP_CWORD" -eq 1 ] || command=${COMP_WORDS[1]}
  # `--part=PART` comes as three words.
  [ "$before" != = ] || before=${COMP_WORDS[COMP_CWORD - 2]}
  case $command$before in
    batch--part) _compass_offer -W 'listing binary symbols flags all' ;;
    batch--listing | batch--binary | batch--symbols | batch--flags | batch--page | session--source) _compass_offer_files ;;
    disassemble--names) _compass_offer_files ;;
    compare--format) _compass_offer -W 'rows dump own' ;;
    disassemble--format) _compass_offer -W 'rows dump' ;;
    compare--columns | compare--offset | compare--from | compare--to) ;;
    disassemble--columns | disassemble--from | disassemble--to) ;;
    disassemble--entry | disassemble--code | disassemble--data | disassemble--ident) ;;
    *)
      case $command,$word in
        *,-*) _compass_offer -W "$(_compass_words "$command")" ;;
        ,*) _compass_offer -X '-*' -W "$(_compass_words '')" ;;
        explain,*) _compass_offer -W 'A D E L O T U V' ;;
        help,*) _compass_offer -W 'batch session check compare disassemble explain server help' ;;
        batch,* | check,* | compare,* | disassemble,*) _compass_offer_files ;;
      esac
      ;;
  esac
}

complete -F _compass compass
