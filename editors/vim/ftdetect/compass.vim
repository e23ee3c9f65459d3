" Sources of COMPASS. The type is set once, also where the user's own files set it.
autocmd BufNewFile,BufRead *.cps if &filetype !=# 'compass' | set filetype=compass | endif
