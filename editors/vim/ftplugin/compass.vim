" Vim filetype plugin file
" Language: COMPASS, the assembly language of Control Data's 6000 series

if exists('b:did_ftplugin')
  finish
endif
let b:did_ftplugin = 1

let s:cpo = &cpoptions
set cpoptions&vim

" The operation begins in column 11, the operands in 18 and the comment in 30, by custom. No line may have a tab.
setlocal expandtab
" Where 'smarttab' is set, as in Neovim, the first tab of a line goes by 'shiftwidth': 0 makes that column 11 too.
setlocal shiftwidth=0
if has('vartabs')
  setlocal vartabstop=10,7,12,8
  setlocal varsofttabstop=10,7,12,8
endif

" Columns 1 to 72 are read. Comments are filled; a statement stands in one line.
setlocal textwidth=72
setlocal formatoptions-=t
setlocal formatoptions+=croql
setlocal colorcolumn=73
setlocal comments=:*
" `=` moves no line, and `gq` lays out comments alone.
setlocal indentexpr=-1
function! CompassFormat() abort
  return mode() =~# '[iR]' || empty(filter(getline(v:lnum, v:lnum + v:count - 1), {_, line -> line[0] !=# '*'}))
endfunction
setlocal formatexpr=CompassFormat()
setlocal commentstring=*%s

" A symbol is one word. `_` joins words in the body of a macro.
setlocal iskeyword=@,48-57,.,=

setlocal suffixesadd=.cps

" `gc` and a motion puts `*` into column 1 of its lines, or takes it away where all have it; `gcc` does so in this line.
function! CompassComment(...) abort
  if !a:0
    let &operatorfunc = 'CompassComment'
    return 'g@'
  endif
  let lines = getline("'[", "']")
  let are_comments = empty(filter(copy(lines), {_, line -> line[0] !=# '*'}))
  call setline("'[", map(lines, {_, line -> are_comments ? line[1:] : '*' . line}))
endfunction
nnoremap <buffer> <expr> gc CompassComment()
xnoremap <buffer> <expr> gc CompassComment()
nnoremap <buffer> <expr> gcc CompassComment() . '_'

" `K` explains the operation or the letter of a flag under the cursor.
setlocal keywordprg=compass\ explain

" `:make` checks the source.
compiler compass

let b:undo_ftplugin = 'setlocal expandtab< shiftwidth< textwidth< formatoptions< colorcolumn< comments< indentexpr< formatexpr< commentstring< iskeyword< suffixesadd< keywordprg<'
if has('vartabs')
  let b:undo_ftplugin .= ' vartabstop< varsofttabstop<'
endif
let b:undo_ftplugin .= ' | execute "nunmap <buffer> gc" | execute "xunmap <buffer> gc" | execute "nunmap <buffer> gcc"'
let b:undo_ftplugin .= ' | setlocal makeprg< errorformat< | unlet! b:current_compiler'

let &cpoptions = s:cpo
unlet s:cpo
