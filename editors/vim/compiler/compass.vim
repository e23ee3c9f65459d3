" Vim compiler file
" Compiler: compass, whose check tells where each flag of a source is, and why, and notes

if exists('current_compiler')
  finish
endif
let current_compiler = 'compass'

let s:cpo = &cpoptions
set cpoptions&vim

" Of the rows that are told, the first of each flag and of each note has its place. The others show the line.
CompilerSet makeprg=compass\ check\ %:S
CompilerSet errorformat=%f:%l:%c:\ %trror:\ %m,%f:%l:%c:\ %tote:\ %m,%-G%.%#

let &cpoptions = s:cpo
unlet s:cpo
