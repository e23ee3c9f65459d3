" Vim syntax file
" Language: COMPASS, the assembly language of Control Data's 6000 series
"
" A line is taken apart from the left: location field, operation, variable field, comment. Each leads to the next by `nextgroup`.
" Where the comment begins hangs on the operation, which may read no operands, or such as have blanks.

if exists('b:current_syntax')
  finish
endif

let s:cpo = &cpoptions
set cpoptions&vim

syntax case ignore
" A keyword is a whole run of characters between blanks.
syntax iskeyword 33-126
syntax sync minlines=1

" ---- Lines

syntax match compassComment /^\*.*/
syntax match compassContinued /^,.*/

" ---- The location field

syntax match compassNoLocation /^  \+\ze[^ ]\%<74c/ nextgroup=@compassOperation
syntax match compassLocation /^\%([^ *,]\| [^ ]\)[^ ]*/ nextgroup=compassBeforeOperation
syntax match compassForcing /^ \=[-+][^ ]\@!/ nextgroup=compassBeforeOperation
syntax match compassBeforeOperation / \+\ze[^ ]\%<74c/ contained nextgroup=@compassOperation

" ---- The operation. `scripts/gate/operation-names --check` compares the names with the tables.

syntax cluster compassOperation contains=compassStatement,compassInstruction,compassPeripheral,compassCall,compassNoOperation
syntax match compassNoOperation /[^ ]\+/ contained nextgroup=compassRemark
syntax match compassCall /[A-Z.][A-Z0-9.=_]*[^ ]\@!/ contained nextgroup=compassBeforeArguments,compassRemark

syntax keyword compassStatement contained nextgroup=compassBeforeOperands,compassRemark IDENT BASE EQU = SET ORG USE BSS BSSZ CON VFD
syntax keyword compassStatement contained nextgroup=compassBeforeOperands,compassRemark IFEQ IFNE IFGT IFGE IFLT IFLE DUP MACRO LOCAL
syntax keyword compassStatement contained nextgroup=compassBeforeTest,compassRemark IF
syntax keyword compassStatement contained nextgroup=compassBeforeItems,compassRemark DATA
syntax keyword compassStatement contained nextgroup=compassBeforeText,compassRemark DIS
syntax keyword compassStatement contained nextgroup=compassRemark ABS PERIPH ELSE ENDIF ENDD ENDM END TITLE SPACE EJECT LIST

" A digit names a register, or in the body of a macro a parameter after `_`.
syntax match compassInstruction contained nextgroup=compassBeforeOperands,compassRemark
      \ /\%(SA\|SB\|SX\|BX\|LX\|AX\|MX\|NX\|ZX\|UX\|PX\|FX\|DX\|RX\|IX\|CX\)\%(\o\|_[A-Z.][A-Z0-9.]*\)[^ ]\@!/
syntax keyword compassInstruction contained nextgroup=compassBeforeOperands,compassRemark JP RJ ZR NZ PL NG MI IR OR DF ID EQ NE GE LT LE GT
syntax keyword compassInstruction contained nextgroup=compassRemark PS NO

syntax keyword compassPeripheral contained nextgroup=compassBeforeOperands,compassRemark UJN ZJN NJN PJN MJN
syntax keyword compassPeripheral contained nextgroup=compassBeforeOperands,compassRemark SHN LMN LPN SCN LDN LCN ADN SBN EXN RPN
syntax keyword compassPeripheral contained nextgroup=compassBeforeOperands,compassRemark LDD ADD SBD LMD STD RAD AOD SOD
syntax keyword compassPeripheral contained nextgroup=compassBeforeOperands,compassRemark LDI ADI SBI LMI STI RAI AOI SOI
syntax keyword compassPeripheral contained nextgroup=compassBeforeOperands,compassRemark CRD CWD IAN OAN ACN DCN FAN LDC ADC LPC LMC LJM RJM
syntax keyword compassPeripheral contained nextgroup=compassBeforeOperands,compassRemark LDM ADM SBM LMM STM RAM AOM SOM
syntax keyword compassPeripheral contained nextgroup=compassBeforeOperands,compassRemark CRM CWM AJM IJM FJM EJM IAM OAM FNC
syntax keyword compassPeripheral contained nextgroup=compassRemark PSN

" ---- The comment behind the fields

syntax match compassRemark /.\+/ contained

" ---- The variable field, which begins before column 30

syntax match compassBeforeOperands / \+\ze[^ ]\%<31c/ contained nextgroup=compassOperands
syntax match compassBeforeArguments / \+\ze[^ ]\%<31c/ contained nextgroup=compassArguments
syntax match compassBeforeTest / \+\ze[^ ]\%<31c/ contained nextgroup=compassTest
syntax match compassBeforeItems / \+\ze[^ ]\%<31c/ contained nextgroup=compassItems
syntax match compassBeforeText / \+\ze[^ ]\%<31c/ contained nextgroup=compassCounted,compassBeforeDelimited

syntax region compassOperands start=/[^ ]/ end=/ /me=s-1 end=/$/ oneline contained contains=@compassOperand nextgroup=compassRemark
syntax region compassTest start=/[^ ]/ end=/ /me=s-1 end=/$/ oneline contained contains=@compassOperand,compassAttribute nextgroup=compassRemark
syntax region compassArguments start=/[^ ]/ end=/ /me=s-1 end=/$/ oneline contained contains=@compassOperand,compassParentheses nextgroup=compassRemark
syntax region compassParentheses matchgroup=compassComma start=/(/ end=/)/ oneline contained contains=@compassOperand,compassParentheses
syntax region compassItems start=/[^ ]/ end=/ /me=s-1 end=/$/ oneline contained contains=compassItem,compassText,compassComma nextgroup=compassRemark

" The text of DIS: so many words, or between two delimiters.
syntax region compassCounted start=/[^ ,]/ end=/,/me=s-1 end=/ /me=s-1 end=/$/ oneline contained contains=@compassOperand nextgroup=compassBeforeWords,compassRemark
syntax match compassBeforeWords /,/ contained nextgroup=compassWords
syntax match compassWords /.\+/ contained
syntax match compassBeforeDelimited /,\ze\([^ ]\).\{-}\1\%<74c/ contained nextgroup=compassDelimited
syntax match compassDelimited /\([^ ]\).\{-}\1/ contained nextgroup=compassRemark

" ---- What stands in a variable field. A pattern with `$` here would have the field go on in the next line.

syntax cluster compassOperand contains=compassSymbol,compassRegister,compassRun,compassNumber,compassOperator,compassCounter,compassComma,compassLiteral
syntax match compassSymbol /[A-Z.][A-Z0-9.=]*/ contained
syntax match compassRegister /[ABX]\o[A-Z0-9.=]\@!/ contained
syntax match compassRun /\d[A-Z0-9.=]*/ contained
syntax match compassNumber /\d\+[BOD]\=[A-Z0-9.=]\@!/ contained
syntax match compassOperator "[-+*/]" contained
" `*` is the location counter where an operand may begin, or none comes after it.
syntax match compassCounter "[ ,+/-]\@1<=\*" contained
syntax match compassCounter /\*[A-Z0-9.*]\@!/ contained
syntax match compassComma /,/ contained
syntax match compassAttribute / \@1<=-\=DEF\ze,/ contained

" A literal is `=` and a data item: a number, or characters with their count or between delimiters.
syntax match compassLiteral /[ ,]\@1<==/ contained nextgroup=compassItem,compassText
syntax match compassItem /[-+]\=\d[A-Z0-9.]*/ contained
syntax match compassText contained
      \ /0*\%(1[LRH].\{,1}\|2[LRH].\{,2}\|3[LRH].\{,3}\|4[LRH].\{,4}\|5[LRH].\{,5}\|6[LRH].\{,6}\|7[LRH].\{,7}\|8[LRH].\{,8}\|9[LRH].\{,9}\|10[LRH].\{,10}\)/
syntax match compassText /[LRH]\([^A-Z0-9 ,]\).\{-1,10}\1/ contained

" ---- What isn't read, and what no line may have

syntax match compassUnread /\%>72c.\{1,18}/ containedin=ALLBUT,compassUnread,compassTooLong,compassBadCharacter
syntax match compassTooLong /\%>90c.\+/ containedin=ALLBUT,compassUnread,compassTooLong,compassBadCharacter
syntax match compassBadCharacter /[^ -_a-z]/ containedin=ALL

highlight default link compassComment Comment
highlight default link compassRemark Comment
highlight default link compassContinued Error
highlight default link compassLocation Label
highlight default link compassForcing Special
highlight default link compassStatement PreProc
highlight default link compassInstruction Statement
highlight default link compassPeripheral Statement
highlight default link compassCall Function
highlight default link compassNoOperation Error
highlight default link compassSymbol Identifier
highlight default link compassRegister Type
highlight default link compassNumber Number
highlight default link compassOperator Operator
highlight default link compassCounter Special
highlight default link compassComma Delimiter
highlight default link compassAttribute Keyword
highlight default link compassLiteral Operator
highlight default link compassItem Number
highlight default link compassText String
highlight default link compassBeforeWords Delimiter
highlight default link compassWords String
highlight default link compassBeforeDelimited Delimiter
highlight default link compassDelimited String
highlight default link compassUnread NonText
highlight default link compassTooLong Error
highlight default link compassBadCharacter Error

let b:current_syntax = 'compass'

let &cpoptions = s:cpo
unlet s:cpo
