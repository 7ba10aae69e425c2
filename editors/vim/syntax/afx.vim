" Syntax of programs for afx.
if exists("b:current_syntax")
  finish
endif
syn case match
syn iskeyword @,48-57,_

" A character that begins no token.
syn match   afxUnread    "[^A-Za-z0-9_ \t\r]"
syn match   afxNumber    "\<[0-9]\+"
syn match   afxOperator  "<=\|>=\|==\|!=\|+\|-\|\*\|/\|%\|<\|>\|="
syn match   afxBracket   "(\|)\|{\|}\|\[\|\]\|,\|;\|:"
syn match   afxCall      "\<[A-Za-z_][A-Za-z0-9_]*\ze[ \t\r]*("
syn match   afxComment   "//.*$" contains=@Spell

syn keyword afxStatement skip print fault
syn keyword afxTask      async finish rescue
syn keyword afxFlow      if else while
syn keyword afxDeclare   main proc array var split as at parts by
syn keyword afxParameter mut read
syn keyword afxType      int byte
syn keyword afxLogic     and or not
syn keyword afxLength    len
syn keyword afxTruth     true false

hi def link afxUnread    Error
hi def link afxNumber    Number
hi def link afxOperator  Operator
hi def link afxBracket   Delimiter
hi def link afxCall      Function
hi def link afxComment   Comment
hi def link afxStatement Statement
hi def link afxTask      PreProc
hi def link afxFlow      Conditional
hi def link afxDeclare   Keyword
hi def link afxParameter StorageClass
hi def link afxType      Type
hi def link afxLogic     Operator
hi def link afxLength    Function
hi def link afxTruth     Boolean

let b:current_syntax = "afx"
