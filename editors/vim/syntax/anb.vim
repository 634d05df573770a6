" Syntax of Alice-and-Bob narrations.
if exists('b:current_syntax')
  finish
endif

syntax keyword anbSection Protocol Suite Types Formats Knowledge Actions Choice
syntax keyword anbSort Agent Number Key
syntax keyword anbSuite sha256 sha512
syntax keyword anbField len net hex rest
syntax match anbOperator /\<\(h\|mac\|scrypt\|wrap\)\>\ze\s*(/
syntax match anbFormat /\<\(\(h\|mac\|scrypt\|wrap\)\>\)\@!\a\w*\>\ze\s*[(=]/
syntax match anbArrow /->/
syntax match anbEscape /\\\(["\\]\|x\x\x\)/ contained
syntax region anbLiteral start=/"/ skip=/\\["\\]/ end=/"/ oneline contains=anbEscape
syntax match anbComment /#.*$/ contains=anbTodo
syntax keyword anbTodo TODO FIXME contained
" What stands after Goals isn't read.
syntax region anbGoals matchgroup=anbSection start=/\<Goals\>/ end=/\%$/

highlight default link anbSection Statement
highlight default link anbSort Type
highlight default link anbSuite Constant
highlight default link anbField Type
highlight default link anbOperator Function
highlight default link anbFormat Identifier
highlight default link anbArrow Operator
highlight default link anbEscape SpecialChar
highlight default link anbLiteral String
highlight default link anbComment Comment
highlight default link anbGoals Comment
highlight default link anbTodo Todo

let b:current_syntax = 'anb'
