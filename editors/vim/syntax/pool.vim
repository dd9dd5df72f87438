" Programs of POOL.
if exists("b:current_syntax")
  finish
endif
syntax case match
syntax keyword poolStructure class var method local begin result post end body
syntax keyword poolStatement if then else fi while do od answer select when write new
syntax keyword poolOperatorWord not and or
syntax keyword poolConstant nil true false
syntax keyword poolSelf self
syntax keyword poolKind Int Bool
syntax match poolName "\<[A-Za-z_][A-Za-z_0-9]*\>"
syntax match poolInteger "\<[0-9]\+\>"
syntax match poolSign ":=\|!!\|==\|!=\|<=\|>=\|[:;,()!<>+*/%-]"
syntax region poolString start=+"+ end=+"+ oneline
syntax match poolComment "#.*$"
highlight default link poolStructure Structure
highlight default link poolStatement Statement
highlight default link poolOperatorWord Operator
highlight default link poolConstant Constant
highlight default link poolSelf Identifier
highlight default link poolKind Type
highlight default link poolInteger Number
highlight default link poolSign Operator
highlight default link poolString String
highlight default link poolComment Comment
let b:current_syntax = "pool"
