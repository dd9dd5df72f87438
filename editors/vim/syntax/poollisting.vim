" Code of POOL, as `pool code` writes it.
if exists("b:current_syntax")
  finish
endif
syntax case match
syntax match listingNumber "-\?\<[0-9]\+\>"
syntax match listingPlace "^[0-9]\+\>" nextgroup=listingInstruction skipwhite
syntax match listingHead "^\(class\|method\|body\)\>"
syntax match listingInstruction "\(PushInt\|PushBool\|PushNil\|Jump\|LoadI\|LoadT\|SelfRef\|StoreI\|StoreT\|Oper\|Branch\|Loop\|Call\|Pop\|Ret\|New\|Send\|Async\|Write\|WriteText\|Answer\|Select\|Halt\|Post\)\>" contained
syntax region listingString start=+"+ end=+"+ oneline
highlight default link listingNumber Number
highlight default link listingPlace LineNr
highlight default link listingHead Structure
highlight default link listingInstruction Statement
highlight default link listingString String
let b:current_syntax = "poollisting"
