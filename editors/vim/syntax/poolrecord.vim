" Records of POOL.
if exists("b:current_syntax")
  finish
endif
syntax case match
syntax match recordObject "\<[0-9]\+\.[0-9]\+\>"
syntax match recordNumber "\<[0-9]\+\>"
syntax match recordCount "^[0-9]\+"
syntax keyword recordEvent turn link send ack lose twice late
syntax keyword recordStep local new answer return take write pick
syntax keyword recordDelay post call create arrive created result pass frame lost stale acked idle
syntax keyword recordFault fault Overflow ZeroDivisor NilOperand NilDestination NoOpenGuard
syntax keyword recordEnd end quiet schedule full heap frames cells
syntax keyword recordBy by
syntax keyword recordConstant nil true false
syntax match recordFirst "^record 2$"
syntax region recordString start=+"+ end=+"+ oneline
highlight default link recordObject Identifier
highlight default link recordNumber Number
highlight default link recordCount LineNr
highlight default link recordEvent Type
highlight default link recordStep Statement
highlight default link recordDelay Comment
highlight default link recordFault Error
highlight default link recordEnd Keyword
highlight default link recordBy Special
highlight default link recordConstant Constant
highlight default link recordFirst PreProc
highlight default link recordString String
let b:current_syntax = "poolrecord"
