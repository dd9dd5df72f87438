" Reports of POOL, as `pool why` writes them.
if exists("b:current_syntax")
  finish
endif
syntax case match
syntax match reportObject "\<[0-9]\+\.[0-9]\+\>"
syntax match reportNumber "\<[0-9]\+\>"
syntax match reportStanding " \zs\(ready\|finished\|calls\|creates\|due\|awaits\)\>"
syntax keyword reportFault faulted Overflow ZeroDivisor NilOperand NilDestination NoOpenGuard
syntax match reportCycle "^cycle\>"
syntax match reportEnd "^end \(quiet\|schedule\|full \(heap\|frames\|cells\)\)\>"
highlight default link reportObject Identifier
highlight default link reportNumber Number
highlight default link reportStanding Statement
highlight default link reportFault Error
highlight default link reportCycle Special
highlight default link reportEnd Keyword
let b:current_syntax = "poolreport"
