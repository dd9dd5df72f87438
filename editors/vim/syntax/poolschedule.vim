" Schedules of POOL.
if exists("b:current_syntax")
  finish
endif
syntax case match
syntax match scheduleWord "^\s*\(quantum\|turn\|link\|round\|wires\|send\|ack\|lose\|twice\|late\)\>"
syntax keyword scheduleMore lossy ack
syntax match scheduleNumber "\<[0-9]\+\>"
syntax match scheduleComment "^\s*#.*$"
highlight default link scheduleWord Keyword
highlight default link scheduleMore Statement
highlight default link scheduleNumber Number
highlight default link scheduleComment Comment
let b:current_syntax = "poolschedule"
