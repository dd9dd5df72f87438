" Placements of POOL.
if exists("b:current_syntax")
  finish
endif
syntax case match
syntax match placementWord "^\s*\(mesh\|objects\|frames\|cells\|place\|cut\|route\)\>"
syntax keyword placementAt at same spread
syntax match placementNumber "\<[0-9]\+\>"
syntax match placementComment "^\s*#.*$"
highlight default link placementWord Keyword
highlight default link placementAt Statement
highlight default link placementNumber Number
highlight default link placementComment Comment
let b:current_syntax = "poolplacement"
