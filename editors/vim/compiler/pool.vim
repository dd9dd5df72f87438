" Checks the program at `:make`, and reads the places of its errors.
"     :compiler pool | make      the quickfix list has the error of the text, if it has one
" g:pool_lint names the script tools/lint, if it is not on the path.
if exists("current_compiler")
  finish
endif
let current_compiler = "pool"
let s:lint = get(g:, "pool_lint", "tools/lint")
execute "CompilerSet makeprg=" . escape(s:lint . " %:S", " \\|\"")
CompilerSet errorformat=%f:%l:%c:\ %m,%f:%l:\ %m,%-G%.%#
