" Programs of POOL: comments, pairs of words for `%` (with matchit), and the check at a save.
if exists("b:did_ftplugin")
  finish
endif
let b:did_ftplugin = 1
let s:keep = &cpoptions
set cpoptions&vim
setlocal comments=:# commentstring=#\ %s
setlocal suffixesadd=.pool include= define=^\\s*\\(class\\\|method\\)
if exists("loaded_matchit") || exists("g:loaded_matchit")
  let b:match_ignorecase = 0
  " (a class or a method ends with an end of its own; so does a select, which has its alternatives between)
  let b:match_words = '\<if\>:\<else\>:\<fi\>,\<while\>:\<od\>,\<\%(begin\|body\|select\)\>:\<\%(result\|post\|when\)\>:\<end\>'
  let b:match_skip = 's:comment\|string'
endif
compiler pool
" With `let g:pool_check_on_save = 1` each save checks the program, and the window of errors opens if there is one.
if get(g:, "pool_check_on_save", 0)
  augroup pool_check
    autocmd! BufWritePost <buffer> silent make! | redraw! | cwindow
  augroup END
endif
let b:undo_ftplugin = "setlocal comments< commentstring< suffixesadd< include< define< makeprg< errorformat< | unlet! b:match_words b:match_skip b:match_ignorecase"
let &cpoptions = s:keep
unlet s:keep
