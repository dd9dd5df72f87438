" Indents programs of POOL by the words that open and close a part.
if exists("b:did_indent")
  finish
endif
let b:did_indent = 1
setlocal indentexpr=PoolIndent(v:lnum)
setlocal indentkeys=0=end,0=fi,0=od,0=else,0=then,0=do,0=when,0=result,0=post,0=begin,0=body,0=class,0=var,0=method,0=local,!^F,o,O
let b:undo_indent = "setlocal indentexpr< indentkeys<"
if exists("*PoolIndent")
  finish
endif

" A line without its strings and its comment.
function! s:Bare(line)
  return substitute(substitute(a:line, '"[^"]*"', '', 'g'), '#.*$', '', '')
endfunction

" How many parts are open behind the lines from `first` to `last`.
function! s:Depth(first, last)
  let depth = 0
  for number in range(a:first, a:last)
    for word in split(s:Bare(getline(number)), '[^A-Za-z0-9_]\+')
      if word =~# '^\%(if\|while\|select\|begin\|body\)$'
        let depth += 1
      elseif word =~# '^\%(fi\|od\|end\)$'
        let depth -= 1
      endif
    endfor
  endfor
  return depth
endfunction

function! PoolIndent(number)
  let line = s:Bare(getline(a:number))
  if line =~# '^\s*class\>'
    return 0
  endif
  " (the parts of a class begin at its head)
  let first = a:number - 1
  while first > 0 && getline(first) !~# '^\s*class\>'
    let first -= 1
  endwhile
  if first == 0
    return 0
  endif
  let depth = s:Depth(first, a:number - 1)
  let word = matchstr(line, '^\s*\zs[a-z]\+\>')
  if word =~# '^\%(end\|fi\|od\|else\|then\|do\|when\|result\|post\)$'
    let depth -= 1
  endif
  if depth < 0
    let depth = 0
  endif
  return depth * shiftwidth()
endfunction
