" The kind of a file by its name. (A filetype, and not only a syntax: otherwise Vim's own rule makes `conf` of a file that begins with a comment.)
autocmd BufRead,BufNewFile *.pool,program setlocal filetype=pool commentstring=#\ %s
autocmd BufRead,BufNewFile *.placement,placement setlocal filetype=poolplacement commentstring=#\ %s
autocmd BufRead,BufNewFile *.schedule,schedule setlocal filetype=poolschedule commentstring=#\ %s
autocmd BufRead,BufNewFile *.record,record setlocal filetype=poolrecord
autocmd BufRead,BufNewFile *.report,report setlocal filetype=poolreport
autocmd BufRead,BufNewFile *.listing,code setlocal filetype=poollisting
