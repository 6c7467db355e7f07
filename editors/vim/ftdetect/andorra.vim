" Files that end in .pl and begin with a comment of %, or have a line that begins with ?-
autocmd BufNewFile,BufRead *.pl if getline(1) =~# '^\s*%' || search('^?-', 'nw') | setlocal filetype=andorra | endif
