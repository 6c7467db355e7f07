" Comments, indents and the words that gf and :make know.
if exists('b:did_ftplugin')
  finish
endif
let b:did_ftplugin = 1
setlocal comments=s1:/*,mb:*,ex:*/,:% commentstring=%\ %s shiftwidth=4 expandtab
" :make asks the query of the file, and jumps to the line of a refusal
setlocal makeprg=ask\ % errorformat=%f:%l:\ error:\ %m
let b:undo_ftplugin = 'setlocal comments< commentstring< shiftwidth< expandtab< makeprg< errorformat<'
