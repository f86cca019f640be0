" `:make` checks the text, and fills the list of `:copen`.
autocmd BufRead,BufNewFile *.plir setlocal makeprg=plir\ check\ --format\ short\ %
autocmd BufRead,BufNewFile *.plir setlocal errorformat=%f:%l:%c:\ %t%*[a-z]:\ %m
