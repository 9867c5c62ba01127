autocmd BufRead,BufNewFile *.pram setfiletype pram
