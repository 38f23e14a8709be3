autocmd BufRead,BufNewFile *.cmwq setfiletype cmwq
