autocmd BufNewFile,BufRead *.pop setfiletype pop
