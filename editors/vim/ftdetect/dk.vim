autocmd BufNewFile,BufRead *.dk setfiletype dk
