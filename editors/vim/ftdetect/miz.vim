autocmd BufRead,BufNewFile *.miz setfiletype miz
