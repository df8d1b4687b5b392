" Scripts, feeds' logs and their syntax by the ending of the file.
autocmd BufRead,BufNewFile *.join setfiletype join
