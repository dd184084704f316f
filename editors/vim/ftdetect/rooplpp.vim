autocmd BufRead,BufNewFile *.rpp setfiletype rpp
autocmd BufRead,BufNewFile *.pisa setfiletype pisa
