" Sources of efrp end in .frp.
autocmd BufRead,BufNewFile *.frp setfiletype efrp
