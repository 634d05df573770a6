" Narrations are files *.anb.
autocmd BufNewFile,BufRead *.anb setfiletype anb
