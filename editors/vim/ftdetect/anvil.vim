autocmd BufNewFile,BufRead *.anvil setfiletype anvil
