autocmd BufNewFile,BufRead *.pb set filetype=parbegin
" A recorded run is a text with picks; other files with this ending are mostly programs of a shell.
autocmd BufNewFile,BufRead *.run if getline(1) !~# '^#!' | set filetype=parbegin | endif
