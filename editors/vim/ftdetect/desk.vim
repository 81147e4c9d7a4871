" Which files are scripts of desk.
autocmd BufNewFile,BufRead *.desk setfiletype desk
