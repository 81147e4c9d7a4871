" Settings for the scripts of desk: one space parts the words, and a comment begins its line.
if exists("b:did_ftplugin")
  finish
endif
let b:did_ftplugin = 1
setlocal textwidth=0 comments=:# commentstring=#\ %s
let b:undo_ftplugin = "setlocal textwidth< comments< commentstring<"
