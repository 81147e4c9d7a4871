" Settings for Rattle, as rt fmt lays it out.
if exists("b:did_ftplugin")
  finish
endif
let b:did_ftplugin = 1
setlocal expandtab shiftwidth=4 softtabstop=4 textwidth=0 fileencoding=utf-8
setlocal comments=s1:/*,mb:*,ex:*/,:///,://!,:// commentstring=//\ %s
let b:undo_ftplugin = "setlocal expandtab< shiftwidth< softtabstop< textwidth< fileencoding< comments< commentstring<"
