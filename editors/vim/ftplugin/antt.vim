" Settings for antt, as rt fmt lays it out. A name may have a dash and a prime.
if exists("b:did_ftplugin")
  finish
endif
let b:did_ftplugin = 1
setlocal expandtab shiftwidth=2 softtabstop=2 textwidth=0 fileencoding=utf-8
setlocal comments=:-- commentstring=--\ %s iskeyword+=-,'
let b:undo_ftplugin = "setlocal expandtab< shiftwidth< softtabstop< textwidth< fileencoding< comments< commentstring< iskeyword<"
