" Comments, and the layout of canonical texts.
if exists("b:did_ftplugin")
  finish
endif
let b:did_ftplugin = 1
setlocal comments=:// commentstring=//\ %s
setlocal expandtab shiftwidth=2 softtabstop=2 smartindent
let b:undo_ftplugin = "setlocal comments< commentstring< expandtab< shiftwidth< softtabstop< smartindent<"
