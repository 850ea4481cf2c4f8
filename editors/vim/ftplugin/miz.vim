" Settings for articles: `:make` checks the one in the buffer, and lists its faults.

if exists("b:did_ftplugin")
  finish
endif
let b:did_ftplugin = 1

setlocal commentstring=::\ %s comments=::: expandtab shiftwidth=2 softtabstop=2
compiler mizv

let b:undo_ftplugin = "setlocal commentstring< comments< expandtab< shiftwidth< softtabstop< makeprg< errorformat<"
