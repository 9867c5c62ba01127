" Comments of a program, and its compiler.
if exists("b:did_ftplugin")
  finish
endif
let b:did_ftplugin = 1

setlocal commentstring=#%s comments=:#
compiler pramc

let b:undo_ftplugin = "setlocal commentstring< comments< makeprg< errorformat<"
