" Settings of a buffer with an anvil source.
if exists('b:did_ftplugin')
  finish
endif
let b:did_ftplugin = 1

setlocal comments=:// commentstring=//\ %s
compiler anvil

let b:undo_ftplugin = 'setlocal comments< commentstring< makeprg< errorformat<'
