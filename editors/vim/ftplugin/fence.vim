" What an editor has to know of a scenario of fence: how a comment is written, and that `:make` checks it.
if exists('b:did_ftplugin')
  finish
endif
let b:did_ftplugin = 1

setlocal comments=:# commentstring=#\ %s
compiler fence

let b:undo_ftplugin = 'setlocal comments< commentstring< makeprg< errorformat<'
