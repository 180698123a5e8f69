" `:make` checks the scenario in this buffer, and goes to the line that the verdict or the fault names. It wants `fence` and
" `fence-file-line` on the path (editors/README.md).
if exists('current_compiler')
  finish
endif
let current_compiler = 'fence'

CompilerSet makeprg=fence\ check\ %:S\ 2>&1\ \\\|\ fence-file-line\ %:S
CompilerSet errorformat=%f:%l:\ %m
