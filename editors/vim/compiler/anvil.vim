" :make checks the file, and the quickfix list has the places of a refusal. anvil and anvil-explain are taken from the PATH.
if exists('current_compiler')
  finish
endif
let current_compiler = 'anvil'

CompilerSet makeprg=anvil\ check\ %:S\ 2>&1\ \\\|\ anvil-explain\ --short\ --columns\ bytes\ %:S
CompilerSet errorformat=%I%f:%l:%c:\ note:\ %m,%E%f:%l:%c:\ %m,%-Gaccepted
