" `:compiler pgv`, and then `:make` checks the description of the buffer, saves its certificate beside it, and lists where it is refused.
" For a source say then `:setlocal makeprg=pgv\ asm\ m.isa\ %:S\ --grant\ 16`; its places read alike.
if exists('current_compiler')
  finish
endif
let current_compiler = 'pgv'
CompilerSet makeprg=pgv\ check\ %:S\ --cert\ %:r:S.cert
" The refused line and its caret, which follow, are passed over; all else that is said stays in the list as text.
CompilerSet errorformat=%E%f:%l:%c:\ %m,%-Z%\\s%#^,%-C%.%#
