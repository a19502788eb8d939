" A wrong body: lines `fn: PATH`, `file: FILE`, `goal: GOAL`, and pairs of `old: TEXT` and `new: TEXT`.
if exists('b:current_syntax')
  finish
endif

syntax match rattleEditWord /^\%(fn\|file\|goal\):/
syntax match rattleEditOld /^old:.*$/
syntax match rattleEditNew /^new:.*$/

highlight default link rattleEditWord Keyword
highlight default link rattleEditOld DiffDelete
highlight default link rattleEditNew DiffAdd

let b:current_syntax = 'rattle_edit'
