" Rattle: Rust with contracts. Vim's own colours for Rust, and on top of them the clauses of contracts and what is ghost.
if exists('b:current_syntax')
  finish
endif
runtime! syntax/rust.vim
unlet! b:current_syntax

" requires NAME { TERM }, ensures NAME { TERM }: a keyword, a name if there is one, and a term of antt between braces.
syntax match rattleClause /\<\%(requires\|ensures\)\>\*\?\ze[^;(]*{/ nextgroup=rattleName,rattleTerm skipwhite skipempty
syntax match rattleName /\*\?\s*\<\w\+\>/ contained nextgroup=rattleTerm skipwhite skipempty
syntax region rattleTerm matchgroup=rattleBrace start=/{/ end=/}/ contained contains=rattleTermWord,rattleOperator,rattleMoment,rattleNested,rattleNumber
syntax region rattleNested start=/{/ end=/}/ contained contains=rattleTermWord,rattleOperator,rattleMoment,rattleNested,rattleNumber
syntax keyword rattleTermWord contained let in if then else result record λ
syntax match rattleOperator /[≡≤≥<>=+*^/%×⊎→∷¬λ-]\+/ contained
syntax match rattleMoment /\.\%(now\|old\|new\)\>/ contained
syntax match rattleNumber /\<\d\+\>/ contained

" ghost use PATH.{NAMES}; ghost NAME = { TERM };
syntax region rattleGhostUse matchgroup=rattleGhost start=/\<ghost\s\+use\>/ end=/;/ contains=rattleOperator
syntax match rattleGhostItem /\<ghost\s\+\%(use\>\)\@!\w\+/ contains=rattleGhostWord nextgroup=rattleIs skipwhite
syntax match rattleIs /[:=]/ contained nextgroup=rattleTerm skipwhite skipempty
syntax keyword rattleGhostWord ghost contained
syntax keyword rattleProve prove

highlight default link rattleClause Keyword
highlight default link rattleName Label
highlight default link rattleBrace Delimiter
highlight default link rattleTermWord Keyword
highlight default link rattleOperator Operator
highlight default link rattleMoment Special
highlight default link rattleNumber Number
highlight default link rattleGhost PreProc
highlight default link rattleGhostUse Include
highlight default link rattleGhostItem Identifier
highlight default link rattleGhostWord PreProc
highlight default link rattleProve Macro

let b:current_syntax = 'rattle'
