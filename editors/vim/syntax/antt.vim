" antt: the definitions that contracts cite (specs/) and what is written of proofs (proofs/).
if exists('b:current_syntax')
  finish
endif

syntax match anttComment /--.*$/ contains=anttTodo,@Spell
syntax keyword anttTodo contained TODO FIXME
syntax keyword anttKeyword use pub mod module open let in if then else elim as by unfolding where mutual
syntax keyword anttDeclare abbrev unfoldable data record ruleset law
syntax keyword anttTactic search grind simp omega rw assumption arith refl subst
syntax keyword anttConstructor true false zero suc None Some tt
syntax match anttType /\<[A-Z]\w*\>/
syntax match anttType /ℕ/
syntax match anttOperator /[≡≤≥≠<>=+*^/%×⊎→∷∙∘¬λ|:]\|\\/
syntax match anttHole /?/
syntax match anttNumber /\<\d\+\>/
" A declaration: a name at the start of a line, and its type behind a colon.
syntax match anttName /\%(^\%(\%(abbrev\|unfoldable\)\s\+\)\?\%(pub\s\+\)\?\)\@<=[a-z][A-Za-z0-9_+.-]*\ze\s*:\s/
syntax match anttPath /\<Rattle\%(\.[A-Za-z0-9_+-]\+\)\+/

highlight default link anttComment Comment
highlight default link anttTodo Todo
highlight default link anttKeyword Keyword
highlight default link anttDeclare Structure
highlight default link anttTactic Macro
highlight default link anttConstructor Constant
highlight default link anttType Type
highlight default link anttOperator Operator
highlight default link anttHole Error
highlight default link anttNumber Number
highlight default link anttName Function
highlight default link anttPath Include

let b:current_syntax = 'antt'
