" antt: definitions that contracts cite, and proofs.
if exists('b:current_syntax')
  finish
endif

" A hyphen and a prime are letters of a name.
if &filetype ==# 'antt'
  syntax iskeyword @,48-57,_,192-255,-,'
endif

syntax keyword anttKeyword data record deriving module where use mod pub package open as axiom
syntax keyword anttKeyword unfoldable abbrev unfold unfolding ruleset mutual infix infixl infixr elim let in do
syntax keyword anttConditional if then else
syntax keyword anttTactic search rw simp omega grind cc hlevel assumption first_of
syntax keyword anttBuiltin Type Unit tt absurd

" A name in capitals is a fact, a type or a variant.
syntax match anttType /\<\u[[:alnum:]_']*/
syntax match anttNumber /\<\d[0-9a-fA-Fx_]*\>/
syntax match anttSign /[≡≢≤<>×⊎→←λ∷∙¬↔⊥⊤↦◌=+*|&%^]/
syntax match anttHole /\(^\|[[:space:](]\)\@1<=?\ze\($\|[[:space:])]\)/
syntax region anttString start=/"/ skip=/\\./ end=/"/ oneline
syntax match anttComment /\(^\|\s\)\@1<=--.*$/ contains=@Spell
syntax match anttDefinition
      \ /\(^\s*\(\(abbrev\|unfoldable\|pub\)\s\+\)*\)\@<=[^[:space:](){}:]\+\ze\s:\(\s\|$\)/
syntax match anttDefinition /\(\<\(record\|data\)\s\+\)\@<=\u[^[:space:](){}:]*/

highlight default link anttKeyword Keyword
highlight default link anttConditional Conditional
highlight default link anttTactic Macro
highlight default link anttBuiltin Constant
highlight default link anttType Type
highlight default link anttNumber Number
highlight default link anttSign Operator
highlight default link anttHole Todo
highlight default link anttString String
highlight default link anttComment Comment
highlight default link anttDefinition Function

let b:current_syntax = 'antt'
