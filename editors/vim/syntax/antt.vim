" Syntax of antt: specs and proofs of a Rattle crate.
if exists("b:current_syntax")
  finish
endif
syntax case match
" a dash or a prime goes on with a name: in-Show is one
syntax iskeyword @,48-57,_,192-255,-,'

syntax keyword anttStructure data record module where mod abbrev axiom ruleset mutual deriving
syntax keyword anttStorage pub unfoldable unfolding unfold infix infixl infixr
syntax keyword anttInclude use open as package
syntax keyword anttKeyword let in do elim
syntax keyword anttConditional if then else
syntax keyword anttTactic rw simp search cc omega grind grw hlevel assumption first_of
syntax keyword anttType Type Unit
syntax match anttLambda "λ"
syntax match anttType "[ℕℤ𝕀𝔽]"
syntax match anttOperator "[→←↔↦≡≢≤×⊎∷∙⊥⊤◌⟦⟧∥]\|&&\|||\|++\|==\|=\|:"
" types and modules begin with a capital letter
syntax match anttName "\<\u\k*"
syntax match anttNumber "\<\(0x[0-9a-fA-F_]\+\|\d[0-9_]*\)\>"
syntax match anttHole "?\k*"
syntax match anttEscaped "«[^»]*»"
syntax region anttString start=+"+ skip=+\\.+ end=+"+ oneline
syntax match anttComment "\(^\|\s\)\@1<=--.*$" contains=anttTodo,@Spell
syntax region anttComment start="{-" end="-}" contains=anttTodo,@Spell
syntax keyword anttTodo TODO FIXME contained
syntax sync minlines=100

highlight default link anttStructure Structure
highlight default link anttStorage StorageClass
highlight default link anttInclude Include
highlight default link anttKeyword Keyword
highlight default link anttConditional Conditional
highlight default link anttTactic Macro
highlight default link anttType Type
highlight default link anttLambda Keyword
highlight default link anttOperator Operator
highlight default link anttName Identifier
highlight default link anttNumber Number
highlight default link anttHole Error
highlight default link anttEscaped Identifier
highlight default link anttString String
highlight default link anttComment Comment
highlight default link anttTodo Todo
let b:current_syntax = "antt"
