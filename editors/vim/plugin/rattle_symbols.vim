" Digraphs for the symbols of clauses, specs and proofs for which vim has none: Ctrl+K and these two characters.
" vim has itself: -> →   <- ←   <> ↔   l* λ   k* κ   =3 ≡   =< ≤   *X ×   :: ∷   Sb ∙   -T ⊥   2s ₂
if exists("g:loaded_rattle_symbols")
  finish
endif
let g:loaded_rattle_symbols = 1
" ◌ ℕ ℤ ⟦ ⟧
digraphs o. 9676 NN 8469 ZZ 8484 [[ 10214 ]] 10215
" ≢ ⊎ ↦ ⊤
digraphs =/ 8802 u+ 8846 \|> 8614 TT 8868
