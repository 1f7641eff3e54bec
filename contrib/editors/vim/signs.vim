" Signs of antt, typed as a backslash and a name while inserting.
for [s:name, s:sign] in [
      \ ['hole', '◌'], ['x', '×'], ['lam', 'λ'], ['to', '→'], ['eq', '≡'], ['neq', '≢'], ['le', '≤'],
      \ ['::', '∷'], ['or', '⊎'], ['not', '¬'], ['iff', '↔'], ['bot', '⊥'], ['nat', 'ℕ'], ['int', 'ℤ'],
      \ ['then', '∙'], ['case', '↦'],
      \ ]
  execute 'inoremap <buffer> \' . s:name s:sign
endfor
