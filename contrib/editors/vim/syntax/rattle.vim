" Rattle: Rust with contracts, whose clauses and ghost members are antt.
if exists('b:current_syntax')
  finish
endif

runtime! syntax/rust.vim
unlet! b:current_syntax
syntax include @rattleAntt syntax/antt.vim
unlet! b:current_syntax

" Braces within a term, as of a record.
syntax region rattleTerm start=/{/ end=/}/ contained transparent contains=@rattleAntt,rattleTerm

" A clause: `ensures name { term }`.
syntax region rattleClause matchgroup=rattleGhost
      \ start=/\<\(ensures\|requires\)\>\*\?\(\s\+\h\w*\)\?\s*{/ end=/}/ contains=@rattleAntt,rattleTerm
" A ghost member or value: `ghost name = { term };`, `ghost name: { term } = { term };`.
syntax region rattleMember matchgroup=rattleGhost start=/\<ghost\s\+\h\w*\s*[:=]/
      \ end=/;/ end=/\ze\<\(ensures\|requires\)\>/ contains=rattleTerm
" An import: `ghost use Rattle.std.specs.Prelude.{◌≡◌};`.
syntax region rattleImport matchgroup=rattleGhost start=/\<ghost\s\+use\>/ end=/;/ contains=@rattleAntt,rattleTerm

highlight default link rattleGhost PreProc

let b:current_syntax = 'rattle'
