if exists('b:did_ftplugin')
  finish
endif
let b:did_ftplugin = 1

setlocal iskeyword=@,48-57,_,192-255,-,'
setlocal comments=:-- commentstring=--\ %s
setlocal expandtab shiftwidth=2 softtabstop=2 textwidth=100
setlocal suffixesadd=.antt
runtime signs.vim

let b:undo_ftplugin = 'setlocal iskeyword< comments< commentstring< expandtab< shiftwidth< softtabstop< textwidth<'
      \ . ' suffixesadd<'
