if exists('b:did_ftplugin')
  finish
endif
let b:did_ftplugin = 1

setlocal comments=s0:/*!,mb:\ ,ex:*/,s1:/*,mb:*,ex:*/,:///,://!,:// commentstring=//\ %s
setlocal expandtab shiftwidth=4 softtabstop=4 textwidth=100
setlocal suffixesadd=.rt
runtime signs.vim

let b:undo_ftplugin = 'setlocal comments< commentstring< expandtab< shiftwidth< softtabstop< textwidth< suffixesadd<'
