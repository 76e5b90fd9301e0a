" Colours programs of pardo: `:source docs/editors/pardo.vim`, and open them.
function! s:Colour() abort
  setlocal commentstring=;\ %s
  syntax clear
  syntax keyword Statement pardo rule const procs shared private code assert
  syntax keyword Conditional if elsif else
  syntax keyword Repeat for to downto while end
  syntax keyword Operator and or xor
  syntax keyword Function min max lg
  syntax match Type "\(^\s*rule\s\+\)\@<=\(common\|priority\|crew\)\>"
  syntax match Number "\<\d\+\>"
  syntax match Comment ";.*$"
endfunction
augroup pardo
  autocmd!
  autocmd BufRead,BufNewFile *.pardo call s:Colour()
augroup END
