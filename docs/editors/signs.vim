" The signs of contracts: CTRL-K and two characters. Vim has the others already.
set encoding=utf-8
digraphs == 8801
digraphs =/ 8802
digraphs \|> 8614
digraphs U+ 8846
digraphs :: 8759
digraphs NN 8469
digraphs tt 8868
digraphs ff 8869
digraphs o. 9676
digraphs [[ 10214
digraphs ]] 10215
autocmd BufRead,BufNewFile *.rt setlocal filetype=rust
