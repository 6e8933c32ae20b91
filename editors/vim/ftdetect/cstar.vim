" Files *.cs are C# to Vim. One is C* if it declares a shape, as in 'shape [8]S;', or a parallel
" variable with its shape, as in 'int:S p'. Any other file is set by hand with ':set filetype=cstar',
" or by a line '/* vim: set filetype=cstar: */' at its top or end.
"
" To install: copy the folders ftdetect and syntax into ~/.vim, or put this file's parent folder on
" 'runtimepath' before the line 'filetype on'.

function! s:Detect() abort
  let l:shape = '^\s*shape\s*\['
  let l:parallel = '^\s*\(\(un\)\=signed\s\+\)\=\(bool\|char\|short\|int\|long\)\s*:\s*\h\w*\s'
  if search(l:shape . '\|' . l:parallel, 'cnw') > 0
    set filetype=cstar
  endif
endfunction

autocmd BufNewFile,BufRead *.cs call s:Detect()
