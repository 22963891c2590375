" The three kinds of files, by their names: script, schedule and trace, or any name with such an ending; and any other file
" that has no kind yet, by its first line that is no comment.
autocmd BufRead,BufNewFile script,*.script set filetype=hipcscript
autocmd BufRead,BufNewFile schedule,*.schedule set filetype=hipcschedule
autocmd BufRead,BufNewFile trace,*.trace set filetype=hipctrace
autocmd BufRead * if &filetype ==# '' | call s:ByFirstLine() | endif

let s:name = '\s\+[a-z][a-z0-9_]*'
let s:number = '\s\+\d[0-9A-Fa-fx]*'
let s:forms = ['step' . s:name, 'step' . s:name . '\s\+x' . s:number, 'kill' . s:name, 'hangup' . s:name . s:number,
      \ 'spawn' . s:name . s:name]
let s:schedule = '^\s*\(' . join(s:forms, '\|') . '\)\s*\(#.*\)\?$'

function! s:ByFirstLine() abort
  let l:number = nextnonblank(1)
  while l:number > 0 && getline(l:number) =~# '^\s*#'
    let l:number = nextnonblank(l:number + 1)
  endwhile
  let l:line = getline(l:number)
  " made by tools/words: kinds
  if l:line =~# '^\s*\(ns\s*\|\(task\|template\)\s\+[a-z][a-z0-9_]*\s\+\(raw\|async\|block\)\>.*\)$'
    set filetype=hipcscript
  elseif l:line =~# s:schedule && l:line !~# '^kill t\d\+$'
    set filetype=hipcschedule
  " made by tools/words: heads
  elseif l:line =~# '^\(t\d\+ \(call\|receive\|answer\|forward\|hangup\|area\|unarea\|poke\|peek\|nothing\|ended\)\>\|\(kill\|spawn\) t\d\+$\)'
    set filetype=hipctrace
  endif
endfunction
