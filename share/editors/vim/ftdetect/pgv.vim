" Descriptions, programs and certificates of pgv. A .s or .cert of something else is left alone.
autocmd BufRead,BufNewFile *.isa setfiletype pgvisa
autocmd BufRead,BufNewFile *.cert,*.saved if getline(1) =~# '^\(pgcert\|pghybrid\|pgguest\) \d\+$' | set filetype=pgvcert | endif
autocmd BufRead,BufNewFile *.s if PgvIsSource() | set filetype=pgvasm | endif

" Whether the first lines are those of a source: each has one of its forms, and one has fields or is a word, or there are no others.
function! PgvIsSource() abort
  let l:sure = line('$') <= 40
  for l:line in getline(1, 40)
    let l:text = substitute(l:line, '#.*', '', '')
    if l:text =~# '^\s*\(word\s\+\x\+\|\a\w*\(\s\+\l=\w\+\)\+\)\s*$'
      let l:sure = 1
    elseif l:text !~# '^\s*\(@\d\+\|\a\w*:\|\a\w*\)\?\s*$'
      return 0
    endif
  endfor
  return l:sure
endfunction
