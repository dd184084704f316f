" Vim reads editors/vim: `vim -es -N -u NONE -i NONE -S vim.vim`, with $RPP_TOP the repository and $RPP_FOLDER a folder to write in.
" If $RPP_INSTALLED is set, Vim and the command `rpp` are as a package installed them. It writes a line `ok NAME` or `FAILED NAME: why` for each trial into the file `said` of that folder.
set nomore
let s:top = $RPP_TOP
let s:said = []
if $RPP_INSTALLED ==# ''
    execute 'set runtimepath^=' . fnameescape(s:top . '/editors/vim')
    let g:rpp_command = s:top . '/rpp'
endif
filetype plugin indent on
syntax enable

function s:Try(name, found, wanted)
    call add(s:said, a:found ==# a:wanted ? 'ok ' . a:name : 'FAILED ' . a:name . ': ' . string(a:found) . ' and not ' . string(a:wanted))
endfunction

function s:Group(line, column)
    return synIDattr(synID(a:line, a:column, 1), 'name')
endfunction

function s:Open(name, lines)
    call writefile(a:lines, $RPP_FOLDER . '/' . a:name)
    execute 'silent edit! ' . fnameescape($RPP_FOLDER . '/' . a:name)
endfunction

function s:Highlighting()
    call s:Open('words.rpp', ['class P // class', "  int x' // 1", 'method main()', "  x' += 1 * 2"])
    call s:Try('file type', &filetype, 'rpp')
    call s:Try('words', [s:Group(1, 1), s:Group(1, 10), s:Group(2, 3), s:Group(2, 7), s:Group(4, 6), s:Group(4, 9), s:Group(4, 11)],
                \ ['rppStructure', 'rppComment', 'rppType', '', 'rppOperator', 'rppNumber', 'rppRefused'])
    call s:Open('words.pisa', ['top: ADDI $3 -40 ; ADD', 'STATIC 3', 'MARK 1 4 28', 'NAME 40 ADD'])
    call s:Try('assembly', &filetype, 'pisa')
    call s:Try('notes', [s:Group(1, 1), s:Group(1, 6), s:Group(1, 11), s:Group(1, 15), s:Group(1, 20), s:Group(2, 1), s:Group(3, 1), s:Group(3, 6),
                \ s:Group(4, 1), s:Group(4, 6), s:Group(4, 9)],
                \ ['pisaLabel', 'pisaOp', 'pisaRegister', 'pisaNumber', 'pisaComment', 'pisaData', 'pisaData', 'pisaNumber',
                \ 'pisaFieldNote', 'pisaNumber', 'pisaField'])
endfunction

function s:Make()
    call s:Open("it's wrong.rpp", ['class P', '  int x', 'method main()', '  x += 1', '  x += x'])
    silent make!
    let l:found = filter(getqflist(), 'v:val.valid')
    call s:Try('make', map(copy(l:found), '[bufname(v:val.bufnr), v:val.lnum, v:val.col]'), [[bufname('%'), 5, 3]])
    call s:Try('message', len(l:found) == 1 ? l:found[0].text =~# 'SelfUpdate' : l:found, 1)
    call s:Open('right.rpp', ['class P', '  int x', 'method main()', '  x += 1'])
    silent make!
    call s:Try('no message', len(filter(getqflist(), 'v:val.valid')), 0)
endfunction

function s:Indentation()
    let l:wanted = readfile(s:top . '/examples/list.rpp')
    call s:Open('flat.rpp', map(copy(l:wanted), 'substitute(v:val, "^ *", "", "")'))
    silent normal! gg=G
    call s:Try('indentation', getline(1, '$'), l:wanted)
    call s:Try('comments', &commentstring, '// %s')
endfunction

" Debian's package vim-ale has a client of language servers for Vim.
function s:LanguageServer()
    let l:ale = '/usr/share/vim-ale'
    if !isdirectory(l:ale)
        call add(s:said, 'skipped language server: there is no vim-ale')
        return
    endif
    execute 'set runtimepath^=' . l:ale
    let g:ale_linters = {'rpp': ['rpp']}
    let g:ale_lint_delay = 0
    let g:ale_echo_cursor = 0
    execute 'source ' . l:ale . '/plugin/ale.vim'
    call s:Open('served.rpp', ['class P', '  int x', 'method main()', '  x += 1', '  x += x'])
    let l:left = 600
    while l:left && !len(ale#engine#GetLoclist(bufnr('%')))
        sleep 100m
        let l:left -= 1
    endwhile
    let l:found = ale#engine#GetLoclist(bufnr('%'))
    call s:Try('language server', map(copy(l:found), '[v:val.lnum, v:val.col]'), [[5, 3]])
    call ale#lsp#StopAll()
endfunction

for s:each in ['Highlighting', 'Make', 'Indentation', 'LanguageServer']
    try
        call call('s:' . s:each, [])
    catch
        call add(s:said, 'FAILED ' . s:each . ': ' . v:exception . ' ' . v:throwpoint)
    endtry
endfor
call writefile(s:said, $RPP_FOLDER . '/said')
qall!
