" Vim for ROOPL++ (*.rpp): comments, `:make`, jumps between the words of a statement, and in Neovim the language server.
" g:rpp_command names the command if it is not `rpp`; g:rpp_language_server = 0 leaves the server out.
if exists("b:did_ftplugin") | finish | endif
let b:did_ftplugin = 1
let s:keep = &cpo
set cpo&vim

setlocal commentstring=//\ %s comments=:// iskeyword+=' expandtab shiftwidth=2 softtabstop=2
compiler rpp

" (for the plugin matchit)
let b:match_words = '\<if\>:\<then\>:\<else\>:\<fi\>,\<from\>:\<do\>:\<loop\>:\<until\>,\<local\>:\<delocal\>,\<construct\>:\<destruct\>'

" After a block's head one step in; its closing word is at the level of the head.
setlocal indentexpr=RppIndent(v:lnum) indentkeys=o,O,=else,=fi,=loop,=until,=delocal,=destruct,=method,=class

let b:undo_ftplugin = "setlocal commentstring< comments< iskeyword< expandtab< shiftwidth< softtabstop< indentexpr< indentkeys<"
            \ . " makeprg< errorformat< | unlet! b:match_words"

if !exists('*RppIndent')
    function RppIndent(line) abort
        let l:text = getline(a:line)
        if l:text =~# '^\s*\(class\|method\)\>'
            return 0
        endif
        let l:above = prevnonblank(a:line - 1)
        let l:before = substitute(getline(l:above), '\s*//.*$', '', '')
        let l:opens = l:before =~# '^\s*\(class\|method\|local\|construct\)\>\|\<\(then\|do\|else\|loop\)$'
        let l:closes = l:text =~# '^\s*\(else\|fi\|loop\|until\|delocal\|destruct\)\>'
        return max([0, indent(l:above) + (l:opens - l:closes) * shiftwidth()])
    endfunction
endif

if has('nvim') && get(g:, 'rpp_language_server', 1) && executable(get(g:, 'rpp_command', 'rpp'))
    lua require('rpp').attach()
endif

let &cpo = s:keep
unlet s:keep
