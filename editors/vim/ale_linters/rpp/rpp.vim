" The language server for the plugin ALE, which gives Vim a client: diagnostics, ALEHover, ALEGoToDefinition, ALEFindReferences, ALERename.
function! ale_linters#rpp#rpp#Command(buffer) abort
    return '%e lsp'
endfunction

function! ale_linters#rpp#rpp#Root(buffer) abort
    return fnamemodify(bufname(a:buffer), ':p:h')
endfunction

call ale#linter#Define('rpp', {
            \ 'name': 'rpp',
            \ 'lsp': 'stdio',
            \ 'executable': {buffer -> get(g:, 'rpp_command', 'rpp')},
            \ 'command': function('ale_linters#rpp#rpp#Command'),
            \ 'project_root': function('ale_linters#rpp#rpp#Root'),
            \ })
