" Vim compiler for ROOPL++: `:compiler rpp`, then `:make` puts the first refusal of the file into the quickfix list.
if exists("current_compiler") | finish | endif
let current_compiler = "rpp"
let s:command = get(g:, 'rpp_command', 'rpp')
execute 'CompilerSet makeprg=' . escape(shellescape(s:command) . ' check %:S', ' \|"')
" F:LINE:COL: text; other lines, as those that show the source, are no errors
CompilerSet errorformat=%f:%l:%c:\ %m,%-G%.%#
