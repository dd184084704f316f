-- Neovim reads editors/vim: `nvim --headless -u NONE -i NONE -l`-like, by `-c 'luafile neovim.lua'`, with $RPP_TOP the repository and
-- $RPP_FOLDER a folder to write in. If $RPP_INSTALLED is set, all is as a package installed it. It writes a line `ok NAME` or `FAILED NAME: why` for each trial into the file `said` there.
local top, folder, said = os.getenv('RPP_TOP'), os.getenv('RPP_FOLDER'), {}
if not os.getenv('RPP_INSTALLED') then
  vim.opt.runtimepath:prepend(top .. '/editors/vim')
  vim.g.rpp_command = top .. '/rpp'
end
vim.cmd('filetype plugin indent on')
vim.cmd('syntax enable')

local function try(name, found, wanted)
  local same = vim.deep_equal(found, wanted)
  table.insert(said, same and 'ok ' .. name or ('FAILED %s: %s and not %s'):format(name, vim.inspect(found), vim.inspect(wanted)):gsub('\n', ' '))
end

local function open(name, lines)
  vim.fn.writefile(lines, folder .. '/' .. name)
  vim.cmd('silent edit! ' .. folder .. '/' .. name)
end

local function at(line, character)
  return { textDocument = vim.lsp.util.make_text_document_params(0), position = { line = line, character = character } }
end

-- What the language server answers.
local function ask(method, parameters)
  for _, answer in pairs(vim.lsp.buf_request_sync(0, method, parameters, 60000) or {}) do
    return answer.result
  end
end

local function wait_for(count)
  vim.wait(60000, function()
    return #vim.diagnostic.get(0) == count
  end, 20)
  return vim.tbl_map(function(it)
    return { it.lnum, it.col, it.code or (it.user_data and it.user_data.lsp and it.user_data.lsp.code) }
  end, vim.diagnostic.get(0))
end

local function session()
  open('session.rpp', { 'class P', '  int x', 'method main()', '  x += 1', '  x += x' })
  try('file type', vim.bo.filetype, 'rpp')
  try('refusal', wait_for(1), { { 4, 2, 16 } })
  vim.api.nvim_buf_set_lines(0, 4, 5, false, { '  x  += 2' })
  try('no refusal', wait_for(0), {})
  try('definition', ask('textDocument/definition', at(3, 2))[1].range.start, { line = 1, character = 6 })
  try('hover', ask('textDocument/hover', at(3, 2)).contents.value:find('field of class `P`', 1, true) ~= nil, true)
  local edit = ask('textDocument/rename', vim.tbl_extend('force', at(3, 2), { newName = 'total' }))
  vim.lsp.util.apply_workspace_edit(edit, 'utf-16')
  local layout = ask('textDocument/formatting', vim.tbl_extend('force', at(0, 0), { options = { tabSize = 2, insertSpaces = true } }))
  vim.lsp.util.apply_text_edits(layout, 0, 'utf-16')
  try('renamed and laid out', vim.api.nvim_buf_get_lines(0, 0, -1, false),
    { 'class P', '  int total', '', 'method main()', '  total += 1', '  total += 2' })
end

local done, why = pcall(session)
if not done then
  table.insert(said, 'FAILED session: ' .. tostring(why):gsub('\n', ' '))
end
vim.fn.writefile(said, folder .. '/said')
vim.cmd('qall!')
