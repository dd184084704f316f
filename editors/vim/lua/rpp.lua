-- Neovim's own clients for ROOPL++: the language server, and the debug adapter for the plugin nvim-dap.
local rpp = {}

-- The command by its path, because on Windows only that says that it is a script.
local function command()
  local name = vim.g.rpp_command or 'rpp'
  local path = vim.fn.exepath(name)
  return path ~= '' and path or name
end

-- Attaches the language server to the current buffer; one server serves all buffers.
function rpp.attach()
  local config = { name = 'rpp', cmd = { command(), 'lsp' }, root_dir = vim.fn.getcwd() }
  if vim.lsp.start then
    return vim.lsp.start(config)
  end
  -- (before Neovim 0.8)
  rpp.client = rpp.client or vim.lsp.start_client(vim.tbl_extend('force', config, {
    on_exit = function()
      rpp.client = nil
    end,
  }))
  if rpp.client then
    vim.lsp.buf_attach_client(0, rpp.client)
  end
  return rpp.client
end

-- Makes nvim-dap able to debug a program: `require('rpp').debugging()` in the configuration.
function rpp.debugging()
  local dap = require('dap')
  dap.adapters.rpp = { type = 'executable', command = command(), args = { 'dap' } }
  dap.configurations.rpp = { { type = 'rpp', request = 'launch', name = 'Debug both ways', program = '${file}', stopOnEntry = true } }
end

return rpp
