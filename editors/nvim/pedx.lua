-- pedx as a language server in Neovim 0.7 or later: `:luafile editors/nvim/pedx.lua`, or `dofile('.../pedx.lua')` in init.lua.
-- `pedx` has to be on the PATH, or PEDX has the command as a list in JSON.
local words = vim.env.PEDX and vim.json.decode(vim.env.PEDX) or {'pedx', 'serve'}

local function attach(client, buffer)
  local function key(keys, what, does)
    vim.keymap.set('n', keys, does, {buffer = buffer, desc = what})
  end
  key('K', 'why the rows of a reference are there', vim.lsp.buf.hover)
  key('gra', 'steps that ped accepts at this loop', vim.lsp.buf.code_action)
  key('gro', 'export to OpenMP', function()
    vim.lsp.buf.execute_command({command = 'pedx.omp', arguments = {vim.uri_from_bufnr(buffer)}})
  end)
  local function lenses()
    vim.lsp.codelens.refresh()
  end
  vim.api.nvim_create_autocmd({'BufEnter', 'InsertLeave', 'TextChanged'}, {buffer = buffer, callback = lenses})
  lenses()
end

vim.api.nvim_create_autocmd({'BufReadPost', 'BufNewFile'}, {
  pattern = {'*.f', '*.for', '*.f90', '*.f95', '*.F', '*.F90'},
  callback = function(event)
    local client = vim.lsp.start_client({name = 'pedx', cmd = words, on_attach = attach})
    if client then vim.lsp.buf_attach_client(event.buf, client) end
  end,
})
