-- Neovim: starts the language server for a Lucid program. Put this file into ~/.config/nvim/ftplugin, and lucid.vim into ~/.config/nvim/syntax.
-- `vim.g.lucid_lsp` is another command than lucid-lsp, as { "/path/to/tools/lsp" }. The keys are those that you map for any server.
vim.bo.commentstring = "// %s"
vim.bo.shiftwidth = 2
vim.bo.expandtab = true
local command = vim.g.lucid_lsp or { "lucid-lsp" }
local config = { name = "lucid", cmd = command, root_dir = vim.fn.expand("%:p:h") }
if vim.fn.executable(command[1]) == 0 then
  return
elseif vim.lsp.start then -- 0.8 or later
  vim.lsp.start(config)
else
  for _, client in pairs(vim.lsp.get_active_clients()) do
    if client.name == "lucid" then
      vim.lsp.buf_attach_client(0, client.id)
      return
    end
  end
  vim.lsp.buf_attach_client(0, vim.lsp.start_client(config))
end
