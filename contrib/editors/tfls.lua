-- Neovim 0.7 or later: formats a Terraform file by the language server tfls when it is written, and shows why it is refused,
-- and the linter's issues in its module.
--
-- Copy this file to ~/.config/nvim/plugin/tfls.lua. A text that is refused is written as it is, and has a diagnostic.
-- The package in ../vim formats by calls of tffmt: with both, put `let g:tffmt_on_save = 0` into the settings.
--
-- vim.g.tfls_program names the program if it isn't `tfls` on the path.

local names = { "*.tf", "*.tfvars", "*.tofu", "*.tftest.hcl", "*.tfmock.hcl", "*.tfquery.hcl", "*.tofutest.hcl" }
local group = vim.api.nvim_create_augroup("tfls", {})
local started

local function start(event)
  local program = vim.g.tfls_program or "tfls"
  if vim.fn.executable(program) == 0 then
    vim.notify_once(program .. ": not found", vim.log.levels.WARN)
    return
  end
  local settings = { name = "tfls", cmd = { program }, root_dir = vim.fn.getcwd() }
  if vim.lsp.start then
    started = vim.lsp.start(settings, { bufnr = event.buf })
    return
  end
  if not (started and vim.lsp.get_client_by_id(started)) then
    started = vim.lsp.start_client(settings)
  end
  if started then
    vim.lsp.buf_attach_client(event.buf, started)
  end
end

local function format(event)
  local client = started and vim.lsp.get_client_by_id(started)
  if not client then
    return
  end
  -- A file can be written before the server has answered for the first time.
  vim.wait(5000, function() return client.initialized or not vim.lsp.get_client_by_id(client.id) end, 5)
  if vim.lsp.buf.format then
    vim.lsp.buf.format({ bufnr = event.buf, name = "tfls", timeout_ms = 5000 })
    return
  end
  local asked = { textDocument = { uri = vim.uri_from_bufnr(event.buf) }, options = { tabSize = 2, insertSpaces = true } }
  local answer = client.request_sync("textDocument/formatting", asked, 5000, event.buf)
  vim.lsp.util.apply_text_edits(answer and answer.result or {}, event.buf, client.offset_encoding)
end

vim.api.nvim_create_autocmd({ "BufReadPost", "BufNewFile" }, { group = group, pattern = names, callback = start })
vim.api.nvim_create_autocmd("BufWritePre", { group = group, pattern = names, callback = format })
