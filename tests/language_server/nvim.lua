-- neovim's own client, headless, on the file FILE with the server SERVER (a command line). STEPS are commands of neovim with a bar
-- between two. It prints the diagnostics after each step, the text, how many tokens there are, and whether the server ended.
local words = vim.split(os.getenv("SERVER"), "%s+")
vim.cmd("edit " .. os.getenv("FILE"))
local buffer = vim.api.nvim_get_current_buf()
local function say(text) io.stdout:write(text .. "\n") end

local function show(title)
  say("== " .. title)
  local all = vim.diagnostic.get(buffer)
  table.sort(all, function(a, b) return a.lnum < b.lnum end)
  for _, d in ipairs(all) do
    say(string.format("%d:%d-%d:%d %s", d.lnum + 1, d.col + 1, d.end_lnum + 1, d.end_col + 1, d.message))
  end
  if #all == 0 then say("no diagnostics") end
end

-- A request is answered after all that was sent before it. So what the server told of that has come by then, however slow the machine is.
local function settle()
  local document = { textDocument = vim.lsp.util.make_text_document_params(buffer) }
  return vim.lsp.buf_request_sync(buffer, "textDocument/semanticTokens/full", document, 20000)
end

-- `start` is there from 0.8 on, and `start_client` goes.
local id = (vim.lsp.start or vim.lsp.start_client)({ name = "rolgumzai", cmd = words, root_dir = vim.fn.getcwd() })
vim.lsp.buf_attach_client(buffer, id)
vim.wait(5000, function()
  local client = vim.lsp.get_client_by_id(id)
  return client and client.initialized
end, 10)
local client = vim.lsp.get_client_by_id(id)
say("encoding " .. client.offset_encoding)
settle()
show("opened")
for step in (os.getenv("STEPS") or ""):gmatch("[^|]+") do
  vim.cmd("silent " .. step)
  settle()
  show("after :" .. step)
end
say("== text")
say(table.concat(vim.api.nvim_buf_get_lines(buffer, 0, -1, true), "\n"))
for _, answer in pairs(settle() or {}) do
  say("== tokens " .. (answer.result and #answer.result.data / 5 or vim.inspect(answer.err)))
end
-- From 0.11 on these are methods.
if vim.fn.has("nvim-0.11") == 1 then client:stop() else client.stop() end
vim.wait(20000, function() return vim.lsp.get_client_by_id(id) == nil end, 10)
say("stopped " .. tostring(vim.lsp.get_client_by_id(id) == nil))
vim.cmd("qa!")
