-- neovim by its init.lua, headless. STEPS is a list in JSON of steps: a command, and what is seen of the text after it, which is
-- the messages of its diagnostics and the colour of its first character. It waits for that, and prints what it sees. After a step
-- for which it waits a minute in vain, there are no more.
local function seen()
  vim.cmd("redraw")
  local all = vim.diagnostic.get(0)
  table.sort(all, function(a, b) return a.lnum < b.lnum end)
  local lines = vim.tbl_map(function(it) return it.message end, all)
  local colour = vim.inspect_pos and vim.inspect_pos(0, 0, 0).semantic_tokens[1]
  table.insert(lines, colour and colour.opts.hl_group or "not coloured")
  return lines
end

for _, step in ipairs(vim.fn.json_decode(os.getenv("STEPS"))) do
  local command, wanted = unpack(step)
  vim.cmd("silent " .. command)
  local came = vim.wait(60000, function() return vim.deep_equal(wanted, seen()) end, 20)
  io.stdout:write("== " .. command .. "\n" .. table.concat(seen(), "\n") .. "\n")
  if not came then break end
end
vim.cmd("qa!")
