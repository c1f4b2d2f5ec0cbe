-- Asks Neovim for what the server of docs/EDITORS.md brings to the source that is open, and prints it.
local function wait(test) return vim.wait(30000, test, 50) end
local function ask(method, more)
  local params = vim.tbl_extend("force", vim.lsp.util.make_position_params(), more or {})
  local found = vim.lsp.buf_request_sync(0, method, params, 30000) or {}
  for _, it in pairs(found) do return it.result or it.error end
end
local function run()
  wait(function() return #vim.diagnostic.get(0) > 0 end)
  for _, it in ipairs(vim.diagnostic.get(0)) do print("diagnostic " .. it.lnum .. " " .. tostring(it.code or it.user_data.lsp.code) .. ": " .. it.message .. "\n") end
  vim.fn.search("q of Pair.*/")
  vim.fn.search('q("', "e")
  vim.cmd("normal! h")
  print("hover " .. ask("textDocument/hover").contents.value .. "\n")
  vim.fn.search("Load in Pair")
  vim.fn.search("Load,")
  local there = ask("textDocument/definition")
  print("definition " .. (there.range or there[1].range).start.line .. "\n")
  vim.fn.search('q("', "b")
  local edit = ask("textDocument/rename", { newName = "data" })
  vim.lsp.util.apply_workspace_edit(edit, "utf-16")
  local count = 0
  for _, line in ipairs(vim.api.nvim_buf_get_lines(0, 0, -1, false)) do if line:find("data") then count = count + 1 end end
  print("renamed " .. count .. " lines\n")
end
local is_done, why = pcall(run)
if not is_done then print("fault " .. tostring(why) .. "\n") end
vim.cmd("qall!")
