-- Asks the bridge as a user of Neovim does, at the line and the column that CODENAV_AT says, and prints what is shown: `WHAT TEXT`, a line each.
-- Names, an edited file and a file that isn't in the dump are asked where CODENAV_MORE is set.

local function show(what, text)
  io.stdout:write(what .. " " .. text .. "\n")
end

local function wait_for(what, is_there)
  if not vim.wait(30000, is_there, 20) then
    io.stderr:write("nothing came of " .. what .. "\n")
    vim.cmd("cquit 1")
  end
end

local function path(buffer)
  return vim.fn.fnamemodify(vim.fn.bufname(buffer), ":.")
end

local function show_list(what)
  wait_for(what, function() return #vim.fn.getqflist() > 0 end)
  for _, entry in ipairs(vim.fn.getqflist()) do
    show(what, ("%s:%d:%d: %s"):format(path(entry.bufnr), entry.lnum, entry.col, vim.trim(entry.text)))
  end
  vim.fn.setqflist({}, "r")
  vim.cmd("cclose")
end

local messages = {}
for method, what in pairs({ ["window/logMessage"] = "edited", ["window/showMessage"] = "refused" }) do
  vim.lsp.handlers[method] = function(_, result) messages[what] = result.message end
end

local buffer = vim.api.nvim_get_current_buf()
local client = vim.lsp.start_client({ name = "codenav", cmd = vim.fn.json_decode(vim.env.CODENAV_LSP), root_dir = vim.fn.getcwd() })
vim.lsp.buf_attach_client(buffer, client)
wait_for("initialize", function() return vim.lsp.buf_get_clients(buffer)[client] ~= nil end)

local line, column = vim.env.CODENAV_AT:match("(%d+):(%d+)")

local function at_call()
  vim.cmd("buffer " .. buffer)
  vim.api.nvim_win_set_cursor(0, { tonumber(line), tonumber(column) - 1 })
end

at_call()
vim.lsp.buf.definition()
wait_for("definition", function() return vim.api.nvim_get_current_buf() ~= buffer end)
local cursor = vim.api.nvim_win_get_cursor(0)
show("definition", ("%s:%d:%d"):format(path(vim.api.nvim_get_current_buf()), cursor[1], cursor[2] + 1))

at_call()
vim.lsp.buf.references()
show_list("references")

at_call()
vim.lsp.buf.hover()
wait_for("hover", function() return #vim.api.nvim_list_wins() > 1 end)
for _, window in ipairs(vim.api.nvim_list_wins()) do
  if vim.api.nvim_win_get_config(window).relative ~= "" then
    for _, line in ipairs(vim.api.nvim_buf_get_lines(vim.api.nvim_win_get_buf(window), 0, -1, false)) do
      if line:match("%w") then show("hover", line) end
    end
    vim.api.nvim_win_close(window, true)
  end
end

if not vim.env.CODENAV_MORE then vim.cmd("qall!") end

vim.lsp.buf.workspace_symbol("is_w")
show_list("symbol")

at_call()
messages.edited = nil
vim.api.nvim_buf_set_lines(buffer, 0, 0, false, { "// edited" })
vim.lsp.buf_request(buffer, "textDocument/hover", vim.lsp.util.make_position_params(), function() end)
wait_for("an edited file", function() return messages.edited ~= nil end)
show("edited", messages.edited:match("demo/user.*"))

vim.cmd("edit! demo/crate/Cargo.toml")
vim.lsp.buf_attach_client(0, client)
vim.lsp.buf.definition()
wait_for("a file that isn't in the dump", function() return messages.refused ~= nil end)
show("refused", messages.refused:match("D02 [%a ]*"))
vim.cmd("qall!")
