-- Asks the bridge as a user of Neovim does, and writes what is found: `WHAT PLACE`, a line each.

local out = assert(io.open(vim.env.CODENAV_OUT, "a"))

local function show(what, path, line, column)
  out:write(("%s %s:%d:%d\n"):format(what, path, line, column))
end

local function wait_for(what, is_there)
  if not vim.wait(120000, is_there, 20) then
    io.stderr:write("nothing came of " .. what .. "\n")
    vim.cmd("cquit 1")
  end
end

vim.cmd("edit " .. vim.env.CODENAV_HOME .. "/user/src/lib.rs")
local buffer = vim.api.nvim_get_current_buf()
local client = vim.lsp.start_client({ name = "codenav", cmd = vim.split(vim.env.CODENAV_LSP, " "), root_dir = vim.env.CODENAV_HOME })
vim.lsp.buf_attach_client(buffer, client)
wait_for("initialize", function() return vim.lsp.buf_get_clients(buffer)[client] ~= nil end)

local function definition(what, line)
  vim.cmd("buffer " .. buffer)
  vim.api.nvim_win_set_cursor(0, { line, 24 })
  vim.lsp.buf.definition()
  wait_for(what, function() return vim.api.nvim_get_current_buf() ~= buffer end)
  local cursor = vim.api.nvim_win_get_cursor(0)
  show(what, vim.api.nvim_buf_get_name(0), cursor[1], cursor[2] + 1)
end

vim.o.hidden = true
definition("definition", 5)

-- the next question, in the other checkout
vim.lsp.buf_attach_client(vim.api.nvim_get_current_buf(), client)
vim.lsp.buf.references()
wait_for("references", function() return #vim.fn.getqflist() > 0 end)
for _, entry in ipairs(vim.fn.getqflist()) do
  show("references", vim.api.nvim_buf_get_name(entry.bufnr), entry.lnum, entry.col)
end
vim.cmd("cclose")

local function show_list(what, with_text)
  wait_for(what, function() return #vim.fn.getqflist() > 0 end)
  for _, entry in ipairs(vim.fn.getqflist()) do
    if with_text then
      out:write(("%s %s\n"):format(what, entry.text))
    else
      show(what, vim.fn.fnamemodify(vim.fn.bufname(entry.bufnr), ":p"), entry.lnum, entry.col)
    end
  end
  vim.fn.setqflist({}, "r")
  vim.cmd("cclose")
end

local function at(line, column)
  vim.cmd("buffer " .. buffer)
  vim.api.nvim_win_set_cursor(0, { line, column - 1 })
end

vim.fn.setqflist({}, "r")
at(5, 25)
vim.lsp.buf.document_symbol()
show_list("outline")
at(5, 25)
vim.lsp.buf.workspace_symbol("AHREN")
show_list("names")
at(5, 25)
vim.lsp.buf.incoming_calls()
show_list("incoming")
at(4, 8)
vim.lsp.buf.outgoing_calls()
show_list("outgoing", true)
at(5, 25)
local marks = vim.api.nvim_create_namespace("vim_lsp_references")
vim.lsp.buf.document_highlight()
wait_for("highlight", function() return #vim.api.nvim_buf_get_extmarks(buffer, marks, 0, -1, {}) > 0 end)
for _, mark in ipairs(vim.api.nvim_buf_get_extmarks(buffer, marks, 0, -1, {})) do
  show("highlight", vim.api.nvim_buf_get_name(buffer), mark[2] + 1, mark[3] + 1)
end
local tick = vim.api.nvim_buf_get_changedtick(buffer)
vim.lsp.buf.rename("other")
out:write(("renamed %s\n"):format(vim.api.nvim_buf_get_changedtick(buffer) == tick and "nothing" or "it"))

vim.api.nvim_buf_set_lines(buffer, 0, 0, false, { "// unsaved", "" })
definition("edited", 7)
out:close()
vim.cmd("qall!")
