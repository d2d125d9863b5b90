-- nvim --headless -u INIT -S nvim.lua FILE    Neovim's own client against the server on the PATH; tools/tests/language_server.py says what FILE has.
-- The last line is `ok` where all is well.
local FORMATTED = "'é漢😀';1; let x = 1; // (kept)\nlet y = x + 2; y;"

local function say(text) io.stdout:write(text .. '\n') end
local function die(text)
  say('FAILED: ' .. text)
  vim.cmd('cquit 1')
end
local function wait(what, test) if not vim.wait(240000, test, 20) then die(what) end end
local function text_of(buffer) return table.concat(vim.api.nvim_buf_get_lines(buffer, 0, -1, false), '\n') end
local function ask(buffer, method, more)
  local params = vim.tbl_extend('error', { textDocument = vim.lsp.util.make_text_document_params() }, more)
  local found = {}
  for _, it in pairs(vim.lsp.buf_request_sync(buffer, method, params, 240000)) do table.insert(found, it.result) end
  return found[1]
end

local function connected(buffer)
  local clients = vim.tbl_values((vim.lsp.get_clients or vim.lsp.buf_get_clients)(vim.lsp.get_clients and { bufnr = buffer } or buffer))
  return clients[1] and clients[1].initialized and clients[1] or nil
end

local function reports(buffer)
  local seen = {}
  for _, it in ipairs(vim.diagnostic.get(buffer)) do table.insert(seen, string.format('%d:%d-%d %s', it.lnum + 1, it.col + 1, it.end_col + 1, it.code)) end
  table.sort(seen)
  return seen
end

local function check_pairs(buffer)
  for _, it in ipairs(vim.diagnostic.get(buffer)) do
    local line = vim.api.nvim_buf_get_lines(buffer, it.lnum, it.lnum + 1, false)[1]
    if it.code == 'no-extra-parens' and line:sub(it.col + 1, it.end_col) ~= '(' then die('a place: ' .. line:sub(it.col + 1, it.end_col)) end
  end
end

local function take_out_one(buffer, client)
  local range = { start = { line = 0, character = 7 }, ['end'] = { line = 0, character = 8 } }
  local actions = ask(buffer, 'textDocument/codeAction', { range = range, context = { diagnostics = {} } })
  for _, it in ipairs(actions) do
    say(it.title)
    if it.title:match('this pair') then return vim.lsp.util.apply_workspace_edit(it.edit, client.offset_encoding) end
  end
  die('no action')
end

local function session()
  local buffer = vim.api.nvim_get_current_buf()
  wait('client', function() return connected(buffer) ~= nil end)
  wait('five reports', function() return #vim.diagnostic.get(buffer) == 5 end)
  say(table.concat(reports(buffer), '\n'))
  -- (typing, behind a character of four bytes: a pair more)
  vim.api.nvim_buf_set_text(buffer, 0, 12, 0, 12, { '(1); ' })
  wait('a sixth report', function() return #vim.diagnostic.get(buffer) == 6 end)
  check_pairs(buffer)
  take_out_one(buffer, connected(buffer))
  if vim.lsp.buf.format then vim.lsp.buf.format({ timeout_ms = 240000 }) else vim.lsp.buf.formatting_sync(nil, 240000) end
  if text_of(buffer) ~= FORMATTED then die('formatted: ' .. text_of(buffer)) end
  wait('two reports', function() return #vim.diagnostic.get(buffer) == 2 end)
  local hover = ask(buffer, 'textDocument/hover', { position = { line = 1, character = 4 } })
  if not hover.contents.value:match('prefer%-const') then die('hover: ' .. hover.contents.value) end
  vim.cmd('set nomodified')
  -- (a server that ended is started again with the next script)
  local first = connected(buffer).id
  vim.lsp.stop_client(first, true)
  wait('the end of the server', function() return vim.lsp.get_client_by_id(first) == nil end)
  vim.cmd('edit b.js')
  local other = vim.api.nvim_get_current_buf()
  wait('another server', function() return connected(other) ~= nil and connected(other).id ~= first end)
  wait('a report of it', function() return #vim.diagnostic.get(other) == 1 end)
  say('ok')
end

local ok, why = pcall(session)
if not ok then die(tostring(why)) end
vim.cmd('qall!')
