-- What Neovim's own client does with the server, as `lsp_editors.py` wants it: the words are in a file of JSON, and so
-- is what came of them.
local asked = vim.fn.json_decode(table.concat(vim.fn.readfile(vim.env.PVTAG_ASKED), '\n'))
local told = {}
local said = {}
vim.notify = function(message) table.insert(said, message) end

local function text()
  return table.concat(vim.api.nvim_buf_get_lines(0, 0, -1, false), '\n') .. '\n'
end

local function wait(what, fits)
  if not vim.wait(asked.seconds * 1000, fits, 20) then
    error(what .. " doesn't come")
  end
end

local function has_code(code)
  for _, each in ipairs(vim.diagnostic.get(0)) do
    local lsp = each.user_data and each.user_data.lsp
    if lsp and lsp.code == code or each.code == code then return true end
  end
  return false
end

-- Makes the code action of a title on a range of columns of a line, the last of which Neovim counts in, and waits for
-- the change.
local function act(title, line, from, to)
  local before = text()
  vim.ui.select = function(items, _, choose)
    for _, each in ipairs(items) do
      local action = each[2] or each.action
      if action.title == title then return choose(each) end
    end
    error('no action ' .. title)
  end
  vim.api.nvim_win_set_cursor(0, { line, from })
  if to == nil then
    vim.lsp.buf.code_action()
  elseif vim.fn.has('nvim-0.8') == 1 then
    vim.lsp.buf.code_action({ range = { start = { line, from }, ['end'] = { line, to - 1 } } })
  else
    vim.lsp.buf.range_code_action(nil, { line, from }, { line, to - 1 })
  end
  wait(title, function() return text() ~= before end)
  return text()
end

local function undo()
  vim.diagnostic.reset()
  vim.cmd('silent undo')
  return text()
end

local function run()
  vim.cmd('edit ' .. vim.fn.fnameescape(asked.file))
  local client = vim.lsp.start_client({ name = 'pvtag', cmd = asked.server, root_dir = vim.fn.getcwd() })
  vim.lsp.buf_attach_client(0, client)
  wait('the number of missing elements', function() return has_code('missing') end)
  told.diagnostics = {}
  for _, each in ipairs(vim.diagnostic.get(0)) do
    table.insert(told.diagnostics, { each.lnum, each.col, each.severity, each.message })
  end

  local line, column = asked.type[1], asked.type[2]
  vim.api.nvim_buf_set_text(0, line - 1, column, line - 1, column, { '<' })
  vim.api.nvim_win_set_cursor(0, { line, column + 1 })
  local params = {
    textDocument = vim.lsp.util.make_text_document_params(), position = { line = line - 1, character = column + 1 },
  }
  local answer = vim.lsp.buf_request_sync(0, 'textDocument/completion', params, asked.seconds * 1000)
  told.labels = {}
  for _, each in ipairs(answer[client].result.items) do
    table.insert(told.labels, each.label)
    if each.label == asked.choose then vim.lsp.util.apply_text_edits({ each.textEdit }, 0, 'utf-16') end
  end
  told.completed = text()
  vim.diagnostic.reset()
  vim.api.nvim_buf_set_lines(0, 0, -1, false, asked.lines)
  wait('the diagnostics', function() return has_code('missing') end)

  told.wrapped = act(asked.wrap[1], asked.wrap[2], asked.wrap[3], asked.wrap[4])
  told.unwrapped = undo()
  wait('the diagnostics', function() return has_code('missing') end)
  told.mended = act(asked.mend, 1, 0)
  wait('no diagnostics', function() return #vim.diagnostic.get(0) == 0 end)
  told.undone = undo()
  wait('the diagnostics', function() return has_code('missing') end)
  vim.lsp.stop_client(client)
end

local ok, fault = pcall(run)
if not ok then told.fault = tostring(fault) .. ' ' .. table.concat(said, '; ') end
vim.fn.writefile({ vim.fn.json_encode(told) }, vim.env.PVTAG_TOLD)
vim.cmd('qall!')
