-- What a person gets in Neovim by keys, with the set-up of docs/EDITORS.md ("init.lua"): another Neovim is driven, and what came of it is
-- written as JSON into "told".
local seconds = tonumber(vim.env.PVTAG_SECONDS)
local told = {}
local nvim = vim.fn.jobstart({ 'nvim', '--clean', '--headless', '--embed', '-n' }, { rpc = true })

local function lua(code, ...)
  return vim.rpcrequest(nvim, 'nvim_exec_lua', code, { ... })
end

local function press(keys)
  vim.rpcrequest(nvim, 'nvim_input', keys)
end

local function wait(what, fits)
  if not vim.wait(seconds * 1000, fits, 50) then error(what .. " doesn't come") end
end

local function text()
  return lua("return table.concat(vim.api.nvim_buf_get_lines(0, 0, -1, false), '\\n')")
end

local function is_judged()
  return lua("for _, it in ipairs(vim.diagnostic.get(0)) do if it.message:find('missing%.$') then return true end end return false")
end

-- Puts the cursor on the start of a piece.
local function go(piece)
  press('<Esc>gg')
  lua("vim.fn.search(..., 'cW')", '\\V' .. piece)
end

local function changed(what, keys)
  local before = text()
  press(keys)
  wait(what, function() return text() ~= before end)
  return text()
end

local function run()
  lua([[
    vim.cmd('luafile init.lua')
    -- Lists to choose from: what is chosen is the title that is wanted.
    vim.ui.select = function(items, _, choose)
      for _, each in ipairs(items) do
        if (each[2] or each.action).title == vim.g.wanted then return choose(each) end
      end
    end
    vim.fn.inputlist = function(lines)
      for _, line in ipairs(lines) do if line:find(vim.g.wanted_then, 1, true) then return tonumber(line:match('^(%d+)%.')) end end
      return 0
    end
    -- Neovim's own indenting is another matter.
    vim.cmd('filetype indent off')
    vim.cmd('edit one.xml')
  ]])
  wait('the diagnostics', is_judged)

  -- A tag is completed where a word stands after it.
  go('met')
  press('i<lt>')
  wait('the tag', function() return text():find('<met', 1, true) end)
  press('<C-x><C-o>')
  wait('the names', function() return lua('return vim.fn.pumvisible()') == 1 end)
  local items = lua("return vim.tbl_map(function(it) return it.abbr end, vim.fn.complete_info({ 'items' }).items)")
  told.names = items
  -- The first one is chosen already.
  local to = 0
  for at, name in ipairs(items) do if name == 'person' then to = at - 1 end end
  press(string.rep('<C-n>', to) .. '<C-y><Esc>')
  wait('the element', function() return text():find('</person>met', 1, true) end)
  told.completed = text()
  press('u')
  wait('the undo', function() return not text():find('person', 1, true) end)
  told.undone = text()
  wait('the diagnostics', is_judged)

  -- In the name of a whole tag nothing is put.
  go('opener>Dear')
  told.whole = lua([[
    local params = vim.lsp.util.make_position_params()
    for _, each in pairs(vim.lsp.buf_request_sync(0, 'textDocument/completion', params, ... * 1000)) do return #each.result.items end
  ]], seconds)

  -- What is selected is wrapped.
  lua("vim.g.wanted = 'Wrap in <person>'")
  go('Mr Adams')
  told.wrapped = changed('the wrap', 'v7lga')
  press('u')
  wait('the undo', function() return not text():find('person', 1, true) end)

  -- Both tags are renamed by an action.
  lua("vim.g.wanted = 'Rename to <salute>'")
  go('opener>Dear')
  told.renamed = changed('the new name', 'ga')
  press('u')
  wait('the undo', function() return not text():find('salute', 1, true) end)

  -- Hover opens a window.
  go('opener>Dear')
  press('K')
  wait('the hover', function()
    told.hover = lua([[
      local shown = {}
      for _, each in ipairs(vim.api.nvim_list_wins()) do
        vim.list_extend(shown, vim.api.nvim_buf_get_lines(vim.api.nvim_win_get_buf(each), 0, -1, false))
      end
      return table.concat(shown, '\n')
    ]])
    return told.hover:find('<!ELEMENT', 1, true)
  end)
  lua("vim.cmd('edit! many.xml')")
  wait('the other document', function() return text():find('one two', 1, true) and lua('return #vim.lsp.buf_get_clients(0)') == 1 end)

  -- One of more than twenty wraps is asked for.
  lua("vim.g.wanted, vim.g.wanted_then = 'Wrap in… (30 names)', '<n29>'")
  go('one two')
  told.many = changed('the wrap', 'v2lga')
end

local ok, fault = pcall(run)
if not ok then told.fault = tostring(fault) end
vim.fn.writefile({ vim.fn.json_encode(told) }, 'told')
vim.fn.jobstop(nvim)
vim.cmd('qall!')
