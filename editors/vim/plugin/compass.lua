-- For Neovim 0.7 and later: one `compass server` for all sources that are open, and :CompassListing.

-- ---- The server

local views = {}
local refresh

-- whether a source has a server, which can be asked; or, if said so, one that is still starting
local function is_served(source, is_starting)
  for _, client in ipairs((vim.lsp.get_clients or vim.lsp.get_active_clients)({ _uninitialized = is_starting })) do
    if client.name == 'compass' and vim.lsp.buf_is_attached(source, client.id) then return true end
  end
  return false
end

-- Rows are asked for as plain text: in Markdown they would be coloured as lines of a source. The line to which a flag leads is asked for in its
-- message, since Neovim shows no related line.
local function capabilities()
  local found = vim.lsp.protocol.make_client_capabilities()
  found.textDocument.hover.contentFormat = { 'plaintext' }
  found.textDocument.publishDiagnostics.relatedInformation = false
  return found
end

-- A client of this name is taken, also one that the user's own configuration starts. So no source has two servers.
local function serve(source)
  if not vim.api.nvim_buf_is_loaded(source) or vim.fn.executable('compass') == 0 or is_served(source, true) then return end
  local function on_attach(_, buffer)
    if views[buffer] then refresh(views[buffer]) end
  end
  local config = { name = 'compass', cmd = { 'compass', 'server' }, root_dir = vim.fn.getcwd(), on_attach = on_attach }
  config.capabilities = capabilities()
  if vim.lsp.start then
    vim.lsp.start(config, { bufnr = source, reuse_client = function(client) return client.name == 'compass' end })
    return
  end
  -- Neovim 0.7, which lists no client that is still starting
  local id
  for each = 1, 100 do
    local client = vim.lsp.get_client_by_id(each)
    if client and client.name == 'compass' then id = each end
  end
  id = id or vim.lsp.start_client(config)
  if id and vim.lsp.buf_attach_client(source, id) then
    vim.bo[source].omnifunc = 'v:lua.vim.lsp.omnifunc'
    vim.bo[source].tagfunc = 'v:lua.vim.lsp.tagfunc'
  end
end

vim.api.nvim_create_autocmd('FileType', {
  pattern = 'compass',
  callback = function()
    local source = tonumber(vim.fn.expand('<abuf>'))
    -- behind all else that this event calls
    vim.schedule(function() serve(source) end)
  end,
})

-- ---- :CompassListing

-- A second window has beside each line the first row that the listing has of it; `..` behind its code stands for more. All rows of
-- the line with the cursor are shown, over those of the lines below it. The windows scroll together, by lines.
local marks = vim.api.nvim_create_namespace('compass')
local together = { scrollbind = true, wrap = false, foldenable = false }
-- Where a row's code ends, two blanks before the line's number; and no row is as long as this.
local code_end, widest = 36, 140

local function set_options(window, options)
  vim.api.nvim_win_call(window, function()
    for name, value in pairs(options) do vim.opt_local[name] = value end
  end)
end

-- Puts the first row of each line from one on, among as many rows as are wanted.
local function put(view, from, rows, want)
  local have = vim.api.nvim_buf_line_count(view.listing)
  local firsts, blanks = {}, {}
  for place, each in ipairs(rows) do
    firsts[place] = #each > 1 and each[1]:sub(1, code_end) .. '..' .. each[1]:sub(code_end + 3) or each[1] or ''
  end
  for place = 1, want - have do blanks[place] = '' end
  vim.bo[view.listing].modifiable = true
  vim.api.nvim_buf_set_lines(view.listing, math.min(have, want), -1, false, blanks)
  vim.api.nvim_buf_set_lines(view.listing, from - 1, from - 1 + #firsts, false, firsts)
  vim.bo[view.listing].modifiable = false
end

-- Shows all rows of a line over those of the lines below it, as many as the window has room for.
local function show_all(view, window, line, rows)
  vim.api.nvim_buf_clear_namespace(view.listing, marks, 0, -1)
  local room = vim.fn.line('w0', window) + vim.api.nvim_win_get_height(window) - line
  for place = 2, math.min(#rows, room) do
    local row = place == room and place < #rows and '..' or rows[place]
    local text = { { row .. string.rep(' ', widest - #row), 'Pmenu' } }
    vim.api.nvim_buf_set_extmark(view.listing, marks, line + place - 2, 0, { virt_text = text, virt_text_pos = 'overlay' })
  end
end

-- Asks for the rows of the lines that are seen in either window.
function refresh(view)
  local window, beside = vim.fn.bufwinid(view.source), vim.fn.bufwinid(view.listing)
  if window < 0 or beside < 0 or not is_served(view.source) then return end
  local first = math.min(vim.fn.line('w0', window), vim.fn.line('w0', beside))
  local last = math.max(vim.fn.line('w$', window), vim.fn.line('w$', beside))
  local range = { start = { line = first - 1, character = 0 }, ['end'] = { line = last - 1, character = 0 } }
  local params = { textDocument = { uri = vim.uri_from_bufnr(view.source) }, range = range }
  vim.lsp.buf_request(view.source, 'compass/rows', params, function(_, texts)
    if not texts or views[view.source] ~= view or not vim.api.nvim_win_is_valid(beside) then return end
    local rows = vim.tbl_map(function(text) return vim.split(text, '\n', { trimempty = true }) end, texts)
    local is_beside = vim.api.nvim_get_current_win() == beside
    local line = vim.api.nvim_win_get_cursor(is_beside and beside or window)[1]
    local all = rows[line - first + 1] or {}
    -- below the last line there is room for all its rows
    put(view, first, rows, math.max(vim.api.nvim_buf_line_count(view.source), line - 1 + #all))
    if not is_beside then vim.api.nvim_win_set_cursor(beside, { line, 0 }) end
    show_all(view, beside, line, all)
  end)
end

local function close(view)
  if views[view.source] ~= view then return end
  views[view.source] = nil
  vim.api.nvim_del_augroup_by_id(view.group)
  if vim.api.nvim_win_is_valid(view.window) then set_options(view.window, view.options) end
  if not vim.api.nvim_buf_is_valid(view.listing) then return end
  local windows = vim.api.nvim_list_wins()
  if #windows == 1 and vim.api.nvim_win_get_buf(windows[1]) == view.listing then pcall(vim.cmd, 'quit') end
  vim.api.nvim_buf_delete(view.listing, { force = true })
end

local function open(source)
  if vim.bo[source].filetype ~= 'compass' or vim.fn.executable('compass') == 0 and not is_served(source) then
    vim.notify('CompassListing: this is no source of COMPASS, or there is no program compass in the PATH', vim.log.levels.ERROR)
    return
  end
  local window, listing = vim.api.nvim_get_current_win(), vim.api.nvim_create_buf(false, true)
  local view = { source = source, window = window, listing = listing, options = {} }
  for name in pairs(together) do view.options[name] = vim.wo[window][name] end
  views[source] = view
  put(view, 1, {}, vim.api.nvim_buf_line_count(source))
  vim.bo[listing].bufhidden = 'wipe'
  pcall(vim.api.nvim_buf_set_name, listing, vim.api.nvim_buf_get_name(source) .. ' (listing)')
  local place = vim.fn.winsaveview()
  vim.cmd('rightbelow vertical sbuffer ' .. listing)
  vim.cmd('setlocal nonumber norelativenumber nolist nospell signcolumn=no foldcolumn=0 cursorline')
  vim.fn.winrestview({ topline = place.topline, lnum = place.lnum })
  set_options(0, together)
  vim.api.nvim_set_current_win(window)
  set_options(0, together)
  vim.cmd('syncbind')
  view.group = vim.api.nvim_create_augroup('compass_' .. listing, {})
  local function on(events, buffer, callback)
    vim.api.nvim_create_autocmd(events, { group = view.group, buffer = buffer, callback = callback })
  end
  local function later() vim.schedule(function() close(view) end) end
  on({ 'TextChanged', 'TextChangedI', 'TextChangedP', 'WinScrolled', 'CursorMoved', 'CursorMovedI' }, source, function() refresh(view) end)
  on({ 'WinScrolled', 'CursorMoved' }, listing, function() refresh(view) end)
  on('BufWinLeave', source, later)
  on('BufWipeout', listing, later)
  refresh(view)
end

vim.api.nvim_create_user_command('CompassListing', function()
  local source = vim.api.nvim_get_current_buf()
  for _, view in pairs(views) do
    if view.source == source or view.listing == source then return close(view) end
  end
  open(source)
end, {})
