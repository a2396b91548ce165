-- Starts `parbegin lsp` from Neovim (0.7 or later) over a text, and checks which diagnostics the editor then shows.
--
--     PARBEGIN=PROGRAM nvim --headless -n -u neovim.lua refused.pb
--
-- The integer y of refused.pb is not declared. Each check writes a line, and the status is 0 if all is as wanted.
local wrong = 0
local buffer = nil
local heard = 0

local function check(what, got, wanted)
  local fine = vim.deep_equal(got, wanted)
  wrong = fine and wrong or wrong + 1
  io.stdout:write((fine and "ok    " .. what or "WRONG " .. what .. ": " .. vim.inspect(got)) .. "\n")
end

local function quit()
  io.stdout:flush()
  vim.cmd(wrong == 0 and "qall!" or "cquit!")
end

local function wait_for(what, holds)
  if not vim.wait(10000, holds, 20) then
    check(what, "nothing in 10 seconds", "something")
  end
end

local function diagnostics()
  return vim.tbl_map(function(d)
    return { d.lnum, d.col, d.end_lnum, d.end_col, tostring(d.code or (d.user_data or {}).lsp.code) }
  end, vim.diagnostic.get(buffer))
end

local function line(number)
  return vim.api.nvim_buf_get_lines(buffer, number, number + 1, false)[1]
end

-- what the server answers to a request at a byte of a line
local function ask(method, row, column, more)
  vim.api.nvim_win_set_cursor(0, { row + 1, column })
  local params = vim.tbl_extend("force", vim.lsp.util.make_position_params(0, "utf-16"), more or {})
  local answers = vim.lsp.buf_request_sync(buffer, method, params, 10000) or {}
  for _, answer in pairs(answers) do
    return answer.result
  end
end

local function labels(items)
  return vim.tbl_map(function(item) return item.label or item.name end, items or {})
end

-- the action that declares y, as a person takes it
local function take_action()
  local range = { start = { line = 3, character = 30 }, ["end"] = { line = 3, character = 31 } }
  local actions = ask("textDocument/codeAction", 3, 30, { range = range, context = { diagnostics = {} } }) or {}
  check("the action that mends the text", vim.tbl_map(function(a) return a.title end, actions), { "declare integer y" })
  if actions[1] then
    vim.lsp.util.apply_workspace_edit(actions[1].edit, "utf-16")
  end
  check("the text that it leaves", line(3), "begin integer x, y; x := 1; x := y + 1; hold 1 of tape do skip od end")
end

-- definition, references, names and a new name of y, which stands at bytes 17 and 33 of its line
local function ask_names()
  local found = ask("textDocument/definition", 3, 33) or {}
  check("where y is declared", (found.range or {}).start, { line = 3, character = 17 })
  local places = ask("textDocument/references", 3, 33, { context = { includeDeclaration = true } }) or {}
  check("where y stands", vim.tbl_map(function(l) return l.range.start.character end, places), { 17, 33 })
  local shown = ask("textDocument/hover", 2, 8) or {}
  check("what process a may hold", (shown.contents or {}).value, "process a\nmay hold 1 of tape at once (line 4)")
  check("what is declared", labels(ask("textDocument/documentSymbol", 0, 0)), { "tape", "a", "b" })
  local offered = labels(ask("textDocument/completion", 3, 33))
  check("names that may be written", { offered[1], offered[2], offered[3] }, { "tape", "x", "y" })
  vim.api.nvim_win_set_cursor(0, { 4, 33 })
  vim.lsp.buf.rename("total")
  wait_for("the new name", function() return line(3):find("total") end)
  check("y is total now", line(3), "begin integer x, total; x := 1; x := total + 1; hold 1 of tape do skip od end")
end

local function run()
  buffer = vim.api.nvim_get_current_buf()
  local client = vim.lsp.start_client({
    name = "parbegin",
    cmd = { vim.env.PARBEGIN, "lsp" },
    root_dir = vim.fn.getcwd(),
    handlers = {
      ["textDocument/publishDiagnostics"] = function(...)
        heard = heard + 1
        return vim.lsp.diagnostic.on_publish_diagnostics(...)
      end,
    },
  })
  vim.lsp.buf_attach_client(buffer, client)
  wait_for("diagnostics of the first text", function() return heard == 1 end)
  check("the refusal at its range", diagnostics(), { { 3, 30, 3, 31, "N3" } })
  local message = (vim.diagnostic.get(buffer)[1] or {}).message or ""
  check("its words", vim.split(message, "\n")[1], "integer y is not declared in process a")
  take_action()
  wait_for("diagnostics of the mended text", function() return heard >= 2 end)
  check("none after the mend", diagnostics(), {})
  ask_names()
  for i = 1, 50 do
    vim.api.nvim_buf_set_lines(buffer, 0, -1, false, { "// " .. string.rep("x", 60 * i) })
  end
  wait_for("diagnostics after many edits", function() return #diagnostics() == 1 end)
  check("a text of a comment alone is refused", (diagnostics()[1] or {})[5], "P1")
  vim.lsp.stop_client(client)
  wait_for("the end of the server", function() return vim.lsp.client_is_stopped(client) end)
  check("the server has stopped", vim.lsp.client_is_stopped(client), true)
end

vim.api.nvim_create_autocmd("VimEnter", {
  callback = function()
    vim.schedule(function()
      local fine, failure = pcall(run)
      if not fine then
        check("the script", failure, nil)
      end
      quit()
    end)
  end,
})
