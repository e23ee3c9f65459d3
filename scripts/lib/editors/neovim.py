"""The tries in Neovim: the block that README.md and editors/README.md print is its whole `init.lua`. Keys are typed, and what Neovim has and
shows is compared with what a batch and a check tell of the same text."""
import json
import re
import subprocess

from .shared import (BENEATH, COLUMNED, DOCUMENT, HEADED, HEADINGS, HINTS, OUTLINED, REFUSAL, SECONDS, TAKEN, TYPED, Fault, Terminal, printed, renamed, run, same,
                     until)

INIT = "home/.config/nvim/init.lua"
# What has stood in README for a configuration of the user's own, from 0.8 on; and the like for 0.7.
OWN = """\
vim.filetype.add({ extension = { cps = 'compass' } })
vim.api.nvim_create_autocmd('FileType', { pattern = 'compass', callback = function()
  vim.lsp.start({ name = 'compass', cmd = { 'compass', 'server' } })
end })
"""
OWN_IN_7 = """\
vim.api.nvim_create_autocmd('FileType', { pattern = 'compass', callback = function()
  vim.lsp.buf_attach_client(0, vim.lsp.start_client({ name = 'compass', cmd = { 'compass', 'server' } }))
end })
"""
SERVERS = """\
(function()
  local found = {}
  for _, client in ipairs((vim.lsp.get_clients or vim.lsp.get_active_clients)()) do
    for _, buffer in ipairs(vim.api.nvim_list_bufs()) do
      if vim.lsp.buf_is_attached(buffer, client.id) then
        found[#found + 1] = { client.name, client.id, vim.fn.fnamemodify(vim.api.nvim_buf_get_name(buffer), ':t') }
      end
    end
  end
  return found
end)()"""
# So much of a line is looked at; behind it a mark may be told.
LEAST = 50
MARKS = "vim.tbl_map(function(one) return { one.severity, one.lnum + 1, one.col + 1, one.code or '' } end, vim.diagnostic.get(0))"
ERROR, HINT = 1, 4
HINTED = f"vim.tbl_map(function(one) return {{ one.lnum + 1, one.message }} end, vim.diagnostic.get(0, {{ severity = {HINT} }}))"
# The outline as it is told: each row with the names of those beneath it.
TREE = """\
(function()
  local found = {}
  local asked = { textDocument = vim.lsp.util.make_text_document_params() }
  for _, told in pairs(vim.lsp.buf_request_sync(0, 'textDocument/documentSymbol', asked, 5000) or {}) do
    for _, row in ipairs(told.result) do
      local names = { row.name }
      for _, below in ipairs(row.children or {}) do names[#names + 1] = below.name end
      found[#found + 1] = names
    end
  end
  return found
end)()"""

LISTED = "vim.tbl_map(function(one) return one.lnum end, vim.fn.getqflist())"
SYMBOLS = "vim.tbl_map(function(one) return one.lnum end, vim.list_extend(vim.fn.getloclist(0), vim.fn.getqflist()))"

# The groups of colours in a floating window.
COLOURS = """\
(function()
  local found = {}
  for _, window in ipairs(vim.api.nvim_list_wins()) do
    if vim.api.nvim_win_get_config(window).relative ~= '' then
      vim.api.nvim_win_call(window, function()
        for column = 1, vim.fn.col('$') - 1 do found[vim.fn.synIDattr(vim.fn.synID(1, column, 1), 'name')] = true end
      end)
    end
  end
  return vim.tbl_keys(found)
end)()"""


class Neovim(Terminal):
    """Neovim with its own configuration alone."""

    def __init__(self, room, init, *words):
        room.write(INIT, init)
        self.socket = room.at("socket")
        super().__init__(room, ["nvim", "-i", "NONE", "-n", "--listen", self.socket, *words])
        until(lambda: self.asked("1") == 1, lambda: "Neovim doesn't answer:\n" + "\n".join(self.screen()))

    def asked(self, expression):
        """The value of an expression of Lua; None where there is no answer."""
        answer = self.room.at("answer")
        open(answer, "w", encoding="ascii").close()
        value = "luaeval('vim.fn.json_encode(" + expression.replace("\n", " ").replace("'", "''") + ")')"
        subprocess.run(["nvim", "--server", self.socket, "--remote-expr", f"writefile([{value}], '{answer}')"], env=self.room.environment(),
                       stdin=subprocess.DEVNULL, capture_output=True, timeout=SECONDS, check=False)
        with open(answer, encoding="utf-8") as file:
            text = file.read()
        return json.loads(text) if text else None

    def command(self, text):
        self.keys("Escape")
        self.type(f":{text}\n")

    def text(self):
        return "".join(line + "\n" for line in self.asked("vim.api.nvim_buf_get_lines(0, 0, -1, false)"))

    def line(self):
        return self.asked("vim.api.nvim_win_get_cursor(0)[1]")

    def marks(self):
        """The errors, and the lines of what else is marked."""
        marks = self.asked(MARKS) or []
        return sorted(tuple(mark[1:]) for mark in marks if mark[0] == ERROR), sorted({mark[1] for mark in marks if mark[0] != ERROR})

    def has_marks(self, program):
        """Each flag and note of a check has its mark, and no mark stands elsewhere."""
        same("marks", self.marks, (program.flags(self.text()), program.notes(self.text())))

    def leave(self):
        self.command("qa!")
        until(lambda: not self.is_open(), lambda: "Neovim doesn't end")


def in_neovim(room, init, words, tried):
    """Tries something in a Neovim that is ended in any case."""
    editor = Neovim(room, init, *words)
    try:
        told = tried(editor)
        editor.leave()
        return told
    finally:
        editor.close()


def block():
    both = printed("README.md", "In an editor", "lua"), printed(DOCUMENT, "Neovim", "lua")
    if both[0] != both[1]:
        raise Fault(f"README.md prints another block than {DOCUMENT}")
    return both[0]


def try_marks(room, program):
    """Each flag has its mark in the text as it is typed."""
    def tried(editor):
        editor.has_marks(program)
        editor.shows("no form of SA1 takes X2*2")
        # the flag of line 8 names the line that it leads to
        editor.shows("TWO has a value already, and keeps it (line 6)")
        editor.type("7G0f*r+")
        until(lambda: "X2+2" in editor.text(), lambda: f"line 7 isn't changed: {editor.text()}")
        editor.has_marks(program)
        editor.type("ggO         SA1     AWAY")
        editor.shows("SA1     AWAY")
        editor.has_marks(program)
        editor.keys("Escape")
        # the first line's end, above all marks
        editor.type("1GA ,X")
        editor.keys("Escape")
        editor.has_marks(program)
    return in_neovim(room, block(), ["flags.cps"], tried)


def try_symbols(room, program):
    """Hover, definition, references and symbols are those of the listing and the cross-reference."""
    def tried(editor):
        editor.has_marks(program)
        text = editor.text()
        row, defined, reads = program.symbol(text, "SUM")
        editor.type(f"{reads[-1]}Gf,l")
        editor.command("lua vim.lsp.buf.hover()")
        editor.shows(row)
        editor.shows(program.rows(text)[reads[-1] - 1][0][:60])
        editor.hides("```")
        same("colours of a hover", lambda: editor.asked(COLOURS), [""])
        editor.type("h")
        for keys in "\x1d", ":lua vim.lsp.buf.definition()\n":
            editor.type(f"{reads[-1]}Gf,l{keys}")
            same("the line that the cursor goes to", editor.line, defined)
        editor.command("lua vim.lsp.buf.references()")
        same("references", lambda: editor.asked(LISTED), sorted([defined, *reads]))
        editor.command("cclose")
        # a macro, from its call
        editor.type("27G^\x1d")
        same("the line of the macro", editor.line, 17)
        editor.command("lua vim.lsp.buf.references()")
        same("calls", lambda: editor.asked(LISTED), [17, 27, 28])
        editor.command("cclose")
        editor.command("lua vim.lsp.buf.document_symbol()")
        wanted = [number for number, line in enumerate(text.splitlines(), 1) if re.match(r"[A-Z]", line)]
        same("symbols", lambda: sorted(set(editor.asked(SYMBOLS) or [])), wanted)
        if editor.asked("vim.lsp.inlay_hint ~= nil"):
            editor.command("lclose | cclose")
            editor.command("lua vim.lsp.inlay_hint.enable()")
            editor.type("44Gzt")
            editor.shows("000110 0000000000")
            return None
        return "inlay hints, which this Neovim hasn't"
    return in_neovim(room, block(), ["sum.cps"], tried)


def try_outline(room, program):
    """An outline has each heading over the rows of its lines; what nothing reads, and lines that are skipped, are hints."""
    def tried(editor):
        same("hints", lambda: sorted(editor.asked(HINTED) or []), HINTS)
        same("marks", lambda: editor.marks()[0], program.flags(HEADED))
        same("an outline", lambda: editor.asked(TREE), [["FIRST"], *BENEATH])
        editor.command("lua vim.lsp.buf.document_symbol()")
        same("its lines", lambda: sorted(set(editor.asked(SYMBOLS) or [])), sorted(HEADINGS + OUTLINED))
        # what is mended is no hint any more
        editor.command("cclose | lclose")
        editor.command("6delete")
        same("hints behind a change", lambda: sorted(editor.asked(HINTED) or []), [[10, "skipped"]])
    room.write("sources/headed.cps", HEADED)
    return in_neovim(room, block(), ["headed.cps"], tried)


def try_rename(room, program):
    """A rename changes each place of a name, and other fields keep their columns; why one is refused is shown."""
    def tried(editor):
        editor.has_marks(program)
        wanted = renamed(editor.text())
        editor.type("46Gf,l")
        editor.command("lua vim.lsp.buf.rename('ADDER')")
        same("a renamed text", editor.text, wanted)
        editor.has_marks(program)
        editor.command(f"lua vim.lsp.buf.rename('{TAKEN}')")
        editor.shows(REFUSAL)
        same("the text behind a refusal", editor.text, wanted)
    return in_neovim(room, block(), ["sum.cps"], tried)


def try_more(room, program):
    """What a macro takes is shown, and a tab is mended."""
    def tried(editor):
        editor.has_marks(program)
        text = editor.text()
        editor.type("27Gf,")
        editor.command("lua vim.lsp.buf.signature_help()")
        editor.shows("TOTAL TABLE,LENGTH,WORD")
        editor.type("h")
        editor.command(r"45s/ MX6/\tMX6/")
        until(lambda: "\tMX6" in editor.text(), lambda: f"line 45 isn't changed: {editor.text()}")
        editor.command("lua vim.lsp.buf.code_action()")
        editor.shows("Put blanks in the place of tabs")
        editor.type("1\n")
        same("a mended text", editor.text, text)
    return in_neovim(room, block(), ["sum.cps"], tried)


def served(editor, names):
    """Waits until each source has a server, the same for all."""
    def told():
        return editor.asked(SERVERS) or []
    until(lambda: sorted(each[2] for each in told()) == sorted(names) and len({each[1] for each in told()}) == 1,
          lambda: f"the servers of {names}: {told()}")


def try_servers(room, program):
    """One server serves two sources, and :edit starts none."""
    def tried(editor):
        editor.has_marks(program)
        editor.command("edit reader.cps")
        editor.has_marks(program)
        served(editor, ["flags.cps", "reader.cps"])
        editor.command("edit")
        editor.has_marks(program)
        served(editor, ["flags.cps", "reader.cps"])
    return in_neovim(room, block(), ["flags.cps"], tried)


def try_own(room, program):
    """No source has a second server where the user's own configuration starts one, in either order."""
    def tried(editor):
        editor.has_marks(program)
        editor.command("edit reader.cps")
        editor.has_marks(program)
        until(lambda: sorted(each[2] for each in editor.asked(SERVERS) or []) == ["flags.cps", "reader.cps"],
              lambda: f"the servers: {editor.asked(SERVERS)}")
    is_old = in_neovim(room, block(), [], lambda editor: editor.asked("vim.lsp.start == nil"))
    own = OWN_IN_7 if is_old else OWN
    for init in block() + own, own + block():
        in_neovim(room, init, ["flags.cps"], tried)


def try_keys(room, program):
    """The tab key makes blanks, gc makes comments, = and gq leave statements, K explains, CTRL-X CTRL-O completes a name with a point, and :make finds the flags."""
    def tried(editor):
        editor.has_marks(program)
        editor.command("edit new.cps")
        editor.type("i")
        for part in TYPED.split(">")[1:]:
            editor.keys("Tab")
            editor.type(part)
        editor.keys("Escape")
        same("what is typed", lambda: editor.text().splitlines(), [COLUMNED])
        for is_comment in True, False:
            editor.type("gcc")
            same("a comment", lambda: editor.text().splitlines(), ["*" * is_comment + COLUMNED])
        editor.command("edit! sum.cps")
        for keys in "gg=G", "gggqG", "29Ggqj":
            editor.type(keys)
            same("statements that are laid out", editor.text, room.read("sum.cps"))
        editor.command("edit! new.cps")
        editor.type("i" + COLUMNED)
        editor.keys("Escape")
        editor.type("0wK")
        editor.shows("SXi   K         30 bits  71i0K")
        editor.type("q")
        same("the source is shown again", lambda: editor.asked("vim.fn.expand('%:t')"), "new.cps")
        editor.command("edit! reader.cps")
        editor.type("11GoX         EQU    S.EMPT")
        editor.keys("C-x", "C-o")
        # nothing is asked of Neovim meanwhile: 0.10 completes only if it is in the right mode when the server has answered
        editor.shows("S.EMPTY", 11)
        same("what is completed", lambda: editor.text().splitlines()[11], "X         EQU    S.EMPTY")
        editor.keys("Escape")
        editor.command("edit! flags.cps")
        editor.command("silent make")
        places = "vim.tbl_map(function(one) return { one.lnum, one.col, one.text:match('^(%u):') or '' } end, vim.tbl_filter(function(one) return one.type == 'e' end, vim.fn.getqflist()))"
        same(":make", lambda: sorted(map(tuple, editor.asked(places) or [])), program.flags(room.read("flags.cps")))
    return in_neovim(room, block(), ["reader.cps"], tried)


def beside(editor, program):
    """What stands on the screen beside each line that is seen, and what is to stand there."""
    windows = sorted(editor.asked("vim.tbl_map(function(id) return vim.fn.getwininfo(id)[1] end, vim.api.nvim_tabpage_list_wins(0))"),
                     key=lambda one: one["wincol"])
    if len(windows) != 2:
        raise Fault(f"there are {len(windows)} windows")
    lines, right = editor.text_of(windows[0]["bufnr"]), windows[1]
    rows = program.rows("".join(line + "\n" for line in lines))
    wanted, seen = [], []
    cursor = editor.asked(f"vim.api.nvim_win_get_cursor({editor.asked('vim.api.nvim_get_current_win()')})[1]")
    for place, shown in enumerate(editor.screen()[:right["height"]]):
        number = windows[0]["topline"] + place
        first = right["wincol"] - 1
        part, left = shown[first:first + right["width"]].rstrip(), shown[windows[0]["wincol"] - 1 + windows[0]["textoff"]:first - 1]
        row = ""
        if number <= len(rows):
            each = rows[number - 1]
            row = each[0] if len(each) == 1 else each[0][:36] + ".." + each[0][38:]
        if cursor < number < cursor + len(rows[cursor - 1]):
            row = rows[cursor - 1][number - cursor]
        line = lines[number - 1][:LEAST] if number <= len(lines) else ""
        wanted.append((line, row[:right["width"]].rstrip()))
        seen.append((left.rstrip()[:len(line)], "" if part == "~" else part))
    return seen, wanted


def stands(editor, program):
    """Waits until each line has its row beside it."""
    def others():
        return [f"{one}, wanted {two}" for one, two in zip(*beside(editor, program)) if one != two]
    until(lambda: not others(), lambda: "\n".join(["lines with other rows beside them:", *others()]))


def try_listing(room, program):
    """:CompassListing has its rows beside their lines when one scrolls in either window and when one types, and goes as it came."""
    def tried(editor):
        editor.has_marks(program)
        editor.command("enew")
        editor.command("CompassListing")
        editor.shows("CompassListing: this is no source of COMPASS")
        editor.command("edit sum.cps")
        wrap = editor.asked("vim.wo.wrap")
        editor.command("CompassListing")
        stands(editor, program)
        # with several rows at the top, in the middle and above the cursor; and by half windows
        for keys in "27G", "28G", "zt", "G", "gg", "\x05\x05\x05", "\x04", "\x04", "\x15", "55Gzt", "Gzt", "ggO          CON    1,2,3", "\x1b", "27Go          TOTAL  A,B,C", "\x1b", "u", "27Gdd":
            editor.type(keys)
            stands(editor, program)
        editor.keys("C-w", "l")
        for keys in "gg", "\x05\x05", "\x04", "40Gzt", "\x15", "gg":
            editor.type(keys)
            stands(editor, program)
        editor.keys("C-w", "h")
        editor.command("CompassListing")
        same("windows", lambda: editor.asked("#vim.api.nvim_list_wins()"), 1)
        same("what the listing has set", lambda: editor.asked("{ vim.wo.wrap, vim.wo.scrollbind }"), [wrap, False])
        editor.command("CompassListing")
        stands(editor, program)
        editor.command("write")
        editor.command("edit reader.cps")
        same("windows of another source", lambda: editor.asked("#vim.api.nvim_list_wins()"), 1)
        editor.command("CompassListing")
        stands(editor, program)
        editor.command("q")
        until(lambda: not editor.is_open(), lambda: "Neovim doesn't end with the source's window")
    editor = Neovim(room, block(), "sum.cps")
    try:
        return tried(editor)
    finally:
        editor.close()


Neovim.text_of = lambda self, buffer: self.asked(f"vim.api.nvim_buf_get_lines({buffer}, 0, -1, false)")
TRIES = [try_marks, try_symbols, try_outline, try_rename, try_more, try_servers, try_own, try_keys, try_listing]


def try_all(program):
    """The status of all tries."""
    return run("neovim", ["nvim", "tmux"], TRIES, program)
