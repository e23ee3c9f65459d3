"""The tries in Helix: the block that editors/README.md prints is its whole `languages.toml`. Keys are typed, and what stands on the screen is
compared with what a batch and a check tell of the same text: Helix can't be asked."""
import re

from .shared import DOCUMENT, Terminal, printed, run, same, until

CONFIG = "[editor.lsp]\ndisplay-inlay-hints = true\n"


class Helix(Terminal):
    """Helix with its own configuration alone."""

    def __init__(self, room, name):
        room.write("home/.config/helix/languages.toml", printed(DOCUMENT, "Helix", "toml"))
        room.write("home/.config/helix/config.toml", CONFIG)
        super().__init__(room, ["hx", name])
        self.shows(name)

    def marked(self):
        """The lines that have a mark before their number, of those that are seen."""
        return [int(row[1]) for row in (re.match(r"● *(\d+) ", line) for line in self.screen()) if row]

    def line(self):
        """The number of the line with the cursor, by the row of the state."""
        found = [re.search(r" (\d+):\d+ *$", line) for line in self.screen()]
        return next((int(each[1]) for each in reversed(found) if each), None)

    def text(self, number):
        """So much of a line as is seen."""
        return next((line.split(f" {number} ", 1)[1] for line in self.screen() if re.match(rf".? *{number} ", line)), "").strip()

    def has_marks(self, program, text):
        same("marks", self.marked, sorted({line for line, _, _ in program.flags(text)} | set(program.notes(text))))


def in_helix(room, name, tried):
    """Tries something in a Helix that is ended in any case."""
    editor = Helix(room, name)
    try:
        tried(editor)
        editor.keys("Escape")
        editor.type(":quit!\n")
        until(lambda: not editor.is_open(), lambda: "Helix doesn't end:\n" + "\n".join(editor.screen()))
    finally:
        editor.close()


def try_marks(room, program):
    """Each line that has a flag has its mark in the text as it is typed."""
    def tried(editor):
        text = room.read("flags.cps")
        editor.has_marks(program, text)
        editor.type("7ggf*;r+")
        editor.has_marks(program, text.replace("X2*2", "X2+2"))
        editor.type("ggO          SA1     AWAY")
        editor.keys("Escape")
        editor.has_marks(program, "          SA1     AWAY\n" + text.replace("X2*2", "X2+2"))
    in_helix(room, "flags.cps", tried)


def try_symbols(room, program):
    """Hover, definition and inlay hints are those of the listing and the cross-reference."""
    def tried(editor):
        text = room.read("sum.cps")
        row, defined, reads = program.symbol(text, "SUM")
        editor.type(f"{reads[-1]}ggf,l")
        same("the line that one goes to", editor.line, reads[-1])
        editor.shows(program.rows(text)[43][0][9:26].strip())
        editor.type(" k")
        editor.shows(row)
        editor.shows(program.rows(text)[reads[-1] - 1][0][:60].strip())
        editor.hides("```")
        editor.keys("Escape")
        editor.type("gd")
        same("the line that the cursor goes to", editor.line, defined)
        # a macro, from its call
        editor.type("27gg^gd")
        same("the line of the macro", editor.line, 17)
    in_helix(room, "sum.cps", tried)


def try_keys(room, program):
    """The tab key makes blanks, and a new line under a comment begins as one."""
    def tabbed(editor):
        editor.type("i")
        editor.keys("Tab")
        editor.type("SX1")
        editor.keys("Escape")
        editor.type(":write\n")
        editor.shows("written")
        same("what is typed", lambda: room.read("new.cps").lstrip(" "), "SX1\n")

    def commented(editor):
        editor.type("3gg")
        same("the line that one goes to", editor.line, 3)
        editor.type("oMORE")
        same("a comment", lambda: editor.text(4), "* MORE")
    in_helix(room, "new.cps", tabbed)
    in_helix(room, "flags.cps", commented)


TRIES = [try_marks, try_symbols, try_keys]


def try_all(program):
    """The status of all tries."""
    return run("helix", ["hx", "tmux"], TRIES, program)
