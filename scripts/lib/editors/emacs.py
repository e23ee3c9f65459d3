"""The tries in Emacs: the block that editors/README.md prints is its whole `init.el`. Keys are typed, and what Emacs has and shows is compared
with what a batch and a check tell of the same text."""
import json
import re
import subprocess
import textwrap
import time

from .shared import BENEATH, COLUMNED, DOCUMENT, HEADED, HEADINGS, HINTS, OUTLINED, REFUSAL, SECONDS, TAKEN, TYPED, Terminal, printed, renamed, run, same, until

# Emacs answers here. Nothing else is set: what it says of its own packages as it compiles them isn't shown.
BEGIN = """(progn (setq native-comp-async-report-warnings-errors nil server-name "{socket}") (server-start))"""
MARKS = """(vconcat (mapcar (lambda (one) (with-current-buffer (flymake-diagnostic-buffer one)
  (save-excursion (goto-char (flymake-diagnostic-beg one))
    (list (eq (flymake-diagnostic-type one) 'eglot-error) (line-number-at-pos) (1+ (current-column)))))) (flymake-diagnostics)))"""
SERVERS = """(vconcat (mapcar (lambda (name) (with-current-buffer name
  (if (eglot-current-server) (process-id (jsonrpc--process (eglot-current-server)))))) '({names})))"""
OUTLINE = """(vconcat (let (found) (letrec ((walk (lambda (one)
  (cond ((and (consp one) (consp (cdr one))) (mapc walk (cdr one)))
    ((and (consp one) (or (markerp (cdr one)) (and (numberp (cdr one)) (> (cdr one) 0)))) (push (line-number-at-pos (cdr one)) found))))))
  (mapc walk (imenu--make-index-alist t))) (sort found #'<)))"""
# Each entry of the index that has others beneath it, with their names.
TREE = """(vconcat (let (found) (letrec ((walk (lambda (one)
  (when (and (consp one) (stringp (car one)) (consp (cdr one)))
    (push (vconcat (list (car one)) (delq nil (mapcar (lambda (each) (car-safe each)) (cdr one)))) found)
    (mapc walk (cdr one))))))
  (mapc walk (imenu--make-index-alist t))) found))"""
HINTED = """(vconcat (mapcar (lambda (one) (with-current-buffer (flymake-diagnostic-buffer one)
  (vector (line-number-at-pos (flymake-diagnostic-beg one)) (replace-regexp-in-string "^compass: " "" (flymake-diagnostic-text one)))))
  (seq-filter (lambda (one) (eq (flymake-diagnostic-type one) 'eglot-note)) (flymake-diagnostics))))"""


class Emacs(Terminal):
    """Emacs with its own configuration alone."""

    def __init__(self, room, init, *words):
        room.write("home/.emacs.d/init.el", init)
        self.socket = room.at("socket")
        super().__init__(room, ["emacs", "-nw", "--eval", BEGIN.format(socket=self.socket), *words])
        until(lambda: self.asked("1") == 1, lambda: "Emacs doesn't answer:\n" + "\n".join(self.screen()))

    def asked(self, expression):
        """The value of an expression in the buffer that is shown; None where there is no answer."""
        answer = self.room.at("answer")
        open(answer, "w", encoding="ascii").close()
        value = f"(with-current-buffer (window-buffer (selected-window)) (json-encode {expression}))"
        call = f"""(progn (require 'json) (let ((value {value})) (with-temp-file "{answer}" (insert value))) t)"""
        subprocess.run(["emacsclient", "-s", self.socket, "--eval", call], env=self.room.environment(), stdin=subprocess.DEVNULL,
                       capture_output=True, timeout=SECONDS, check=False)
        with open(answer, encoding="utf-8") as file:
            text = file.read()
        return json.loads(text) if text else None

    def text(self):
        return self.asked("(buffer-string)")

    def line(self):
        return self.asked("(line-number-at-pos)")

    def go(self, line, word=""):
        """Goes to a line, and there behind the first place of a word."""
        self.keys("M-g", "g")
        self.type(f"{line}\n")
        same("the line that one goes to", self.line, line)
        if word:
            self.keys("C-s")
            self.type(f"{word}\n")

    def open(self, name):
        self.keys("C-x", "C-f")
        self.type(f"{name}\n")
        same("the source that is shown", lambda: self.asked("(buffer-name)"), name)

    def is_served(self):
        until(lambda: self.asked("(if (and (fboundp 'eglot-current-server) (eglot-current-server)) 1)") == 1,
              lambda: "there is no server:\n" + "\n".join(self.screen()))

    def has_marks(self, program):
        """Each flag and note of a check has its mark, and no mark stands elsewhere."""
        def found():
            marks = self.asked(MARKS) or []
            return sorted((line, column) for is_error, line, column in marks if is_error), sorted({line for is_error, line, _ in marks if not is_error})
        same("marks", found, ([each[:2] for each in program.flags(self.text())], program.notes(self.text())))


def in_emacs(room, words, tried):
    """Tries something in an Emacs that is ended in any case."""
    editor = Emacs(room, printed(DOCUMENT, "Emacs", "lisp"), *words)
    try:
        editor.is_served()
        told = tried(editor)
        editor.keys("C-g")
        # keys that come before it has quit would be lost
        time.sleep(0.3)
        editor.keys("C-x", "C-c")
        until(lambda: ends(editor), lambda: "Emacs doesn't end:\n" + "\n".join(editor.screen()))
        return told
    finally:
        editor.close()


def ends(editor):
    """Whether Emacs has ended. It is told to save nothing, and to end all the same."""
    last = [line for line in editor.screen() if line][-1:]
    if last and "(y, n, !" in last[0]:
        editor.type("n")
    elif last and "(yes or no)" in last[0]:
        editor.type("yes\n")
    return not editor.is_open()


def try_marks(room, program):
    """Each flag has its mark in the text as it is typed."""
    def tried(editor):
        editor.has_marks(program)
        editor.go(7, "2*")
        editor.keys("BSpace")
        editor.type("+")
        until(lambda: "X2+2" in editor.text(), lambda: f"line 7 isn't changed: {editor.text()}")
        editor.has_marks(program)
        editor.go(1)
        editor.type("          SA1     AWAY\n")
        editor.has_marks(program)
        # the first line's end, above all other marks
        editor.go(1)
        editor.keys("C-e")
        editor.type(" ,X")
        editor.has_marks(program)
    return in_emacs(room, ["flags.cps"], tried)


def try_symbols(room, program):
    """Hover, definition, references and symbols are those of the listing and the cross-reference."""
    def tried(editor):
        text = editor.text()
        row, defined, reads = program.symbol(text, "SUM")
        editor.go(reads[-1], "SUM")
        # a command that moves, as eldoc wants it
        editor.keys("C-b")
        editor.shows(row)
        editor.keys("C-h", ".")
        editor.shows(program.rows(text)[reads[-1] - 1][0][:60])
        editor.hides("```")
        editor.keys("C-x", "1")
        editor.keys("M-.")
        same("the line that the cursor goes to", editor.line, defined)
        editor.keys("M-,")
        same("the line that the cursor comes back to", editor.line, reads[-1])
        editor.keys("M-?")
        until(lambda: any("*xref*" in line or "Find references" in line for line in editor.screen()), lambda: "\n".join(editor.screen()))
        if any("Find references" in line for line in editor.screen()):
            editor.type("\n")
        listed = """(with-current-buffer "*xref*" (buffer-string))"""
        until(lambda: editor.asked("(if (get-buffer \"*xref*\") 1)") == 1, lambda: "no references:\n" + "\n".join(editor.screen()))
        same("references", lambda: [int(each) for each in re.findall(r"^ *(\d+):", editor.asked(listed) or "", re.M)], sorted([defined, *reads]))
        editor.asked("(progn (switch-to-buffer \"sum.cps\") (delete-other-windows) 1)")
        wanted = [number for number, line in enumerate(text.splitlines(), 1) if re.match(r"[A-Z]", line)]
        same("symbols", lambda: editor.asked(OUTLINE), wanted)
        if editor.asked("(if (fboundp 'eglot-inlay-hints-mode) 1)") != 1:
            return "inlay hints, which this eglot hasn't"
        editor.go(44)
        editor.shows("000110 0000000000")
        return None
    return in_emacs(room, ["sum.cps"], tried)


def try_outline(room, program):
    """An outline has each heading over the rows of its lines; what nothing reads, and lines that are skipped, are notes."""
    def tried(editor):
        same("notes", lambda: sorted(editor.asked(HINTED) or []), HINTS)
        same("headings with rows beneath them", lambda: sorted(each for each in editor.asked(TREE) or [] if each[0] in ("CONSTANTS", "THE CODE")), BENEATH)
        # eglot tells the places of headings or doesn't, by its version
        same("the lines of an outline", lambda: [line for line in editor.asked(OUTLINE) if line not in HEADINGS], OUTLINED)
        # what is mended is no note any more
        editor.go(6)
        editor.keys("C-a", "C-k", "C-k")
        same("notes behind a change", lambda: sorted(editor.asked(HINTED) or []), [[10, "skipped"]])
    room.write("sources/headed.cps", HEADED)
    return in_emacs(room, ["headed.cps"], tried)


def try_rename(room, program):
    """A rename changes each place of a name, and other fields keep their columns; why one is refused is shown."""
    def tried(editor):
        editor.has_marks(program)
        wanted = renamed(editor.text())
        editor.go(46, "SUM")
        editor.keys("C-b")
        for name in "ADDER", TAKEN:
            editor.keys("M-x")
            editor.type("eglot-rename\n")
            editor.shows("Rename")
            editor.keys("C-a", "C-k")
            editor.type(f"{name}\n")
            same("a renamed text", editor.text, wanted)
        editor.shows(REFUSAL)
        editor.has_marks(program)
    return in_emacs(room, ["sum.cps"], tried)


def try_servers(room, program):
    """One server serves two sources of a folder."""
    def tried(editor):
        editor.has_marks(program)
        editor.open("reader.cps")
        editor.is_served()
        editor.has_marks(program)
        ids = editor.asked(SERVERS.format(names='"flags.cps" "reader.cps"'))
        same("servers", lambda: (len(ids), len(set(ids)), None in ids), (2, 1, False))
    return in_emacs(room, ["flags.cps"], tried)


def try_layout(room, program):
    """No key lays out statements, and M-q breaks a comment where column 72 ends."""
    def tried(editor):
        text = room.read("sum.cps")
        for keys in ["M-q"], ["C-x", "h", "C-M-\\"], ["C-M-q"]:
            editor.go(29)
            editor.keys(*keys)
            editor.go(30)
            same("the text", editor.text, text)
        words = "*         " + 12 * "LONG WORDS "
        editor.go(1)
        editor.type(words + "\n")
        editor.go(1)
        editor.keys("M-q")
        same("a comment", lambda: editor.text().removesuffix(text).splitlines(), textwrap.wrap(words, 72, subsequent_indent=words[:10]))
    in_emacs(room, ["sum.cps"], tried)


def try_keys(room, program):
    """The tab key makes blanks, no line is moved by the enter key, M-; makes comments, and C-M-i completes a name with a point."""
    def tried(editor):
        editor.open("new.cps")
        # a line whose words stand in other columns
        editor.type("* A B C D\n")
        for part in TYPED.split(">")[1:]:
            editor.keys("Tab")
            editor.type(part)
        editor.type("\nX")
        same("what is typed", editor.text, f"* A B C D\n{COLUMNED}\nX")
        for star in "*", "":
            editor.go(2)
            # tmux takes a semicolon for its own
            editor.keys("C-a", "C-Space", "C-e", "M-\\;")
            same("a comment", editor.text, f"* A B C D\n{star}{COLUMNED}\nX")
        editor.open("reader.cps")
        editor.is_served()
        editor.go(12)
        editor.type("X         EQU    S.EMPT\n")
        editor.keys("Left", "C-M-i")
        # below the menu; nothing is asked of Emacs meanwhile, since eglot waits for no answer where there is other input
        editor.shows("S.EMPTY", 12)
        same("what is completed", lambda: editor.text().splitlines()[11], "X         EQU    S.EMPTY")
    return in_emacs(room, ["flags.cps"], tried)


TRIES = [try_marks, try_symbols, try_outline, try_rename, try_servers, try_layout, try_keys]


def try_all(program):
    """The status of all tries."""
    return run("emacs", ["emacs", "emacsclient", "tmux"], TRIES, program)
