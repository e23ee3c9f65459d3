"""What the tries of editors share: the blocks that the documents print, an editor in a terminal, and what a batch and a check tell."""
import os
import re
import shutil
import subprocess
import tempfile
import time

from examples import program_path

ROOT = os.path.realpath(os.path.join(os.path.dirname(os.path.abspath(__file__)), "../../.."))
DOCUMENT = "editors/README.md"
SECONDS = 15
COLUMNS, ROWS = 160, 40
# What is typed in a line by its fields; here stands `>` for the tab key.
TYPED, COLUMNED = ">SX1>B1>NOTE", "          SX1    B1          NOTE"
# What a rename of SUM, the label in line 44, makes of sum.cps: what stands behind a name stays in its column. And one that is refused.
RENAMED = ("RJ      SUM\n", "RJ      ADDER\n"), ("\nSUM  ", "\nADDER"), ("B3,SUM  ", "B3,ADDER")
TAKEN, REFUSAL = "SUM1", "SUM1 is taken in line 27"
# A source with headings, what stands beneath each, the lines of these and of all other rows, and its hints, where an editor takes the tag of what is unnecessary.
HEADED = """\
          IDENT  DECK
          ABS
FIRST     CON    0
** CONSTANTS
ONE       EQU    1
TWO       EQU    2
** THE CODE
START     SA1    FIRST
LOOP      SX6    ONE
          IFEQ   ONE,2
          SX7    3
          ENDIF
          EQ     LOOP
          END    START
"""
BENEATH = [["CONSTANTS", "ONE", "TWO"], ["THE CODE", "START", "LOOP"]]
HEADINGS, OUTLINED = [4, 7], [3, 5, 6, 8, 9]
HINTS = [[6, "nothing reads TWO"], [11, "skipped"]]
# A tool that isn't there, and a thing that this editor can't show: neither is a fault, nor is all as told.
LEFT_OUT = 3


def printed(path, section, language):
    """The one block of this language that a section of a document prints."""
    with open(os.path.join(ROOT, path), encoding="utf-8") as file:
        parts = re.split(r"^## (.*)\n", file.read(), flags=re.M)
    blocks = re.findall(rf"^```{language}\n(.*?)^```$", parts[parts.index(section) + 1], re.M | re.S)
    if len(blocks) != 1:
        raise SystemExit(f"{path}: {section} has {len(blocks)} blocks of {language}, and not one")
    return blocks[0]


def renamed(text):
    """The text of sum.cps with SUM renamed to ADDER."""
    for old, new in RENAMED:
        if text.count(old) != 1:
            raise Fault(f"{old!r} stands {text.count(old)} times in sum.cps")
        text = text.replace(old, new)
    return text


class Fault(Exception):
    """Something isn't as it is told."""


class Program:
    """The assembler, asked about a text."""

    def __init__(self, path):
        self.path = path

    def ask(self, words, text):
        return subprocess.run([self.path, *words], input=text, capture_output=True, encoding="ascii", timeout=SECONDS, check=False).stdout.splitlines()

    def flags(self, text):
        """The places of the flags, as a check tells them: line, column, letter."""
        found = (re.match(r"<stdin>:(\d+):(\d+): error: (?:(\w):)?", row) for row in self.ask(["check"], text))
        return sorted((int(one[1]), int(one[2]), one[3] or "") for one in found if one)

    def notes(self, text):
        """The lines that a check notes."""
        found = (re.match(r"<stdin>:(\d+):\d+: note: ", row) for row in self.ask(["check"], text))
        return sorted({int(one[1]) for one in found if one})

    def rows(self, text):
        """The rows that the listing has of each line."""
        found = []
        for row in self.ask(["batch", "--part", "listing"], text):
            if row[37:43].strip().isdigit():
                found.append([])
            found[-1].append(row)
        return found

    def symbol(self, text, name):
        """The row of the cross-reference, the line that defines the symbol, and those whose operands write it."""
        row = next(row for row in self.ask(["batch", "--part", "symbols"], text) if row.split()[0] == name)
        operands = (re.match(r"(?!\*).{10}(?!IDENT )\S+ +(\S+)", line) for line in text.splitlines())
        reads = [number for number, one in enumerate(operands, 1) if one and name in re.split("[-+*/,]", one[1])]
        return row, int(row.split()[2]), reads


class Room:
    """A folder with a home, the program in the `PATH`, and sources."""

    def __init__(self, program):
        self.path = tempfile.mkdtemp(prefix="compass-")
        self.home, self.sources = self.at("home"), self.at("sources")
        os.mkdir(self.home)
        os.mkdir(self.at("bin"))
        os.mkdir(self.sources)
        os.symlink(ROOT, os.path.join(self.home, "compass"))
        os.symlink(os.path.realpath(program), self.at("bin/compass"))
        for name in "flags.cps", "sum.cps", "reader.cps":
            shutil.copy(program_path(name), self.sources)

    def at(self, name):
        return os.path.join(self.path, name)

    def write(self, name, text):
        os.makedirs(os.path.dirname(self.at(name)), exist_ok=True)
        with open(self.at(name), "w", encoding="utf-8") as file:
            file.write(text)

    def read(self, name):
        with open(os.path.join(self.sources, name), encoding="ascii") as file:
            return file.read()

    def environment(self):
        kept = {name: os.environ[name] for name in ("LD_LIBRARY_PATH",) if name in os.environ}
        path = self.at("bin") + os.pathsep + os.environ.get("PATH", os.defpath)
        return {**kept, "HOME": self.home, "PATH": path, "LC_ALL": "C.UTF-8", "SHELL": "/bin/sh", "NVIM_LOG_FILE": self.at("log")}

    def close(self):
        shutil.rmtree(self.path, ignore_errors=True)


class Terminal:
    """A program in a terminal, by tmux: its keys and its screen."""

    def __init__(self, room, words):
        self.room = room
        self.door = room.at("door")
        self.call("-f", "/dev/null", "new-session", "-d", "-x", str(COLUMNS), "-y", str(ROWS), "-c", room.sources, *words)

    def call(self, *words):
        ran = subprocess.run(["tmux", "-u", "-S", self.door, *words], env=self.room.environment(), stdin=subprocess.DEVNULL,
                             capture_output=True, text=True, timeout=SECONDS, check=False)
        return ran.stdout

    def keys(self, *names):
        """Presses keys that have these names in tmux."""
        self.call("send-keys", *names)

    def type(self, text):
        """Types characters; a line feed is the key of that name."""
        for part in re.split("(\n)", text):
            if part:
                self.call("send-keys", *(["Enter"] if part == "\n" else ["-l", part]))

    def screen(self):
        """The lines that are seen."""
        return self.call("capture-pane", "-p").splitlines()

    def shows(self, text, row=None):
        """Waits until the screen, or a row of it, shows a text."""
        until(lambda: any(text in line for line in self.screen()[row:row and row + 1]), lambda: f"the screen doesn't show {text!r}:\n" + "\n".join(self.screen()))

    def hides(self, text):
        if any(text in line for line in self.screen()):
            raise Fault(f"the screen shows {text!r}:\n" + "\n".join(self.screen()))

    def is_open(self):
        return bool(self.call("list-sessions"))

    def close(self):
        self.call("kill-server")


def until(is_so, told):
    """Waits until something is so; if it never is, that is a fault."""
    end = time.monotonic() + SECONDS
    while True:
        if is_so():
            return
        if time.monotonic() > end:
            raise Fault(told())
        time.sleep(0.05)


def same(what, found, wanted):
    """Waits until what an editor has is what is wanted."""
    until(lambda: found() == wanted, lambda: f"{what}: {found()}\nwanted: {wanted}")


def run(name, tools, tries, program):
    """Runs all tries; the status. Each is told."""
    missing = [tool for tool in tools if not shutil.which(tool)]
    if missing:
        print(f"{name}: there is no {', no '.join(missing)}; nothing was tried")
        return LEFT_OUT
    faults = left = 0
    for each in tries:
        room = Room(program)
        try:
            told = each(room, Program(os.path.realpath(program)))
            left += bool(told)
            print(f"{name}: {each.__doc__} {f'Left out: {told}' if told else 'So it is.'}", flush=True)
        except (Fault, OSError, subprocess.TimeoutExpired) as fault:
            faults += 1
            print(f"{name}: {each.__doc__} It is NOT so: {fault}", flush=True)
        finally:
            room.close()
    print(f"{name}: {len(tries)} tries, {faults} faults, {left} left out in part")
    return 1 if faults else LEFT_OUT if left else 0
