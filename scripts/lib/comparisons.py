"""Reads `examples/compare/rows`, whose head says how it is written."""
import os
from dataclasses import dataclass, field

from examples import FOLDER, program_path

ROWS = os.path.join(FOLDER, "compare", "rows")
ESCAPES = (b"\\t", b"\t"), (b"\\r", b"\r"), (b"\\f", b"\f")


@dataclass
class Comparison:
    """An octal text beside a source, and what is told."""

    title: str
    octal: list = field(default_factory=list)
    source: str = ""
    words: list = field(default_factory=list)
    is_swapped: bool = False
    is_later: bool = False
    status: int = -1
    told: list = field(default_factory=list)


def text_of(lines):
    """Lines as a text, without blank ones at its end."""
    lines = list(lines)
    while lines and not lines[-1]:
        lines.pop()
    return b"".join(line + b"\n" for line in lines)


class Reader:
    """Reads the file line by line. `lines` are those of the part that was begun; before the first one there is none."""

    def __init__(self):
        self.sources, self.comparisons, self.lines = {}, [], None

    def take(self, line):
        start, rest = line[:4], line[4:].decode()
        if start == b"=== ":
            self.comparisons.append(Comparison(rest))
            self.lines = None
        elif start == b"--- ":
            self.begin(*rest.partition(" ")[::2])
        elif line.startswith(b"## "):
            self.lines = self.sources.setdefault(line[3:].decode(), [])
        elif line.startswith(b"# ") or line == b"#":
            self.lines = None
        elif self.lines is not None:
            self.lines.append(line)
        elif line:
            raise SystemExit(f"{ROWS}: no part is begun at {line!r}")

    def begin(self, part, said):
        """Begins a part of a comparison."""
        it, self.lines = self.comparisons[-1], None
        if part in ("octal", "told") and not said:
            self.lines = getattr(it, part)
        elif part == "source":
            it.source = said
        elif part == "call":
            it.words = said.split()
        elif part == "status":
            it.status = int(said)
        elif part in ("swapped", "later") and not said:
            setattr(it, "is_" + part, True)
        else:
            raise SystemExit(f"{ROWS}: {it.title}: there is no part `{part} {said}`")

    def source_of(self, comparison):
        """The bytes of a source."""
        name = comparison.source
        if name.endswith(".cps"):
            with open(program_path(name), "rb") as file:
                return file.read()
        if name not in self.sources:
            raise SystemExit(f"{ROWS}: {comparison.title}: there is no source `{name}`")
        return text_of(self.sources[name])


def octal_of(comparison):
    """The bytes of an octal text."""
    text = text_of(comparison.octal)
    for written, meant in ESCAPES:
        text = text.replace(written, meant)
    return text


def comparisons():
    """The calls of the file: a title; the words behind the program; what stands on standard input; the status; what is written, and told
    on standard error; and the files of the folder. How many are left out stands behind."""
    reader, calls = Reader(), []
    with open(ROWS, "rb") as file:
        for line in file.read().split(b"\n"):
            reader.take(line)
    for it in reader.comparisons:
        octal, source, told = octal_of(it), reader.source_of(it), text_of(it.told)
        given, words, files = (source, ["octal", "-"], {"octal": octal}) if it.is_swapped else (octal, ["-", "deck.cps"], {"deck.cps": source})
        texts = (b"", told) if it.status == 2 else (told, b"")
        if not it.is_later:
            calls.append((it.title, ["compare", *it.words, *words], given, it.status, *texts, files))
    return calls, len(reader.comparisons) - len(calls)
