"""Calls of `compass batch` that write no file: each text, the lines that bytes are, and sources that can't be read."""
import os

from examples import PROGRAMS, program_path

from .forms import ALL, BINARY, DECK, FLAGS, LISTING, NONE, NO_WORD, PROGRAM, SYMBOLS, TABBED, not_there, tells_more

ONE = b"IDENT\n000000 46000000000000000000\n"
ROW = b" " * 42 + b"1\n"


def part(name, source, text, status=0):
    """Batch assembly of a source into one of its texts."""
    return ["batch", "--part", name], source, status, text, b""


def wrong(source, told, *words):
    """Batch assembly of a source that isn't assembled."""
    return ["batch", *words], source, 2, b"", told


def unopened(name, told):
    """Batch assembly of a file that can't be read: standard input is not read in its place."""
    return ["batch", name], b"A\n", 2, b"", b"cannot read " + told


# each text of a program, and all
TEXTS = [
    part("listing", PROGRAM, LISTING),
    part("binary", PROGRAM, BINARY),
    part("symbols", PROGRAM, SYMBOLS),
    part("flags", PROGRAM, FLAGS),
    (["batch"], PROGRAM, 0, ALL, b""),
    (["batch", "--part=all"], PROGRAM, 0, ALL, b""),
    part("flags", b"A        CON     1\nA        CON     2\n", b"2 D\n1 flagged lines\n", 1),
    part("flags", b"         IFEQ    1,2\n", b"end E\n1 flagged lines\n", 1),
]

# 21 times 20,000 statements, more than are kept from one pass for the other, with 1,000 words, and a label after them on line 442
LONG = [part("symbols", (b"   DUP 1000,20\n" + b"*\n" * 19 + b"   BSS 1\n") * 21 + b"L  BSS 1\n", b"L        00000000000000051010 442\n")]

# the lines that bytes are: what they stand for is told by the words of their binary text; a lone carriage return is an empty line
LINES = [
    part("binary", b"  NO", ONE),
    part("binary", b"  NO\r\n", ONE),
    part("binary", b"  NO\n", ONE),
    part("binary", b"  NO\n\n", ONE),
    part("binary", b"  NO\r", ONE),
    part("binary", b"\r\n  NO\n\r", ONE),
    part("binary", b"", NO_WORD),
    part("binary", b"\n", NO_WORD),
    part("binary", b"  NO\n  NO", b"IDENT\n000000 46000460000000000000\n"),
    part("listing", b"", b""),
    part("listing", b"\n", ROW),
    part("listing", b"\r", ROW),
    part("listing", b"\r\n", ROW),
]

# the first line that no source may have decides, and of one line its length before its characters
WRONG_LINES = [
    wrong(b"X" * 91 + b"\n`\n\n", b"line 1: line too long\n"),
    wrong(b"\nA`\n" + b"X" * 91 + b"\n", b"line 2: bad character\n"),
    wrong(b"A\n\t\n{\n", b"line 2: bad character\n"),
    wrong(b"A\nB\n" + b"X" * 91 + b"\n", b"line 3: line too long\n"),
    wrong(b"A\nB\n\r\r\n", b"line 3: bad character\n"),
    wrong(b"A\nB\n\xff\n", b"line 3: bad character\n"),
    part("flags", b"\n" * 99_998 + b"A", b"99999 O\n1 flagged lines\n", 1),
    wrong(b"\n" * 99_999 + b"A", b"too many lines\n"),
    wrong(b"\n" * 100_000 + b"~", b"too many lines\n"),
    wrong(b"\n" * 99_999 + b"~", b"line 100000: bad character\n"),
    wrong(b"\n" * 99_999 + b"X" * 91, b"line 100000: line too long\n"),
    part("flags", b"*" * 90, FLAGS),
    part("flags", b"*" * 90 + b"\r", FLAGS),
    wrong(b"*" * 91, b"line 1: line too long\n", "--part", "flags"),
    wrong(b"*" * 200, b"line 1: line too long\n"),
    wrong(b"*" * 200 + b"\r\n", b"line 1: line too long\n"),
    wrong(b"*" * 1000 + b"`\n", b"line 1: line too long\n"),
]

# a source in a file, and files that can't be opened
with open(program_path("first.texts"), "rb") as it:
    DECK_TEXTS = it.read()
FILES = [
    (["batch", DECK], b"A\n", 0, DECK_TEXTS, b""),
    (["batch", "--part", "flags", DECK], b"A\n", 0, FLAGS, b""),
    (["batch", DECK, "--part=flags"], b"A\n", 0, FLAGS, b""),
    (["batch", "-", "--part", "binary"], PROGRAM, 0, BINARY, b""),
    (["batch", "--part", "binary", "--", "-"], PROGRAM, 0, BINARY, b""),
    (["batch", NONE], b"A\n", 2, b"", not_there(NONE)),
    unopened("none\x1b[31m\n.cps", b"none?[31m\n.cps: No such file or directory\n"),
    unopened(os.path.join(DECK, "more"), os.path.join(DECK, "more").encode() + b": Not a directory\n"),
    unopened("", b": No such file or directory\n"),
    unopened(PROGRAMS, PROGRAMS.encode() + b": is a directory\n"),
]

# lines that no source may have
BAD_LINES = [
    (["batch", TABBED], b"", 2, b"", tells_more(TABBED, "2:14", b"bad character")),
    (["batch", "--part", "flags", TABBED], b"A\n", 2, b"", tells_more(TABBED, "2:14", b"bad character")),
    (["batch", "-"], b"A\n\t\n", 2, b"", b"line 2: bad character\n"),
]

BATCHES = TEXTS + LONG + LINES + WRONG_LINES + FILES + BAD_LINES
