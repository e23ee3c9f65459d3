"""Calls of `compass batch` that write texts into files, each in a folder of its own. Behind the status and what is written and told stand the folder
before the call and after it, as `folders.py` has it. In the place of the words a line for a shell may stand."""
from folders import Hard

from .forms import ALL, BINARY, FLAGS, HELP, LISTING, PAGE, PARTS, PROGRAM, SYMBOLS, tells_more

OLD = b"OLD\n"
TEXTS = {"t1.list": LISTING, "t1.oct": BINARY, "t1.refs": SYMBOLS, "t1.flags": FLAGS}
OLD_TEXTS = dict.fromkeys(TEXTS, OLD)
INTO_FOUR = ["--listing", "t1.list", "--binary", "t1.oct", "--symbols", "t1.refs", "--flags", "t1.flags"]

NO_FILE, NO_FOLDER, A_FOLDER = b"No such file or directory", b"Not a directory", b"Is a directory"
OUTPUT, SOURCE, OTHER = b"standard output has the part that '--part' names", b"it is the source", b"another text goes there"
DOUBLED, FLAGGED = b"A        CON     1\nA        CON     2\n", b"2 D\n1 flagged lines\n"
OPEN, OPEN_FLAGS = b"         IFEQ    1,2\n", b"end E\n1 flagged lines\n"


def made(words, after, before=None, text=b"", given=PROGRAM, status=0):
    """A call that writes files."""
    return ["batch", *words], given, status, text, b"", before or {}, after


def failed(words, told, before=None, given=PROGRAM):
    """A call that ends with a fault. No part is written, and the folder is as it was."""
    return ["batch", *words], given, 2, b"", told, before or {}, before or {}


def unwritten(words, name, why, before=None):
    """A call with a file that can't be written."""
    return failed(words, b"cannot write " + name + b": " + why + b"\n", before)


def refused(words, told, before=None):
    """Words that ask nothing."""
    return failed(words, b"error: " + told + HELP, before)


def taken(words, name, option, why, before=None):
    """Words that name a file into which a text can't go."""
    return refused(words, b"invalid value '" + name + b"' for '" + option + b" <FILE>': " + why, before)


def drafts(count):
    """What calls that were killed may leave."""
    return {"t1.list.compass-%d" % it: OLD for it in range(1, count + 1)}


# each text, all of them, and a part beside them
WRITTEN = [
    made(["--listing", "t1.list"], {"t1.list": LISTING}),
    made(["--binary", "t1.oct"], {"t1.oct": BINARY}),
    made(["--symbols=t1.refs"], {"t1.refs": SYMBOLS}),
    made(["--flags=t1.flags", "-"], {"t1.flags": FLAGS}),
    made(INTO_FOUR, TEXTS),
    made(["--page", "t1.html"], {"t1.html": PAGE}),
    made(["--page=t1.html", *INTO_FOUR, "--part", "flags"], {**TEXTS, "t1.html": PAGE}, text=FLAGS),
    made(["--flags", "it", "t1.cps", "--listing", "to"], {"t1.cps": PROGRAM, "to": LISTING, "it": FLAGS}, {"t1.cps": PROGRAM}, given=b"A\n"),
    made(["--part", "flags", "--listing", "it"], {"it": LISTING}, text=FLAGS),
    made(["--part", "all", *INTO_FOUR], TEXTS, text=ALL),
    made(["--flags", "it"], {"it": FLAGGED}, given=DOUBLED, status=1),
    made(["--flags", "it", "--part=flags"], {"it": OPEN_FLAGS}, text=OPEN_FLAGS, given=OPEN, status=1),
    made(["--listing", "it", "--symbols", "to"], {"it": b"", "to": b""}, given=b""),
    made(["--listing", "it"], {"it": b"".join(b"%43d *\n" % it for it in range(1, 5_001))}, given=b"*\n" * 5_000),
]

# Of files that stand nothing is left but their permissions. Links stay.
REPLACED = [
    made(INTO_FOUR, TEXTS, dict.fromkeys(TEXTS, OLD * 1_000)),
    made(["--listing", "it", "--flags", "to"], {"it": (LISTING, 0o600), "to": (FLAGS, 0o666)}, {"it": (OLD, 0o600), "to": (OLD, 0o666)}),
    made(["--flags", "link"], {"link": "it", "it": FLAGS}, {"link": "it", "it": OLD}),
    made(["--flags", "in/link"], {"in": None, "in/link": "../link", "link": "it", "it": (FLAGS, 0o640)},
         {"in": None, "in/link": "../link", "link": "it", "it": (OLD, 0o640)}),
    made(["--flags", "link/it"], {"link": "in", "in": None, "in/it": FLAGS}, {"link": "in", "in": None}),
    made(["--listing", "t1.list"], {**drafts(8), "t1.list": LISTING}, drafts(8)),
]

# what is no regular file is written in its place
DEVICES = [
    made(["--listing", "/dev/null", "--flags", "it"], {"it": FLAGS}),
    made(["--flags", "/dev/stdout"], {}, text=FLAGS),
    made(["--binary", "/dev/stdout", "--part", "flags"], {}, text=BINARY + FLAGS),
]

# files are placed in the order of the texts
NAMES = [
    made(["--flags", "./-"], {"-": FLAGS}),
    made(["--flags", "./it", "--listing", "./to", "./t1.cps"], {"t1.cps": PROGRAM, "it": FLAGS, "to": LISTING}, {"t1.cps": PROGRAM}, given=b"A\n"),
    made(["--flags", "in/it", "--listing", "it"], {"in": None, "in/it": FLAGS, "it": LISTING}, {"in": None}),
    made(["--flags", "link/it", "--listing", "it"], {"link": "in", "in": None, "in/it": FLAGS, "it": LISTING}, {"link": "in", "in": None}),
]

DECK = {"deck.cps": PROGRAM}
IN_FOLDER = {"in": None, "in/deck.cps": PROGRAM, "link": "in"}


def same(words, name, other, before):
    """Names that lead to one file, of which the other is the source: it stays as it was, and nothing is read or written."""
    return failed(words, b"cannot write " + name + b": it is the same file as " + other + b", the source\n", before, b"A\n")


def twice(words, name, other, before=None):
    """Names of texts that lead to one file."""
    return failed(words, b"cannot write " + name + b": it is the same file as " + other + b", where another text goes\n", before, b"A\n")


def shell(line, status, told, before, text=b""):
    """A line for a shell, after which the folder is as it was."""
    return line, b"", status, text, told, before, before


# The source is never written over, nor one text over another, by whatever names, links and folders.
ONE_FILE = [
    same(["--listing", "./deck.cps", "deck.cps"], b"./deck.cps", b"deck.cps", DECK),
    same(["--binary", "deck.cps", "./deck.cps"], b"deck.cps", b"./deck.cps", DECK),
    same(["--page", "./deck.cps", "deck.cps"], b"./deck.cps", b"deck.cps", DECK),
    same(["--flags", "in/../deck.cps", "deck.cps"], b"in/../deck.cps", b"deck.cps", {**DECK, "in": None}),
    same(["--listing", "it", "--symbols", ".//deck.cps", "--part", "all", "deck.cps"], b".//deck.cps", b"deck.cps", {**DECK, "it": OLD}),
    same(["--listing", "link", "deck.cps"], b"link", b"deck.cps", {**DECK, "link": "deck.cps"}),
    same(["--binary", "deck.cps", "link"], b"deck.cps", b"link", {**DECK, "link": "deck.cps"}),
    same(["--binary", "one", "two"], b"one", b"two", {**DECK, "one": "deck.cps", "two": "./one"}),
    same(["--symbols", "other", "deck.cps"], b"other", b"deck.cps", {**DECK, "other": Hard("deck.cps")}),
    same(["--flags", "deck.cps", "other"], b"deck.cps", b"other", {**DECK, "other": Hard("deck.cps")}),
    same(["--listing", "link/deck.cps", "in/deck.cps"], b"link/deck.cps", b"in/deck.cps", IN_FOLDER),
    same(["--listing", "./none.cps", "none.cps"], b"./none.cps", b"none.cps", {}),
    same(["--listing", "\t./../x\n", "\t/../x\n"], b"?./../x\n", b"?/../x\n", {"\t": None, "\t.": None, "x\n": PROGRAM}),
    twice(["--listing", "x", "--binary", "./x"], b"./x", b"x"),
    twice(["--flags", "x", "--page", "./x"], b"./x", b"x"),
    twice(["--listing", "x", "--binary", "./x", "--part", "flags"], b"./x", b"x", {"x": OLD}),
    twice(["--symbols", "in/x", "--flags", "link/x"], b"link/x", b"in/x", IN_FOLDER),
    twice(["--listing", "in/../x", "--symbols", "link/../x"], b"link/../x", b"in/../x", IN_FOLDER),
    twice(["--listing", "it", "--flags", "link"], b"link", b"it", {"it": OLD, "link": "it"}),
    twice(["--binary", "it", "--symbols", "other"], b"other", b"it", {"it": OLD, "other": Hard("it")}),
]

# what a shell opens: standard input from the file that is written, and standard output to one that a text or the source has
OPENED = [
    shell("compass batch --listing deck.cps < deck.cps", 2, b"cannot write deck.cps: it is the same file as /dev/stdin, the source\n", DECK),
    shell("compass batch --flags link - < deck.cps", 2, b"cannot write link: it is the same file as /dev/stdin, the source\n", {**DECK, "link": "deck.cps"}),
    shell("compass batch --listing /dev/stdin < deck.cps", 2, b"cannot write /dev/stdin: it is the same file as /dev/stdin, the source\n", DECK),
    shell("compass batch --listing /dev/stdout deck.cps >> deck.cps", 2, b"cannot write /dev/stdout: it is the same file as deck.cps, the source\n", DECK),
    shell("compass batch --listing it --part flags deck.cps >> it", 2,
          b"cannot write /dev/stdout: it is the same file as it, where another text goes\n", {**DECK, "it": OLD}),
    shell("compass batch --listing it --part flags deck.cps >> deck.cps", 2, b"cannot write /dev/stdout: it is the same file as deck.cps, the source\n", DECK),
]

# Devices, and what is open already, take one text behind another.
MANY = b"".join(sorted((LISTING + FLAGS).splitlines(True)))
SHARED = [
    made(["--listing", "/dev/null", "--flags", "/dev/null", "--symbols", "/dev/./null"], {}),
    shell("compass batch --listing /dev/stdout --flags /dev/stdout deck.cps | LC_ALL=C sort", 0, b"", DECK, MANY),
    shell("compass batch --listing /dev/stderr --flags /dev/stderr deck.cps 2>&1 >/dev/null | LC_ALL=C sort", 0, b"", DECK, MANY),
    (["batch", "--listing", "/dev/stdout", "--part", "flags"], PROGRAM, 0, LISTING + FLAGS, b"", {}, {}),
]

# no source
UNREAD = [
    failed(["--flags", "it", "--part", "flags"], b"line 2: bad character\n", {"it": OLD}, b"A\n~\n"),
    failed(["--flags", "it"], b"line 1: line too long\n", given=b"*" * 91),
    failed(["--flags", "it", "t2.cps"], tells_more("t2.cps", "2:1", b"bad character"), {"it": OLD, "t2.cps": b"A\n~\n"}),
    failed(["--flags", "it", "t2.cps"], tells_more("t2.cps", "1:90", b"bad character"), {"it": OLD, "t2.cps": b"*" * 89 + b"~\n~\n"}),
    failed(["--flags", "it", "t2.cps"], tells_more("t2.cps", "3:4", b"bad character"), {"it": OLD, "t2.cps": b"*\n\n* A\t\t\n"}),
    failed(["--flags", "it", "t2.cps"], tells_more("t2.cps", 1, b"line too long"), {"it": OLD, "t2.cps": b"~" + b"*" * 90}),
    failed(["--flags", "it", "in/t2.cps"], tells_more("in/t2.cps", 1, b"line too long"), {"in": None, "in/t2.cps": b"*" * 91}),
    failed(["--flags", "it", "t2.cps"], tells_more("t2.cps", 100_000, b"too many lines"), {"t2.cps": b"\n" * 100_000}),
    failed(["--flags", "it", "\x1b.cps"], tells_more("?.cps", "1:1", b"bad character"), {"\x1b.cps": b"\x1b"}),
    failed(["--flags", "it", "none.cps"], b"cannot read none.cps: No such file or directory\n", {"it": OLD}),
]

# where one file can't be written, none is
UNWRITTEN = [
    unwritten(["--flags", "no/such/it"], b"no/such/it", NO_FILE),
    unwritten(["--flags", ""], b"", NO_FILE),
    unwritten(["--flags", "it/"], b"it/", NO_FILE),
    unwritten(["--flags", "no\x1b[31m\n/it"], b"no?[31m\n/it", NO_FILE),
    unwritten(["--flags", "it/to"], b"it/to", NO_FOLDER, {"it": OLD}),
    unwritten(["--flags", "in"], b"in", A_FOLDER, {"in": None}),
    unwritten(["--flags", "link"], b"link", NO_FILE, {"link": "it"}),
    unwritten(["--flags", "link"], b"link", b"Too many levels of symbolic links", {"link": "link"}),
    unwritten(["--listing", "t1.list"], b"t1.list", b"File exists", {**drafts(9), "t1.list": OLD}),
    unwritten(["--part", "flags", "--listing", "it", "--flags", "no/to"], b"no/to", NO_FILE, {"it": OLD}),
    unwritten(["--part", "all", "--listing", "no/to", "--flags", "it"], b"no/to", NO_FILE, {"it": OLD}),
    unwritten([*INTO_FOUR[:-1], "in"], b"in", A_FOLDER, {**OLD_TEXTS, "in": None}),
    unwritten(["--listing", "it", "--flags", "/dev/full"], b"/dev/full", b"No space left on device", {"it": OLD}),
    unwritten(["--listing", "it", "--flags", "to"], b"to", b"Permission denied", {"it": OLD, "to": (OLD, 0o444)}),
]

# words that ask nothing
WORDS = [
    taken(["--listing", "-"], b"-", b"--listing", OUTPUT),
    taken(["--flags=-", "--part", "flags", "it"], b"-", b"--flags", OUTPUT, {"it": PROGRAM}),
    taken(["--binary", "it", "it"], b"it", b"--binary", SOURCE, {"it": PROGRAM}),
    taken(["--page", "it", "it"], b"it", b"--page", SOURCE, {"it": PROGRAM}),
    taken(["--symbols", "it", "--flags", "it"], b"it", b"--flags", OTHER, {"it": OLD}),
    taken(["--flags", "it", "--listing", "it"], b"it", b"--flags", OTHER),
    taken(["--flags", "it\t", "--binary", "it\t"], b"it?", b"--flags", OTHER),
    refused(["--binary"], b"a value is required for '--binary <FILE>' but none was supplied"),
    refused(["--flags", "it", "--flags", "to"],
            b"the argument '--flags <FILE>' cannot be used multiple times\n\nUsage: compass batch [OPTIONS] [FILE]"),
    refused(["--part", "other", "--listing", "-"], b"invalid value 'other' for '--part <PART>'\n  [possible values: " + PARTS + b"]"),
    (["session", "--listing", "it"], b"a A\n", 2, b"",
     b"error: unexpected argument '--listing' found\n\nUsage: compass session [OPTIONS]" + HELP, {}, {}),
]

EXPORTS = WRITTEN + REPLACED + DEVICES + NAMES + ONE_FILE + OPENED + SHARED + UNREAD + UNWRITTEN + WORDS
