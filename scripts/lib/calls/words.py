"""Calls of `compass explain`, of a server that is sent no message, words that ask nothing, and calls for help."""
from .forms import DECK, NONE, PARTS, not_there, refused

# words of the language; the forms and codes are the manuals'
CENTRAL = b"An instruction of the central processor: i, j and k are digits of registers,\nK is an expression or a literal, n an expression.\n"
PERIPHERAL = b"An instruction of a peripheral processor: d, m, c and a target are expressions,\nm and c may be literals.\n"
EXPLAINED = [
    (["explain", "V"], b"A\n", 0, b"V: a width of VFD that isn't plain, or isn't from 1 to 60\n", b""),
    (["explain", "t"], b"A\n", 0, b"T: a value that was cut\n", b""),
    (["explain", "rj"], b"A\n", 0, CENTRAL + b"RJ    K         30 bits  0100K       Return jump to K; the next instruction begins a word\n", b""),
    (["explain", "MX6"], b"A\n", 0, CENTRAL + b"MXi   n         15 bits  43in        Form a mask of n ones at the left of Xi\n", b""),
    (["explain", "LJM"], b"A\n", 0, PERIPHERAL + b"LJM   m or m,d  24 bits  01dd mmmm   Long jump to m + (d); m alone if d is 0\n", b""),
    (["explain", "5111000120"], b"A\n", 0, b"SA1   B1+K      30 bits  51ijK, K=000120\n", b""),
    (["explain", "1405"], b"A\n", 0, b"LDN   d         12 bits  14dd, d=05\n", b""),
    (["explain", "46001"], b"A\n", 0, b"No instruction of the central processor has this code.\n", b""),
]

# an editor that sends nothing, or no message: its header tells no length, or is none
EDITORS = [
    (["server"], b"", 1, b"", b""),
    (["server", "--stdio"], b"", 1, b"", b""),
    (["server"], b"x: \n\n", 2, b"", b"bad header\n"),
    (["server"], b"{}\n\n", 2, b"", b"bad header\n"),
]

# words that ask nothing
WORDS = [
    refused([], b"'compass' requires a subcommand but one was not provided\n  [subcommands: batch, session, check, compare, disassemble, explain, server, help]\n\nUsage: compass <COMMAND>"),
    refused(["other"], b"unrecognized subcommand 'other'\n\nUsage: compass <COMMAND>"),
    refused(["oth\x1b\x9ber"], b"unrecognized subcommand 'oth??er'\n\nUsage: compass <COMMAND>"),
    refused(["batch", "--part", "other"], b"invalid value 'other' for '--part <PART>'\n  [possible values: " + PARTS + b"]"),
    refused(["batch", "--part", "list"], b"invalid value 'list' for '--part <PART>'\n  [possible values: " + PARTS + b"]\n\n  tip: a similar value exists: 'listing'"),
    refused(["batch", "--part", "flagsx", DECK], b"invalid value 'flagsx' for '--part <PART>'\n  [possible values: " + PARTS + b"]\n\n  tip: a similar value exists: 'flags'"),
    refused(["batch", "--part", ""], b"invalid value '' for '--part <PART>'\n  [possible values: " + PARTS + b"]"),
    refused(["batch", "--part"], b"a value is required for '--part <PART>' but none was supplied"),
    refused(["batch", "--wide"], b"unexpected argument '--wide' found\n\n  tip: to pass '--wide' as a value, use '-- --wide'\n\nUsage: compass batch [OPTIONS] [FILE]"),
    refused(["batch", DECK, "more"], b"unexpected argument 'more' found\n\nUsage: compass batch [OPTIONS] [FILE]"),
    refused(["session", "--source", "-"], b"invalid value '-' for '--source <FILE>': standard input has the script"),
    refused(["help", "other"], b"unrecognized subcommand 'other'"),
    refused(["help", "batch", "more"], b"unexpected argument 'more' found\n\nUsage: compass help [COMMAND]"),
    refused(["server", DECK], b"unexpected argument '" + DECK.encode() + b"' found\n\nUsage: compass server [OPTIONS]"),
    refused(["session", "name"], b"unexpected argument 'name' found\n\nUsage: compass session [OPTIONS]"),
]

# options of a comparison: words that aren't their values, and words that are, where the octal text isn't there
OFFSET = b" for '--offset <N>': write 1 to 6 octal digits, behind a minus to take them away"
OPTIONS = [
    refused(["compare", "--format", "owl", NONE], b"invalid value 'owl' for '--format <FORMAT>'\n  [possible values: rows, dump, own]"),
    refused(["compare", "--format=", NONE], b"invalid value '' for '--format <FORMAT>'\n  [possible values: rows, dump, own]"),
    refused(["compare", "--format", "dumps", NONE], b"invalid value 'dumps' for '--format <FORMAT>'\n  [possible values: rows, dump, own]\n\n  tip: a similar value exists: 'dump'"),
    refused(["compare", "--format", "row", NONE], b"invalid value 'row' for '--format <FORMAT>'\n  [possible values: rows, dump, own]\n\n  tip: a similar value exists: 'rows'"),
    refused(["compare", "--offset", "8", NONE], b"invalid value '8'" + OFFSET),
    refused(["compare", "--offset", "1234567", NONE], b"invalid value '1234567'" + OFFSET),
    refused(["compare", "--offset=", NONE], b"invalid value ''" + OFFSET),
    refused(["compare", "--offset=-", NONE], b"invalid value '-'" + OFFSET),
    refused(["compare", "--offset=-+1", NONE], b"invalid value '-+1'" + OFFSET),
    refused(["compare", "--offset", "-4000", NONE], b"invalid value '-4000' for '--offset <N>': behind a minus write '--offset=-4000'"),
    refused(["compare", "--offset", "-x", NONE],
            b"unexpected argument '-x' found\n\n  tip: to pass '-x' as a value, use '-- -x'\n\nUsage: compass compare [OPTIONS] <OCTAL> [FILE]"),
    refused(["compare", "--whole=1", NONE], b"unexpected value '1' for '--whole' found; no more were expected\n\nUsage: compass compare --whole <OCTAL> [FILE]"),
    refused(["compare", "--all", "--all", NONE], b"the argument '--all' cannot be used multiple times\n\nUsage: compass compare [OPTIONS] <OCTAL> [FILE]"),
    *((["compare", *words, NONE], b"", 2, b"", not_there(NONE)) for words in (
        ["--format", "rows", "--offset", "4000", "--whole"], ["--format=dump", "--offset=-777777", "--all"], ["--offset", "+20", "--all", "--whole"],
    )),
]

CALLS_BY_WORDS = EXPLAINED + EDITORS + WORDS + OPTIONS

# words that ask for help or the version, and what is written among other lines, none of which has more than 80 columns
HELPS = [
    (["--help"], b"Usage: compass <COMMAND>"),
    (["batch", "--help"], b"Usage: compass batch [OPTIONS] [FILE]"),
    (["session", "-h"], b"Usage: compass session"),
    (["check", "--help"], b"Usage: compass check [OPTIONS] [FILE]"),
    (["compare", "--help"], b"Usage: compass compare [OPTIONS] <OCTAL> [FILE]"),
    (["disassemble", "--help"], b"Usage: compass disassemble [OPTIONS] [OCTAL]"),
    (["explain", "--help"], b"Usage: compass explain <WORD>"),
    (["server", "--help"], b"Usage: compass server [OPTIONS]"),
    (["help"], b"Usage: compass <COMMAND>"),
    (["help", "batch"], b"Usage: compass batch [OPTIONS] [FILE]"),
    (["help", "session"], b"Usage: compass session"),
    (["help", "check"], b"Usage: compass check [OPTIONS] [FILE]"),
    (["help", "compare"], b"Usage: compass compare [OPTIONS] <OCTAL> [FILE]"),
    (["help", "disassemble"], b"Usage: compass disassemble [OPTIONS] [OCTAL]"),
    (["help", "explain"], b"Usage: compass explain <WORD>"),
    (["help", "server"], b"Usage: compass server [OPTIONS]"),
    (["help", "help"], b"Usage: compass help [COMMAND]"),
    (["--version"], b"compass "),
]
