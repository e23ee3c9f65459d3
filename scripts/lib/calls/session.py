"""Calls of `compass session`: scripts that no transcript can hold, limits, and sessions that begin with the lines of a file."""
from examples import program_path

from .forms import DECK, FLAGS, NONE, NO_WORD, TABBED, not_there, tells_more


def entered(count):
    """What is replied to so many lines that are entered after the last one."""
    return b"".join(b"ok %d lines\n" % it for it in range(1, count + 1))


def session(script, replies, status=0):
    return ["session"], script, status, replies, b""


def entering(*lines):
    """Commands that enter lines after the last one."""
    return b"".join(b"a %s\n" % it for it in lines)


def words_up_to(row):
    """A binary text with this last row, and a word of four NO at each address before it."""
    return NO_WORD + b"".join(b"%06o 46000460004600046000\n" % it for it in range(int(row[:6], 8))) + row


# scripts whose lines end otherwise than with a newline, bytes that can't be seen, and how long a line is
SCRIPTS = [
    session(b"", b""),
    session(b"a", b"ok 1 lines\n"),
    session(b"a\r\nquit\r\na\r\n", b"ok 1 lines\n"),
    session(b"binary\r\n", NO_WORD),
    session(b"a \t\n", b"refused 3 bad character\n"),
    session(b"a \x7f\n", b"refused 3 bad character\n"),
    session(b"a " + b"X" * 90 + b"\n", b"ok 1 lines\n", 1),
    session(b"a " + b"X" * 91 + b"\n", b"refused 2 line too long\n"),
    session(b"a \t" + b"X" * 90 + b"\n", b"refused 2 line too long\n"),
    session(b"i 5 " + b"X" * 91 + b"\n", b"refused 1 no such line\n"),
    session(b"r 1 " + b"X" * 91 + b"\n", b"refused 1 no such line\n"),
    session(b"a " + b"X" * 198 + b"\n", b"refused 2 line too long\n"),
    session(b"a " + b"X" * 199 + b"\n", b"refused 5 bad command\n"),
    session(b"a   NO\nflags\n", b"ok 1 lines\n0 flagged lines\n"),
    session(b"a A\nd 1\n", b"ok 1 lines\nok 0 lines\n"),
    session(b"a A\na B\nquit\nd 1\n", b"ok 1 lines\nok 2 lines\n", 1),
]

# A source has at most 99,999 lines: the last of them is taken, the next one refused, and a line may still be replaced. A body has at most
# 500, and a MACRO that isn't kept is none of them.
LIMITS = [
    session(b"a\n" * 99_999 + b"a\ni 0\nr 99999 A\nflags\nd 99999\nm 99998 99998 0\na\na\n",
            entered(99_999) + b"refused 4 too many lines\nrefused 4 too many lines\nok 99999 lines\n99999 O\n1 flagged lines\n"
            b"ok 99998 lines\nok 99998 lines\nok 99999 lines\nrefused 4 too many lines\n"),
    session(b"a M        MACRO\n" + b"a *\n" * 499 + b"a          CON     1\na N        MACRO\na          ENDM\na          M\nflags\nbinary\n",
            entered(504) + b"502 E\n1 flagged lines\nIDENT\n000000 00000000000000000001\n", 1),
    session(b"a M        MACRO\n" + b"a *\n" * 500 + b"a          CON     1\na N        MACRO\na          ENDM\na          M\nflags\nbinary\n",
            entered(505) + b"502 E\n503 E\n504 E\n505 O\n4 flagged lines\nIDENT\n", 1),
    session(b"a          DUP     2\n" + b"a *\n" * 499 + b"a          CON     1\na          ENDD\nflags\nbinary\n",
            entered(502) + FLAGS + b"IDENT\n000000 00000000000000000001\n000001 00000000000000000001\n"),
    session(b"a          DUP     2\n" + b"a *\n" * 500 + b"a          CON     1\na          ENDD\nflags\nbinary\n",
            entered(503) + b"502 E\n503 E\n2 flagged lines\nIDENT\n", 1),
    session(b"a          DUP     2,500\n" + b"a *\n" * 499 + b"a          CON     1\nflags\nbinary\n",
            entered(501) + FLAGS + b"IDENT\n000000 00000000000000000001\n000001 00000000000000000001\n"),
    # 10,000 comments go behind a statement and back. There the head has ended, which each of them asks; the statements find what they found.
    session(b"a\n" * 10_000 + b"a          CON     1\na          CON     2\nm 1 10000 10001\nwork\nbinary\nm 2 10001 0\nwork\nd 1 10000\nwork\n",
            entered(10_002) + b"ok 10002 lines\nones 10000 twos 10000\nIDENT\n000000 00000000000000000001\n000001 00000000000000000002\n"
            b"ok 10002 lines\nones 10000 twos 10000\nok 2 lines\nones 0 twos 0\n"),
]

# A thousand times two instructions of 15 bits, and three; then a macro that repeats the call of another one, whose statements are 1,999 and
# 2,001: DUP, the call in it and ENDD, and each call with its line.
NOTHING, DUP, ENDM = b"         NO", b"         DUP     1000", b"         ENDM"
BOMB = [b"N        MACRO", NOTHING, ENDM, b"M        MACRO", b"         DUP     998", b"         N", b"         ENDD", ENDM, b"         M"]
REPEATED = [
    session(entering(DUP, NOTHING, NOTHING, b"         ENDD") + b"flags\nbinary\n",
            entered(4) + FLAGS + words_up_to(b"000763 46000460004600046000\n")),
    session(entering(DUP, NOTHING, NOTHING, NOTHING, b"         ENDD") + b"flags\nbinary\n",
            entered(5) + FLAGS + words_up_to(b"001355 46000460004600046000\n")),
    session(entering(*BOMB) + b"flags\nbinary\nr 5          DUP     999\nflags\nbinary\n",
            entered(9) + FLAGS + words_up_to(b"000371 46000460000000000000\n")
            + b"ok 9 lines\n" + FLAGS + words_up_to(b"000371 46000460004600000000\n")),
]

# among 5,000 lines a comment takes the place of another, and goes elsewhere
MANY = [
    session(entering(*[b"         CON     1"] * 2_499, b"* ONE", *[b"         CON     1"] * 2_500) + b"r 2500 * TWO\nwork\nm 2500 2500 10\nwork\n",
            entered(5_000) + b"ok 5000 lines\nones 1 twos 1\nok 5000 lines\nones 0 twos 0\n"),
]

# sessions that begin with the lines of a file
SOURCES = [
    (["session", "--source", DECK], b"flags\ni 0 *\nwork\n", 0, b"0 flagged lines\nok 7 lines\nones 1 twos 1\n", b""),
    (["session", "--source=" + DECK], b"work\nbinary\n", 0, b"ones 0 twos 0\nIDENT FIRST\n000000 71600000017276000002\n000001 00000000004600046000\n", b""),
    (["session", "--source", program_path("flags.cps")], b"", 1, b"", b""),
    (["session", "--source", TABBED], b"flags\n", 2, b"", tells_more(TABBED, "2:14", b"bad character")),
    (["session", "--source", NONE], b"flags\n", 2, b"", not_there(NONE)),
]

SESSIONS = SCRIPTS + LIMITS + REPEATED + MANY + SOURCES
