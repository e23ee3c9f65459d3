"""Calls of `compass check`: sources with what is told of them."""
from examples import PROGRAMS, program_path

from .forms import DECK, NONE, not_there, refused

FLAGS = program_path("flags.cps")


def checked(source, told):
    """A check of a source on standard input."""
    return ["check"], source, 1 if told else 0, told, b""


# each letter
FLAGGED = b"""\
NAME:7:19: error: A: no form of SA1 takes X2*2
    7 |           SA1     X2*2                     A, NO SUCH OPERAND
      |                   ^^^^
NAME:8:1: error: D: TWO has a value already, from line 6, and keeps it
    8 | TWO       EQU     3                        D, TWO HAS A VALUE ALREADY
      | ^^^
NAME:9:11: error: E: no range is open for ENDIF
    9 |           ENDIF                            E, NO RANGE IS OPEN
      |           ^^^^^
NAME:10:1: error: L: EQU needs a symbol in the location field; X1 is no symbol: it is a register
   10 | X1        EQU     4                        L, A REGISTER IS NO SYMBOL
      | ^^
NAME:11:11: error: O: FORTRAN is no operation, and no macro above has this name
   11 |           FORTRAN                          O, NO OPERATION AND NO MACRO
      |           ^^^^^^^
NAME:12:19: error: T: the value 262144 doesn't fit 18 bits (-131071 to 262143); what is past them is cut off
   12 |           SB1     1000000B                 T, 18 BITS DO NOT HOLD IT
      |                   ^^^^^^^^
NAME:13:19: error: U: no line gives NOWHERE a value; it counts as 0
   13 |           SA1     NOWHERE                  U, NO LINE DEFINES IT
      |                   ^^^^^^^
NAME:14:19: error: V: a field has 1 to 60 bits, and not 61
   14 |           VFD     61/0                     V, NO SUCH WIDTH
      |                   ^^
NAME:17:11: error: E: the program has ended in line 16; only comments may follow
   17 |           CON     1                        E, BEHIND THE END
      |           ^^^^^^^^^
NAME:17:11: note: nothing behind END is assembled; another program is a source of its own
   17 |           CON     1                        E, BEHIND THE END
      |           ^^^
"""

# what an expansion does, and what is open at the end: its line is told last
LINES = [
    checked(b"*", b""),
    checked(b"", b""),
    checked(b"""\
FUNC      MACRO   CODE,ADDR
          IFNE    ADDR,0
          SX1     CODE
          ENDIF
          ENDM
          FUNC    1,AWAY
AWAY      PS
""", b"""\
<stdin>:6:21: error: U: no line above gives AWAY a value, and it must have one here; it has one from line 7 (written in line 2)
    6 |           FUNC    1,AWAY
      |                     ^^^^
      = in its expansion: IFNE    AWAY,0
"""),
    checked(b"          DUP     3,1\n          CON     Q\n", b"""\
<stdin>:2:19: error: U: no line gives Q a value; it counts as 0
    2 |           CON     Q
      |                   ^
      = in its expansion: CON     Q (3 times)
"""),
    checked(b"          IFEQ    1,1\n          CON     Q\n", b"""\
<stdin>:2:19: error: U: no line gives Q a value; it counts as 0
    2 |           CON     Q
      |                   ^
<stdin>:1:11: error: E: the source ends in a range that is open from line 1
    1 |           IFEQ    1,1
      |           ^^^^
"""),
    checked(b"          IFEQ    Q,R,1\n*\n", b"""\
<stdin>:1:19: error: U: no line gives Q a value, and it must have one here
    1 |           IFEQ    Q,R,1
      |                   ^
<stdin>:1:21: error: U: no line gives R a value, and it must have one here
    1 |           IFEQ    Q,R,1
      |                     ^
"""),
]

# bytes that no line may have; the line counts as if a blank stood for each, and its first 90 bytes were all
WRONG_LINES = [
    checked("* LINE 1\n\n* CAFÉ\n".encode(), """\
<stdin>:3:6: error: 'É' (U+00C9) is no character of a line
    3 | * CAFÉ
      |      ^
""".encode()),
    checked(b"A\tEQU     2\n          CON     A\n*`\r\r\n", b"""\
<stdin>:1:2: error: a tab is no character of a line; blanks to column 11, 18 or 30?
    1 | A EQU     2
      |  ^
<stdin>:3:2: error: '`' is no character of a line
    3 | *`?
      |  ^
<stdin>:3:3: error: a carriage return is no character of a line
    3 | *`?
      |   ^
"""),
    checked(b"\xef\xbb\xbf* A\n*\x1b[31m\n*\xc9A\n", b"""\
<stdin>:1:1: error: the file begins with a byte order mark
    1 | ?* A
      | ^
<stdin>:2:2: error: byte 1B is no character of a line
    2 | *?[31m
      |  ^
<stdin>:3:2: error: byte C9 is no character of a line, and no UTF-8
    3 | *?A
      |  ^
"""),
    checked(b"*" * 89 + b"123\n", b"""\
<stdin>:1:91: error: the line has 92 characters, and 90 are the most
    1 | """ + b"*" * 89 + b"""123
      | """ + b" " * 90 + b"""^^
"""),
    checked(b"~" * 12, b"".join(b"""\
<stdin>:1:%d: error: %s
    1 | ~~~~~~~~~~~~
      | %s^
""" % (column, b"'~' is no character of a line" if column < 11 else b"and 2 more in this line", b" " * (column - 1)) for column in range(1, 12))),
    checked(b"*\n" * 99_999 + b"A\nB\n", b"<stdin>:100000:1: error: a source has 99,999 lines at most; the lines from here on are not looked at\n"),
]

# notes, which change no status
NOTES = [
    (["check"], b"TWO       EQU     2\n*CALL COMCCIO\n          USE                TABLES\n", 0, b"""\
<stdin>:1:1: note: nothing reads TWO
    1 | TWO       EQU     2
      | ^^^
<stdin>:2:1: note: *CALL is a comment here, and brings no text in
    2 | *CALL COMCCIO
      | ^^^^^
<stdin>:3:30: note: no operand stands here; what begins in column 30 or later is a comment
    3 |           USE                TABLES
      |                              ^^^^^^
""", b""),
    (["check"], b"          IDENT   A\n          NO\n", 0, b"""\
<stdin>:1:11: note: no END stands behind it; the last lines may be missing
    1 |           IDENT   A
      |           ^^^^^
""", b""),
    checked(b"A         CON     B\n          END\n*\nB         CON     A\n          END\n", b"""\
<stdin>:1:19: error: U: no line gives B a value; it counts as 0
    1 | A         CON     B
      |                   ^
<stdin>:1:1: note: nothing reads A
    1 | A         CON     B
      | ^
<stdin>:4:11: error: E: the program has ended in line 2; only comments may follow
    4 | B         CON     A
      |           ^^^^^^^^^
<stdin>:4:11: note: nothing behind END is assembled; another program is a source of its own
    4 | B         CON     A
      |           ^^^
<stdin>:5:11: error: E: the program has ended in line 2; only comments may follow
    5 |           END
      |           ^^^
"""),
]

# files, and words that ask nothing
FILES = [
    (["check", FLAGS], b"A\n", 1, FLAGGED.replace(b"NAME", FLAGS.encode()), b""),
    (["check", "-"], b"A\n", 1, b"<stdin>:1:1: error: O: no operation stands behind A\n    1 | A\n      | ^\n", b""),
    (["check", DECK], b"A\n", 0, b"", b""),
    (["check", "--errors"], b"TAG       NO\n", 0, b"", b""),
    (["check", "-", "--errors"], b"TAG       CON     Q\n", 1, b"<stdin>:1:19: error: U: no line gives Q a value; it counts as 0\n    1 | TAG       CON     Q\n      |                   ^\n", b""),
    (["check", NONE], b"A\n", 2, b"", not_there(NONE)),
    (["check", PROGRAMS], b"A\n", 2, b"", b"cannot read " + PROGRAMS.encode() + b": is a directory\n"),
    refused(["check", FLAGS, "more"], b"unexpected argument 'more' found\n\nUsage: compass check [OPTIONS] [FILE]"),
    refused(["check", "--errors=all"], b"unexpected value 'all' for '--errors' found; no more were expected\n\nUsage: compass check --errors [FILE]"),
]

CHECKS = LINES + WRONG_LINES + NOTES + FILES
