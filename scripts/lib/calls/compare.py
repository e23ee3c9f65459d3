"""Calls of `compass compare`: sources beside octal texts. `examples/compare/rows` has more of these; here stand words that are refused, and faults."""
from examples import program_path

from .forms import NONE, TABBED, not_there, refused, tells_more


def compared(name, octal, text, *words):
    """An octal text on standard input, compared with an example: what is told, whose last row counts the words that differ."""
    status = 0 if text.splitlines()[-1].startswith(b"0 of ") else 1
    return ["compare", *words, "-", program_path(name)], octal, status, text, b""


def failed(words, told, given=b""):
    """A comparison that ends with a fault."""
    return ["compare", *words], given, 2, b"", told


WORDS = b"000000 76110712000100076330\n000001 73412460004600046000\n000002 73510460004600046000\n"
WRONG_DIGIT = WORDS.replace(b"01000", b"02000")
DIGIT = b"""\
000000 deck  76110712000100076330
       octal 76110712000200076330  row 1
                        ^
       line 2: SX2    1000B
"""

# a binary text; words that lack parcels; a flagged source; a peripheral processor
AGREEING = [
    compared("parcels.cps", WORDS, b"compared: 60 digits of 3 words, in 3 rows\n0 of 3 words differ (000000 to 000002)\n"),
    compared("parcels.cps", b"IDENT\n\n" + WORDS + b"0 flagged lines\n", b"""\
compared: 60 digits of 3 words, in 3 rows
other text: 2 rows, first row 1
0 of 3 words differ (000000 to 000002)
"""),
    compared("parcels.cps", WORDS[:-1], b"compared: 60 digits of 3 words, in 3 rows\n0 of 3 words differ (000000 to 000002)\n"),
    compared("parcels.cps", b"1 73412\n", b"compared: 5 digits of 1 words, in 1 rows\n0 of 1 words differ (000001 to 000001)\n"),
    compared("flags.cps", b"0 61100000005110000000 00000000000000000002\n", b"compared: 40 digits of 2 words, in 1 rows\n0 of 2 words differ (000000 to 000001)\n"),
    compared("reader.cps", b"1034 3021 0342\n", b"compared: 8 digits of 2 words, in 1 rows\n0 of 2 words differ (001034 to 001035)\n"),
]

# what made the digits; and parts of a parcel, which aren't read
DIFFERING = [
    compared("parcels.cps", WRONG_DIGIT, DIGIT + b"compared: 60 digits of 3 words, in 3 rows\n1 of 3 words differ (000000 to 000002)\n"),
    compared("parcels.cps", WORDS + b"000003 1\n", b"""\
compared: 60 digits of 3 words, in 3 rows
not read: 1 rows, first row 4: a group of 1 digits
0 of 3 words differ (000000 to 000002)
"""),
    compared("parcels.cps", b"0 66110712000100076331\n", b"""\
000000 deck  76110712000100076330
       octal 66110712000100076331  row 1
             ^                  ^
       line 1: SX1    B1
       line 3: SX3    B3
compared: 20 digits of 1 words, in 1 rows
1 of 1 words differ (000000 to 000000)
"""),
    compared("reader.cps", b"1034 3021 0343\n", b"""\
001035 deck  0342
       octal 0343  row 1
                ^
       line 56: UJN     READX
compared: 8 digits of 2 words, in 1 rows
1 of 2 words differ (001034 to 001035)
"""),
]

# The addresses that are compared. One address is a range. Where no digit that is known stands there, that is no agreement.
LIMITED = [
    compared("parcels.cps", WRONG_DIGIT, b"compared: 40 digits of 2 words, in 3 rows\n0 of 2 words differ (000001 to 000002)\n", "--from", "1"),
    compared("parcels.cps", WRONG_DIGIT, DIGIT + b"compared: 20 digits of 1 words, in 3 rows\n1 of 1 words differ (000000 to 000000)\n", "--to=0"),
    compared("parcels.cps", WORDS, b"compared: 20 digits of 1 words, in 3 rows\n0 of 1 words differ (000002 to 000002)\n", "--from", "2", "--to", "2"),
    failed(["--from", "1000", "-", program_path("parcels.cps")], b"no digit of OCTAL is compared between 001000 and 000002\n", WORDS),
    failed(["--from", "10", "--to", "17", "-", program_path("parcels.cps")], b"no digit of OCTAL is compared between 000010 and 000017\n", WORDS),
    failed(["--from=3", "--to=3", "-", program_path("parcels.cps")], b"no digit of OCTAL is compared between 000003 and 000003\n", WORDS),
    failed(["--to", "0", "-", program_path("parcels.cps")], b"no digit of OCTAL is compared between 000001 and 000000\n", WORDS.splitlines(True)[1]),
    failed(["--from", "0", "-", program_path("parcels.cps")], b"no row of OCTAL has an address and octal digits\n"),
    failed(["--columns", "1-6", "-", program_path("parcels.cps")], b"no row of OCTAL has an address and octal digits\n", WORDS),
    refused(["compare", "--from", "1001", "--to", "1000", "-", program_path("parcels.cps")],
            b"invalid value '1000' for '--to <B>': it is below the address of '--from'"),
    refused(["compare", "--to", "77", "--from", "0100", NONE, NONE],
            b"invalid value '77' for '--to <B>': it is below the address of '--from'"),
]

# what isn't compared
FAILING = [
    failed(["-", program_path("parcels.cps")], b"no row of OCTAL is read, the first is row 3: a group of 7 digits\n", b"NO DIGITS\n000100\n1234567 1\n"),
    failed([NONE, program_path("parcels.cps")], not_there(NONE)),
    failed([program_path("parcels.octal"), NONE], not_there(NONE)),
    failed([program_path("parcels.octal")], b"FILE: line 2, column 1: bad character\n", b"\n~\n"),
    failed([program_path("parcels.octal"), "-"], b"FILE: line 1: line too long\n", b"*" * 91),
    failed([program_path("parcels.octal"), TABBED], tells_more(TABBED, "2:14", b"bad character")),
    failed(["-", TABBED], tells_more(TABBED, "2:14", b"bad character"), WORDS),
    refused(["compare", "-"], b"OCTAL and FILE can't both be standard input"),
    refused(["compare", "-", "-"], b"OCTAL and FILE can't both be standard input"),
    refused(["compare", "--from", "9", "-", program_path("parcels.cps")], b"invalid value '9' for '--from <A>': an address is 1 to 6 octal digits"),
    refused(["compare", "--to", "1234567", "-", program_path("parcels.cps")], b"invalid value '1234567' for '--to <B>': an address is 1 to 6 octal digits"),
    refused(["compare", "--columns", "36-10", "-", program_path("parcels.cps")],
            b"invalid value '36-10' for '--columns <F-L>': write columns from 1 on, as 10-36, or one column"),
    refused(["compare"], b"the following required arguments were not provided:\n  <OCTAL>\n\nUsage: compass compare <OCTAL> [FILE]"),
]

COMPARISONS = AGREEING + DIFFERING + LIMITED + FAILING
