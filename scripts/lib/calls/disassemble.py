"""Calls of `compass disassemble` that make no source: words that are refused, and faults. The tests of cps_tool_rows make sources."""
from .forms import NONE, not_there, refused

BOTH = b"the argument '--central' cannot be used with '--peripheral'"


def failed(words, given, told):
    """A disassembly that makes no source."""
    return ["disassemble", *words], given, 2, b"", told


REFUSED = [
    refused(["disassemble", "--central", "--peripheral"], BOTH),
    refused(["disassemble", "--format", "own"], b"invalid value 'own' for '--format <FORMAT>'\n  [possible values: rows, dump]"),
    refused(["disassemble", "--from", "8"], b"invalid value '8' for '--from <A>': an address is 1 to 6 octal digits"),
    refused(["disassemble", "--from", "101", "--to", "100"], b"invalid value '100' for '--to <B>': it is below the address of '--from'"),
    refused(["disassemble", "--columns", "36-10"], b"invalid value '36-10' for '--columns <F-L>': write columns from 1 on, as 10-36, or one column"),
    refused(["disassemble", "--entry", "100,"], b"invalid value '100,' for '--entry <LIST>': write addresses of 1 to 6 octal digits, as 100,2031"),
    refused(["disassemble", "--entry", "100-177"], b"invalid value '100-177' for '--entry <LIST>': write addresses of 1 to 6 octal digits, as 100,2031"),
    refused(["disassemble", "--code", "177-100"], b"invalid value '177-100' for '--code <LIST>': write ranges of octal addresses, as 100-177,300"),
    refused(["disassemble", "--data", "200,8"], b"invalid value '200,8' for '--data <LIST>': write ranges of octal addresses, as 100-177,300"),
    refused(["disassemble", "--data="], b"invalid value '' for '--data <LIST>': write ranges of octal addresses, as 100-177,300"),
    refused(["disassemble", "--names", "-"], b"invalid value '-' for '--names <FILE>': a file has the names, not standard input"),
    refused(["disassemble", "--ident", "ABCDEFGHI"], b"invalid value 'ABCDEFGHI' for '--ident <NAME>': a program has a symbol for its name"),
    refused(["disassemble", "--ident", "X1"], b"invalid value 'X1' for '--ident <NAME>': a program has a symbol for its name"),
    refused(["disassemble", "--bare", "--bare"], b"the argument '--bare' cannot be used multiple times\n\nUsage: compass disassemble [OPTIONS] [OCTAL]"),
    refused(["disassemble", NONE, NONE], b"unexpected argument '" + NONE.encode() + b"' found\n\nUsage: compass disassemble [OPTIONS] [OCTAL]"),
]

FAULTS = [
    failed([NONE], b"", not_there(NONE)),
    failed(["--names", NONE], b"000100 11111\n", not_there(NONE)),
    failed([], b"", b"no row of OCTAL has an address and octal digits\n"),
    failed(["-"], b"000000 1\n", b"no row of OCTAL is read, the first is row 1: a group of 1 digits\n"),
    failed(["--central"], b"000100 .....\n", b"no digit of OCTAL is taken\n"),
    failed(["--from", "101"], b"000100 11111\n", b"no digit of OCTAL is taken\n"),
    failed(["--peripheral"], b"010000 1234\n", b"no program has a word at 010000\n"),
    failed(["--central"], b"000100 51110000037361054610\n000100 51110000037361054611\n", b"row 2: a digit of the word at 000100 has another value in a row before it\n"),
]

DISASSEMBLIES = REFUSED + FAULTS
