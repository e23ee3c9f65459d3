"""The tries in vim, and of the files of `editors`. Each expression of the grammar must find the same places in each line by jq and by Python,
since jq has the engine of the editors that read such grammars.

- Vim has the `.vimrc` that `editors/README.md` prints. It opens sources, and the group of each place that is told below must be the one
  of its kind. The grammar is tried on the same places, by a reader that stands here and knows as much of grammars as this one uses.
- What is typed in vim must come to stand in the columns of the language, also where 'smarttab' is set.
- `=` and `gq` must leave statements as they are.
- `K` must call `compass explain` for the operation under the cursor.
- `:make` must find the place of each flag in a text that is told here, which stands for what `compass check` writes.
"""
import json
import os
import re
import shutil
import subprocess
import tempfile

from examples import program_path

from .shared import DOCUMENT, LEFT_OUT, ROOT, printed

GRAMMAR = "editors/vscode/compass.tmLanguage.json"
SECONDS = 60

# The kinds of places: a letter, the groups of vim, and the innermost scope of the grammar.
KINDS = {
    "l": ("compassLocation", "entity.name.label.compass"),
    "f": ("compassForcing", "keyword.operator.forcing.compass"),
    "s": ("compassStatement", "keyword.control.compass"),
    "i": ("compassInstruction", "keyword.mnemonic.central.compass"),
    "p": ("compassPeripheral", "keyword.mnemonic.peripheral.compass"),
    "m": ("compassCall", "entity.name.function.compass"),
    "r": ("compassRegister", "variable.language.register.compass"),
    "n": ("compassNumber compassItem", "constant.numeric.compass"),
    "y": ("compassSymbol", "variable.other.compass"),
    "*": ("compassCounter", "variable.language.counter.compass"),
    "o": ("compassOperator", "keyword.operator.compass"),
    ",": ("compassComma compassBeforeWords compassBeforeDelimited", "punctuation.separator.compass"),
    "(": ("compassComma", "punctuation.section.parens.compass"),
    "w": ("compassAttribute", "keyword.other.compass"),
    "=": ("compassLiteral", "keyword.operator.literal.compass"),
    "t": ("compassText compassWords compassDelimited", "string.other.compass"),
    "c": ("compassComment compassRemark", "comment.line.compass"),
    "u": ("compassUnread", "comment.other.unread.compass"),
    "b": ("compassBadCharacter compassTooLong compassContinued compassNoOperation", "invalid.illegal.compass"),
}

# Lines of examples. Under each line stands the kind of each of its places; a blank is a place that isn't looked at.
PLACES = {
    "sum": """\
          ORG     100B
          sss     nnnn
*         A PROGRAM OF THE CENTRAL PROCESSOR. IT ADDS UP TWO TABLES
ccccccccccccccccccccccccccccccccccccccccccccccccccccccccccccccccccc
PLUS      MACRO   I,J,K
llll      sssss   y,y,y
          IX_I     X_J+X_K
          iiii     y yoy y
          ENDM
          ssss
START     SB1     1                        (B1) = 1 THROUGHOUT
lllll     iii     n                        ccccccccccccccccccc
          TOTAL   TENS,TENSL,SUM1
          mmmmm   yyyy,yyyyy,yyyy
          SA2     =60                      A LITERAL, A NUMBER
          iii     =nn                      ccccccccccccccccccc
          IX3     X1-X2
          iii     rrorr
          NZ      X3,BAD
          ii      rr,yyy
          PS                               STOP
          ii                               cccc
BAD       SA5     =8LBAD SUM.              A LITERAL, CHARACTERS
lll       iii     =tttttttttt              ccccccccccccccccccccc
LOOP      ZR      B3,SUM                   RETURN IF NO WORD IS LEFT
llll      ii      rr,yyy                   ccccccccccccccccccccccccc
          PLUS    6,6,4
          mmmm    n,n,n
TENSL     EQU     *-TENS
lllll     sss     *oyyyy
OTHERS    DATA    1000000,-1,777B,0
llllll    ssss    nnnnnnn,nn,nnnn,n
""",
    "devices": """\
TAG       DIS     ,*NAME*
lll       sss     ,tttttt
          USE     *
          sss     *
          VFD     12/CHANNEL,6/UNIT,24/0,18/TAG
          sss     nnoyyyyyyy,noyyyy,nnon,nnoyyy
          DEVICE  CR,12B,0,(CARD READER)
          mmmmmm  yy,nnn,n,(yyyy yyyyyy(
          USE     0
          sss     n
          SX1     12B*100B+0
          iii     nnnonnnnon
          SA5     =9LNO DEVICE
          iii     =ttttttttttt
FIND      PS                               ENTRY AND EXIT
llll      ii                               cccccccccccccc
HEADING   DIS     3,DEVICES OF THIS MACHINE
lllllll   sss     n,ttttttttttttttttttttttt
""",
    "flags": """\
          SA1     X2*2                     A, NO SUCH OPERAND
          iii     rron                     cccccccccccccccccc
          ENDIF                            E, NO RANGE IS OPEN
          sssss                            ccccccccccccccccccc
          FORTRAN                          O, NO OPERATION AND NO MACRO
          mmmmmmm                          cccccccccccccccccccccccccccc
""",
    "reader": """\
          PERIPH
          ssssss
F.STATUS  EQU     1240B                    FUNCTION, SEND THE STATUS
llllllll  sss     nnnnn                    ccccccccccccccccccccccccc
READX     LJM     *                        EXIT
lllll     ppp     *                        cccc
WAIT      FNC     F.STATUS,CH
llll      ppp     yyyyyyyy,yy
          AJM     *,CH                     UNTIL THE FUNCTION IS TAKEN
          ppp     *,yy                     ccccccccccccccccccccccccccc
          NJN     WAIT                     IF THE READER IS BUSY
          ppp     yyyy                     ccccccccccccccccccccc
""",
    "parcels": """\
+         SX5    X1
f         iii    rr
""",
    "data": """\
TEXT      DIS    ,*HELLO, WORLD*
llll      sss    ,tttttttttttttt
          DATA   3LABC,100
          ssss   ttttt,nnn
""",
}

# The same of lines that stand in no example.
OTHERS = """\
 A        EQU     5                        IT MAY BEGIN IN COLUMN 2
 l        sss     n                        cccccccccccccccccccccccc
 -        SX1     B1-B2
 f        iii     rrorr
NO PS
ll ii
  NO
  ii
ALONE
lllll
A         =       5
l         s       n
,         A LINE THAT CONTINUES ANOTHER
bbbbbbbbbbbbbbbbbbbbbbbbbbbbbbbbbbbbbbb
Lower     sx1     =3ha b  small letters
lllll     iii     =ttttt  ccccccccccccc
          NO      7                        THE 7 IS NOT READ
          ii      c                        ccccccccccccccccc
          PSN     B1,7
          ppp     cccc
          TITLE   A TITLE, TEXT
          sssss   ccccccccccccc
          CON               X
          sss               y
          CON                X
          sss                c
          IF                DEF,S
          ss                www,y
          IF                 DEF,S
          ss                 ccccc
          DATA              1
          ssss              n
          DATA               1
          ssss               c
          DIS               1,A
          sss               n,t
          DIS                1,A
          sss                ccc
          DIS               ,/A/
          sss               ,ttt
          DIS                ,/A/
          sss                cccc
          M                 X
          m                 y
          M                  X
          m                  c
          CON     2**,*,***,*-1,1+*,A*B
          sss     no*,*,*o*,*on,no*,yoy
          CON     AB=C,=5,=-7B,X8,X77,A0
          sss     yyyy,=n,=nnn,yy,yyy,rr
          VFD     12/*,6/TAG+1,42/0
          sss     nno*,noyyyon,nnon
          IF      -DEF,DEF,3               NO SYMBOL IS -DEF
          ss      wwww,yyy,n               ccccccccccccccccc
          IF      DEF,S
          ss      www,y
          DATA    3HA B,L*A, B*,-0,03R,A,1 THE END
          ssss    ttttt,ttttttt,nn,tttttt  ccccccc
          EQ      B1,B2,=3HA,B  A LITERAL
          ii      rr,rr,=ttttt  ccccccccc
          DIS     2,A TEXT, WITH COMMAS    AND BLANKS
          sss     n,ttttttttttttttttttttttttttttttttt
          DIS     ,/A SLASH, OR TWO/       BEHIND IT
          sss     ,tttttttttttttttt        ccccccccc
          M       ((A),B C),X1,D           A CALL
          m       ((y(,y y(,rr,y           cccccc
          SX,6    A1
          bbbb    cc
          SA1     B1~
          iii     rrb
          CON     1                        A COMMENT ENDS IN COLUMN 72.         A00000010
          sss     n                        cccccccccccccccccccccccccccc         uuuuuuuuu
*         THIS ONE, TOO.                                                        A00000020
cccccccccccccccccccccccc                                                        uuuuuuuuu
          DIS     6,A TEXT OF SIXTY CHARACTERS ENDS BEHIND COLUMN 72....A00000030123456789TOO LONG
          sss     n,ttttttttttttttttttttttttttttttttttttttttttttttttttttuuuuuuuuuuuuuuuuuubbbbbbbb
"""
# A tab is no character of a line, and parts no fields.
TABS = "\tSX1\tB1", "b   b"

# What is typed into an empty file, with a tab where `>` stands, and what the file is then.
TYPED = [
    (">SX1>B1>NOTE", ["          SX1    B1          NOTE"]),
    ("TAG>CON>1,2", ["TAG       CON    1,2"]),
    (">CON>" + 8 * "1234567, ", ["          CON    " + (8 * "1234567, ").rstrip()]),
    ("*>A" + 8 * " COMMENT", ["*         A" + 7 * " COMMENT", "*         COMMENT"]),
]

# What a call of `compass check` for a file of this name is to write, and what vim must find in it: line, column, type and text.
CHECKED = "old deck.cps"
TOLD = f"""\
{CHECKED}:6:21: error: U: no line above gives AWAY a value, and it must have one here; it has one from line 7 (written in line 2)
    6 |           FUNC    1,AWAY
      |                     ^^^^
      = in its expansion: IFNE    AWAY,0
{CHECKED}:12:1: error: D: TWO has a value already, from line 6, and keeps it
   12 | TWO       EQU     3
      | ^^^
{CHECKED}:12:1: note: nothing reads TWO
   12 | TWO       EQU     3
      | ^^^
{CHECKED}:13:2: error: a tab is no character of a line; blanks to column 11, 18 or 30?
   13 | A 1:2: error: B
      |  ^
{CHECKED}:100000:1: error: a source has 99,999 lines at most; the lines from here on are not looked at
"""
FOUND = [
    [6, 21, "e", "U: no line above gives AWAY a value, and it must have one here; it has one from line 7 (written in line 2)"],
    [12, 1, "e", "D: TWO has a value already, from line 6, and keeps it"],
    [12, 1, "n", "nothing reads TWO"],
    [13, 2, "e", "a tab is no character of a line; blanks to column 11, 18 or 30?"],
    [100000, 1, "e", "a source has 99,999 lines at most; the lines from here on are not looked at"],
]
# The program in this room: it checks that text, and keeps what it is to explain.
STUB = """\
#!/bin/sh
[ $# -eq 2 ] && [ "$1" = check ] && [ -f "$2" ] && cat told
[ $# -eq 2 ] && [ "$1" = explain ] && echo "$2" > explained
"""
# A line, and the operation in it that is to be explained.
LOOKED_UP = ["TAG       BX1     X1", "BX1"], ["          SA1     F.READ", "SA1"], ["          =       5", "="]

# What must leave a source as it is: it lays out all lines, and two statements.
LAID_OUT = ["gg=G", "gggqG", "29Ggqj"]

VIM = """\
let result = {}
function Groups(file)
  execute 'edit ' . fnameescape(a:file)
  return map(range(1, line('$')), {_, row -> map(range(1, col([row, '$']) - 1), {_, column -> synIDattr(synID(row, column, 1), 'name')})})
endfunction
let result.groups = map(copy(g:sources), {_, file -> Groups(file)})
function Typed(keys)
  enew!
  set filetype=compass
  execute 'normal i' . a:keys
  return map(getline(1, '$'), {_, line -> substitute(line, ' *$', '', '')})
endfunction
let result.typed = map(copy(g:typed), {_, keys -> Typed(keys)})
set smarttab
let result.smart = map(copy(g:typed), {_, keys -> Typed(keys)})
set nosmarttab
function LookedUp(line)
  enew!
  set filetype=compass
  call setline(1, a:line)
  call writefile([], 'explained')
  silent! normal 11|K
  return readfile('explained')
endfunction
let result.explained = map(copy(g:looked_up), {_, line -> LookedUp(line)})
function LaidOut(file, keys)
  execute 'edit! ' . fnameescape(a:file)
  let before = getline(1, '$')
  execute 'normal ' . a:keys
  return getline(1, '$') ==# before
endfunction
let result.laid_out = map(copy(g:laid_out), {_, keys -> LaidOut(g:sources[0], keys)})
function Made(file)
  execute 'edit! ' . fnameescape(a:file)
  silent make!
  return map(getqflist(), {_, row -> [bufname(row.bufnr), [row.lnum, row.col, row.type, row.text]]})
endfunction
let result.made = Made(g:checked)
call writefile([json_encode(result)], 'result')
qall!
"""


def pairs(text):
    """The lines of a text, each with the kinds of its places."""
    lines = text.splitlines()
    return list(zip(lines[::2], lines[1::2]))


def read_sources(room):
    """The sources that are opened: for each its path, its lines, and the pairs of it that are told here."""
    for name, text in PLACES.items():
        path = program_path(f"{name}.cps")
        with open(path, encoding="ascii") as file:
            yield path, file.read().splitlines(), pairs(text)
    told = pairs(OTHERS) + [TABS]
    path = os.path.join(room, "others.cps")
    with open(path, "w", encoding="ascii") as file:
        file.writelines(line + "\n" for line, _ in told)
    yield path, [line for line, _ in told], told


def differences(path, lines, told, is_kind, places):
    """The places whose group or scope isn't the one of their kind."""
    for line, kinds in told:
        if line not in lines or len(kinds) > len(line):
            yield f"{path}: no line of it fits this: {line}"
            continue
        row = lines.index(line)
        for column, kind in enumerate(kinds):
            if kind != " " and not is_kind(kind, places[row][column]):
                yield f"{path}:{row + 1}:{column + 1}: {KINDS[kind]} is told here, and this is found: {places[row][column]}"


# ---- vim


def run_vim(room, sources):
    """What vim says of the sources and of what is typed."""
    with open(os.path.join(room, "try.vim"), "w", encoding="ascii") as file:
        file.write(VIM)
    with open(os.path.join(room, "given.vim"), "w", encoding="utf-8") as file:
        file.write(f"let g:sources = {json.dumps([path for path, _, _ in sources])}\n")
        file.write(f"let g:typed = {json.dumps([keys.replace('>', chr(9)) for keys, _ in TYPED])}\n")
        file.write(f"let g:checked = {json.dumps(CHECKED)}\n")
        file.write(f"let g:laid_out = {json.dumps(LAID_OUT)}\n")
        file.write(f"let g:looked_up = {json.dumps([line for line, _ in LOOKED_UP])}\n")
    home = os.path.join(room, "home")
    os.mkdir(home)
    os.symlink(ROOT, os.path.join(home, "compass"))
    with open(os.path.join(home, ".vimrc"), "w", encoding="utf-8") as file:
        file.write(printed(DOCUMENT, "Vim", "vim") + "syntax on\nfiletype plugin on\n")
    for name, text in (CHECKED, ""), ("told", TOLD), ("compass", STUB):
        with open(os.path.join(room, name), "w", encoding="ascii") as file:
            file.write(text)
    os.chmod(os.path.join(room, "compass"), 0o755)
    subprocess.run(
        ["vim", "-u", os.path.join(home, ".vimrc"), "-i", "NONE", "-n", "-N", "-es", "--not-a-term", "-c", "source given.vim",
         "-c", "source try.vim"],
        cwd=room, timeout=SECONDS, stdin=subprocess.DEVNULL, stdout=subprocess.DEVNULL, check=False,
        env={**os.environ, "LC_ALL": "C", "HOME": home, "SHELL": "/bin/sh", "PATH": room + os.pathsep + os.environ.get("PATH", os.defpath)})
    with open(os.path.join(room, "result"), encoding="utf-8") as file:
        return json.load(file)


def try_vim(room, sources):
    result = run_vim(room, sources)
    for (path, lines, told), groups in zip(sources, result["groups"]):
        yield from differences(path, lines, told, lambda kind, group: group in KINDS[kind][0].split(), groups)
    for kind in "typed", "smart":
        for (keys, wanted), lines in zip(TYPED, result[kind]):
            if lines != wanted:
                yield f"{keys!r} {kind} gives {lines}, and not {wanted}"
    for (line, operation), told in zip(LOOKED_UP, result["explained"]):
        if told != [operation]:
            yield f"K on the operation of {line!r} asks for {told}"
    for keys, is_same in zip(LAID_OUT, result["laid_out"]):
        if not is_same:
            yield f"{keys} changes {sources[0][0]}"
    if result["made"] != [[CHECKED, each] for each in FOUND]:
        yield f":make finds {result['made']}, and not {FOUND}"


# ---- the grammar


def rules_in(grammar, patterns):
    """The rules that patterns stand for."""
    for pattern in patterns:
        if "include" in pattern:
            included = grammar["repository"][pattern["include"][1:]]
            yield from rules_in(grammar, included["patterns"] if "patterns" in included else [included])
        else:
            yield pattern


def give_scopes(grammar, patterns, text, begin, scopes):
    """Gives each place of a text, from one on, the scopes of the rules that take it. The first rule of those that fit earliest does."""
    rules = list(rules_in(grammar, patterns))
    while begin < len(text):
        found = [(rule, re.compile(rule["match"]).search(text, begin)) for rule in rules]
        found = [(rule, match) for rule, match in found if match]
        if not found:
            return
        rule, match = min(found, key=lambda each: each[1].start())
        groups = [(0, rule)] + [(int(group), capture) for group, capture in rule.get("captures", {}).items()]
        for group, capture in groups:
            first, last = match.span(group)
            for place in range(max(first, 0), last):
                scopes[place] = capture.get("name", scopes[place])
            if "patterns" in capture and first >= 0:
                give_scopes(grammar, capture["patterns"], text[:last], first, scopes)
        begin = max(match.end(), begin + 1)


def scopes_of(grammar, line):
    """The innermost scope of each place of a line, which an editor hands over with its newline."""
    scopes = [""] * (len(line) + 1)
    give_scopes(grammar, grammar["patterns"], line + "\n", 0, scopes)
    return scopes


def expressions_in(part):
    """All expressions of a grammar."""
    if isinstance(part, dict):
        yield from ([part["match"]] if "match" in part else [])
        part = list(part.values())
    for each in part if isinstance(part, list) else []:
        yield from expressions_in(each)


def try_grammar(sources):
    with open(os.path.join(ROOT, GRAMMAR), encoding="utf-8") as file:
        grammar = json.load(file)
    for path, lines, told in sources:
        scopes = [scopes_of(grammar, line) for line in lines]
        yield from differences(path, lines, told, lambda kind, scope: scope == KINDS[kind][1], scopes)
    if shutil.which("jq"):
        yield from try_expressions(list(expressions_in(grammar)), [line + "\n" for _, lines, _ in sources for line in lines])


JQ = "[$lines[] as $line | [$expressions[] as $it | [$line | match($it) | [.offset, .length], (.captures[] | [.offset, .length])]]]"


def spans(match):
    """The places of a match and of its groups, each with its length; None for one that takes nothing."""
    return [[match.start(group), len(match[group])] if match[group] else None for group in range(match.re.groups + 1)] if match else []


def try_expressions(expressions, lines):
    """The expressions that find other places in a line by jq than by Python."""
    given = ["--argjson", "lines", json.dumps(lines), "--argjson", "expressions", json.dumps(expressions)]
    ran = subprocess.run(["jq", "-n", *given, JQ], capture_output=True, text=True, timeout=SECONDS, check=False)
    if ran.returncode:
        yield f"jq: {ran.stderr.strip()}"
        return
    for line, found in zip(lines, json.loads(ran.stdout)):
        for expression, places in zip(expressions, found):
            if spans(re.search(expression, line)) != [place if place[1] else None for place in places]:
                yield f"{expression}: jq finds other places than Python in {line!r}"


def try_all(_program):
    """The status of all tries. They need no program."""
    if not shutil.which("vim"):
        print("vim: there is no vim; nothing was tried")
        return LEFT_OUT
    with tempfile.TemporaryDirectory() as room:
        sources = list(read_sources(room))
        told = list(try_vim(room, sources)) + list(try_grammar(sources))
    print(*told, sep="\n", end="\n" if told else "")
    places = sum(len(kinds) - kinds.count(" ") for _, _, each in sources for _, kinds in each)
    tried = f"{places} places in vim and in the grammar, {len(TYPED)} texts that are typed, and {len(FOUND)} flags that :make finds"
    print(f"vim: {tried}: {f'{len(told)} faults' if told else 'all as told'}")
    if not shutil.which("jq"):
        print("vim: there is no jq, so the grammar's expressions were read by Python alone")
    return 1 if told else 0 if shutil.which("jq") else LEFT_OUT
