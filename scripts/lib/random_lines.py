"""Random lines of a source, random edits of it, and what a session replies to these: for the script `torture`.

The model of the edits is a plain list of lines. What the texts of a source are it doesn't know.
"""
MOST_LINES, MOST_BYTES, MOST_SCRIPT_BYTES = 99_999, 90, 200
CAUSES = {1: "no such line", 2: "line too long", 3: "bad character", 4: "too many lines", 5: "bad command", 6: "no memory"}
WRONG = set(range(32)) | set(b"`{|}~") | set(range(127, 256))
QUERIES = (b"list", b"binary", b"symbols", b"flags")

NAMES = ["A", "B", "C", "K", "N", "S", "LP", "b", "Q", "P.1", "A=", "LONGNAME", "TOOLONGNAME", "X1", ".", "1A"]
LABELS = [f"L{number}" for number in range(30)]
BLOCKS = ["W", "V", "BUF", "0", "*", "A", "X1", "W,V", "00"]
MACROS = ["M", "M2", "MAC", "m", "LOCAL"]
PARAMETERS = ["P", "P,N", "P,Q,R", "", "P,P", "X1", "P="]
NUMBERS = [
    "0", "1", "2", "3", "5", "7", "10B", "17", "18B", "100B", "777777B", "131071", "377776B", "4095", "262143", "576460752303423487",
    "1000000B", "59", "61",
]
CENTRAL = [
    ("NO", [""]), ("PS", [""]), ("RJ", ["K"]), ("JP", ["K", "B2", "B2+K", "K-B1"]), ("EQ", ["K", "B1,K", "B1,B2,K"]), ("LE", ["B1,B2,K"]),
    ("GT", ["B1,K"]),
    ("ZR", ["X1,K", "B3,K", "X1"]), ("NG", ["X2,K"]), ("BX6", ["X1", "-X1", "X1*X2", "-X2+X3"]), ("LX3", ["n", "B1,X2", "X2,B1"]),
    ("MX0", ["n"]), ("AX1", ["n"]),
    ("NX1", ["B1,X2", "X2"]), ("FX2", ["X1+X2", "X1/X3"]), ("IX3", ["X1-X2", "X1*X2"]), ("CX1", ["X2"]), ("RX4", ["X1*X2"]), ("DX1", ["X1/X2"]),
    ("SA1", ["K", "A1+K", "B1+K", "X1+K", "B1+B2", "A1-B1", "-B1", "=L", "K-A1+K", "A1+A2", "B1+X1"]), ("SB2", ["K", "B1-B2", "X1", "X1+B1"]),
    ("SX1", ["K", "X2", "B1+K", "-K", "=L", "K+=L"]), ("LDN", ["n"]),
]
PERIPHERAL = [
    ("PSN", [""]), ("LDN", ["n"]), ("SHN", ["n", "-n"]), ("LDC", ["K", "=L"]), ("LDM", ["K", "K,n", "=L", "=L,n"]),
    ("UJN", ["*+n", "K", "*-n"]), ("ZJN", ["K"]), ("LJM", ["K", "K,n"]),
    ("RJM", ["K"]), ("FNC", ["K,n"]), ("STD", ["n"]), ("ACN", ["n"]), ("SA1", ["K"]),
]
# What is placed, defined or called.
STATEMENTS = [
    ("EQU", "e"), ("=", "e"), ("EQU", "n"), ("SET", "e"), ("SET", "N+1"), ("SET", "n"), ("SET", "*"), ("BSS", "n"), ("BSS", "e"), ("BSSZ", "n"),
    ("CON", "e"), ("CON", "e,e,e"), ("CON", "n"), ("DATA", "i,i"), ("DATA", "i"), ("VFD", "w/e"), ("VFD", "w/e,w/e,w/e"),
    ("VFD", "30/e,30/e"), ("VFD", "e/e"),
    ("DIS", "n,HELLO, WORLD"), ("DIS", ",*TEXT*"), ("DIS", "2,AB"), ("DIS", ",*TEXT"), ("ORG", "100B"), ("ORG", "*"), ("ORG", "e"), ("USE", "b"),
    ("USE", ""), ("USE", "*"), ("USE", "W"), ("CON", "S"), ("BASE", "O"), ("BASE", "D"), ("TITLE", "SOMETHING"), ("LIST", "X"), ("XYZ", "e"),
    ("", ""), ("call", "a"), ("call", "a,a"), ("call", "(a,a),a"), ("call", ""), ("call", "n,e"),
]
# What opens or closes something, or stands in the head.
BOUNDS = [
    ("IFEQ", "e,e"), ("IFEQ", "e,e,n"), ("IFGT", "N,n"), ("IFLE", "*,e,n"), ("IF", "DEF,s"), ("IF", "-DEF,s,n"), ("IF", "e"), ("ELSE", ""),
    ("ENDIF", ""), ("ENDIF", ""), ("DUP", "2,1"), ("DUP", "r,n"), ("DUP", "r"), ("ENDD", ""), ("ENDD", ""), ("MACRO", "p"), ("ENDM", ""),
    ("ENDM", ""), ("ENDM", ""), ("LOCAL", "l"), ("END", ""), ("IDENT", "T1"), ("ABS", ""), ("PERIPH", ""),
]
ITEMS = [
    "1", "-1", "-0", "17B", "777777777777777777777", "3LABC", "2RAB", "3HA,B", "03LABC", "L*AB*", "H/A B/", "1L", "R.X.", "11LABCDEFGHIJK",
    "18B", "X",
]
# What LOCAL names at the head of a macro's body, in an order that has wrong ones too.
LOCAL_NAMES = ["LP", "A", "B", "Q", "N", "LP,A", "LP,B", "A,K,S", "LP,Q,.", "B,LONGNAME", "P", "A,A", "A=", "X1", "", "1A", ",A", "A LP"]
ARGUMENTS = ["1", "A", "P", "S+1", "", "(A)", "60/1", "=1", "X1", "A B", "_", "N_1"]


class Lines:
    """Makes random lines for one of the machines."""

    def __init__(self, chance):
        self.chance, self.machine = chance, chance.choice([CENTRAL, CENTRAL, PERIPHERAL])
        self.more_blocks = chance.random() < 0.05

    def expression(self):
        chance, text = self.chance, ""
        for term in range(chance.choice([1, 1, 1, 2, 2, 3])):
            text += chance.choice(["", "", "-", "+"] if term == 0 else ["+", "-", "*", "/", "+", "-"])
            text += chance.choice([chance.choice(pool) for pool in (NAMES, NAMES[:7], LABELS, NUMBERS[:8], NUMBERS, "*")])
        return text

    def filled(self, shape):
        """A shape with its small letters replaced; capitals stay, but for K and L where they stand for an expression and a literal."""
        made, chance = [], self.chance
        for letter in shape:
            made.append({
                "e": self.expression, "K": self.expression, "n": lambda: chance.choice(["0", "1", "2", "3", "N", "18", "63", "-1", "Q"]),
                "w": lambda: chance.choice(["1", "6", "12", "15", "18", "30", "60", "N", "0", "61"]), "i": lambda: chance.choice(ITEMS),
                "L": lambda: chance.choice(["1", "2", "3", chance.choice(ITEMS), str(chance.randrange(20))]), "s": lambda: chance.choice(NAMES),
                "b": lambda: f"BLK{chance.randrange(70)}" if self.more_blocks else chance.choice(BLOCKS), "p": lambda: chance.choice(PARAMETERS), "l": lambda: chance.choice(LOCAL_NAMES),
                "a": lambda: chance.choice(ARGUMENTS), "r": lambda: chance.choice(["0", "1", "2", "3", "N", "-1", "1001", "30", "1000"]),
            }.get(letter, lambda: letter)())
        return "".join(made)

    def statement(self):
        """Location, operation and operands."""
        chance = self.chance
        location = chance.choice(["", "", "", "", chance.choice(LABELS), chance.choice(LABELS), chance.choice(NAMES), chance.choice("+-")])
        kind = chance.random()
        if kind < 0.5:
            operation, shapes = chance.choice(self.machine if chance.random() < 0.97 else CENTRAL + PERIPHERAL)
            return location, operation, self.filled(chance.choice(shapes))
        operation, shape = chance.choice(STATEMENTS if kind < 0.93 else BOUNDS)
        if operation == "call":
            operation = chance.choice(MACROS)
        elif operation in ("EQU", "=", "SET"):
            location = chance.choice([chance.choice("SN" if operation == "SET" else "ABCK"), chance.choice(NAMES[:8])])
        elif operation == "MACRO":
            location = chance.choice(MACROS)
        elif operation not in ("BSS", "BSSZ", "CON", "DATA", "VFD", "DIS") and chance.random() < 0.95:
            location = ""
        return location, operation, shape.replace("n", chance.choice("123N0")) if operation == "DIS" else self.filled(shape)

    def good(self):
        """A line that a source may have."""
        chance, kind = self.chance, self.chance.random()
        if kind < 0.04:
            return b"* COMMENT" + b" X" * chance.randrange(20)
        if kind < 0.06:
            return bytes(chance.choice(b" ABCNPX159+-*/=,.()_$:'") for _ in range(chance.randrange(91)))
        if kind < 0.07:
            return b"," + b"X" * chance.randrange(90)
        location, operation, variable = self.statement()
        text = f"{location:<9}{operation:<8}{variable}"
        if chance.random() < 0.05:
            text = f"{location} {operation} {variable}" if location else f"  {operation} {variable}"
        if chance.random() < 0.1:
            text = text.ljust(30 + chance.randrange(45)) + "COMMENT P"
        if chance.random() < 0.1:
            text = text.lower()
        return text[:MOST_BYTES].encode() if chance.random() < 0.05 else text[:MOST_BYTES].rstrip().encode()

    def head(self):
        """Lines that a program begins with."""
        chance = self.chance
        lines = [b"         IDENT   T1"] * chance.randrange(2)
        return lines + ([b"         PERIPH"] if self.machine is PERIPHERAL else [b"         ABS"] * chance.randrange(2))

    def structure(self):
        """Some lines that belong together."""
        chance, body = self.chance, [self.good() for _ in range(self.chance.randrange(1, 4))]
        name, test = chance.choice(MACROS[:3]), chance.choice([self.expression(), chance.choice("0123N"), "1"])
        front, end = chance.choice([
            (f"{name:<9}MACRO   {chance.choice(PARAMETERS[:3])}", "         ENDM"), (f"{name:<9}MACRO   P", "         ENDM"),
            (f"         IFEQ    1,{test}", "         ENDIF"), (f"         IFGE    N,{test},{chance.randrange(4)}", ""),
            (f"         DUP     {chance.choice(['2', '3', 'N', '0', '40'])}", "         ENDD"), (f"         DUP     3,{len(body)}", ""),
            ("         USE     " + chance.choice(BLOCKS[:3]), "         USE     *"),
            ("         IF      DEF," + chance.choice(NAMES[:5]), "         ENDIF"),
        ])
        if "MACRO" in front:
            body = self.locals() + [line.replace(b"N", b"P") for line in body]
            call = f"{chance.choice(['', 'LP']):<9}{name:<8}{self.filled('a,a')}"
            return [front.encode(), *body, end.encode()] + [call.encode()] * chance.randrange(3)
        if "USE" in front and chance.random() < 0.5:
            value = chance.choice(["S        SET     *", "S        EQU     *", "LP       BSS     0"])
            return [front.encode(), *body, value.encode(), end.encode(), f"         CON     {value[:2]}".encode()]
        if "IF" in front and chance.random() < 0.4:
            body.insert(chance.randrange(len(body) + 1), b"         ELSE")
        return [front[:MOST_BYTES].encode(), *body] + [end.encode()] * bool(end)

    def locals(self):
        """The LOCAL lines that the body of a macro begins with, often none; sometimes something stands between them."""
        chance, lines = self.chance, []
        if chance.random() < 0.4:
            return lines
        for _ in range(chance.choice([1, 1, 1, 2, 3])):
            names = chance.choice(LOCAL_NAMES)
            if chance.random() < 0.05:
                names = ",".join(f"N{chance.randrange(30)}" for _ in range(chance.randrange(1, 16)))
            lines.append(f"{chance.choice(['', '', '', '', 'L1', '+']):<9}{chance.choice(['LOCAL', 'LOCAL', 'LOCAL', 'local']):<8}{names}".encode())
            if chance.random() < 0.05:
                lines.append(chance.choice([b"* C", b"", b",", b"         LO_CAL  A", self.good()]))
        return lines

    def wrong(self):
        """A line that no source may have: too long, with a wrong byte, or both."""
        chance, line = self.chance, bytearray(self.good())
        kind = chance.randrange(3)
        if kind != 0:
            line[chance.randrange(len(line) + 1) :] = bytes([chance.choice([byte for byte in sorted(WRONG) if byte not in (10, 13)])]) + b"X"
        if kind != 1:
            line = line.ljust(MOST_BYTES + 1 + chance.randrange(120), b"X")
        return bytes(line)


def fault_of(line):
    """Why a source may not have a line, 2 or 3, or 0."""
    return 2 if len(line) > MOST_BYTES else 3 if WRONG.intersection(line) else 0


def cut(data):
    """The lines of bytes, as sources and scripts are cut."""
    lines = data.split(b"\n")
    last = lines.pop()
    lines += [last] if last else []
    return [line.removesuffix(b"\r") for line in lines]


def number_of(word):
    return int(word) if 1 <= len(word) <= 5 and word.isdigit() else None


class Model:
    """The lines of a session, and what it replies to edits. `steps` is what `work` tells: None where that is left open."""

    def __init__(self):
        self.lines, self.steps = [], (0, 0)

    def read(self, command):
        """The kind of a command, its numbers and its text, or None if it is none."""
        kind, rest = command[:1], command[1:]
        if len(command) > MOST_SCRIPT_BYTES or rest and rest[:1] != b" " and command not in (*QUERIES, b"work", b"quit"):
            return None
        if command in (*QUERIES, b"work", b"quit"):
            return command, (), b""
        if kind == b"a":
            return kind, (), rest[1:]
        if kind in (b"i", b"r"):
            word, _, text = rest[1:].partition(b" ")
            return None if number_of(word) is None else (kind, (number_of(word),), text)
        words = rest[1:].split(b" ")
        if None in map(number_of, words):
            return None
        if kind == b"d" and len(words) <= 2:
            return kind, (number_of(words[0]), number_of(words[-1])), b""
        return (kind, tuple(map(number_of, words)), b"") if kind == b"m" and len(words) == 3 else None

    def refusal(self, read):
        """Why an edit is refused, from 1 to 5, or 0."""
        if read is None:
            return 5
        kind, numbers, text = read
        count = len(self.lines)
        if kind == b"m":
            first, last, after = numbers
            return 0 if 1 <= first <= last <= count and after <= count and not first <= after < last else 1
        least, most = {b"a": (0, 0), b"i": (0, count), b"r": (1, count), b"d": (1, count)}[kind]
        if any(not least <= number <= most for number in numbers) or kind == b"d" and numbers[0] > numbers[1]:
            return 1
        if kind != b"d" and fault_of(text):
            return fault_of(text)
        return 4 if kind in (b"a", b"i") and count >= MOST_LINES else 0

    def edit(self, read):
        """Makes an edit that isn't refused."""
        kind, numbers, text = read
        if kind == b"a":
            self.lines.append(text)
        elif kind == b"i":
            self.lines.insert(numbers[0], text)
        elif kind == b"r":
            self.lines[numbers[0] - 1] = text
        elif kind == b"m":
            first, last, after = numbers
            moved = self.lines[first - 1 : last]
            del self.lines[first - 1 : last]
            at = after if after < first else after - len(moved)
            self.lines[at:at] = moved
        else:
            del self.lines[numbers[0] - 1 : numbers[1]]
        self.steps = None

    def refused(self, cause):
        """What is replied to a line that is refused."""
        if cause != 5:
            self.steps = None if cause == 6 else (0, 0)
        return b"refused %d %s\n" % (cause, CAUSES[cause].encode())


class Edits:
    """Makes random commands, with a look at how many lines there are."""

    def __init__(self, chance, target):
        self.chance, self.lines, self.target, self.waiting = chance, Lines(chance), target, []

    def entered(self):
        """A line behind the last."""
        if not self.waiting:
            lines = self.lines.structure() if self.chance.random() < 0.12 else [self.lines.good()]
            self.waiting = [b"a " + line for line in lines]
        return self.waiting.pop(0)

    def command(self, count):
        chance = self.chance
        if self.waiting:
            return self.waiting.pop(0)
        kind = chance.random()
        if kind < 0.02:
            return chance.choice([b"a %s", b"i %d %%s" % chance.randrange(count + 1), b"r %d %%s" % chance.randrange(count + 2)]) % self.lines.wrong()
        if kind < 0.07:
            return self.odd(count)
        if count > self.target and kind < 0.5 or count and kind < 0.17:
            first = chance.randrange(1, count + 1)
            last = min(count, first + chance.choice([0, 0, 1, 2, count // 4]))
            return chance.choice([b"d %d" % first, b"d %d %d" % (first, last)])
        if count and kind < 0.24:
            return self.moved(count)
        if count and kind < 0.38:
            return b"r %d %s" % (chance.randrange(1, count + 1), self.lines.good())
        if kind < 0.52:
            after = chance.randrange(count + 1)
            lines = self.lines.structure() if after or chance.random() < 0.5 else self.lines.head()
            self.waiting = [b"i %d %s" % (after + n, line) for n, line in enumerate(lines)] or [b"work"]
            return self.waiting.pop(0)
        if kind < 0.85:
            return b"i %d %s" % (chance.randrange(count + 1), self.lines.good())
        return b"a " + self.lines.good()

    def moved(self, count):
        """A move of one line, of some or of many, sometimes into its own midst."""
        chance = self.chance
        first = chance.randrange(1, count + 1)
        last = min(count, first + chance.choice([0, 0, 0, 1, 2, 5, count // 4, count // 2]))
        near = chance.choice([first - 2, first - 1, last, last + 1, first])
        after = chance.choice([0, count, min(max(near, 0), count), chance.randrange(count + 1), chance.randrange(count + 1)])
        return b"m %d %d %d" % (first, last, after)

    def odd(self, count):
        """A command that may be refused, or is none."""
        chance, good, wrong = self.chance, self.lines.good(), self.lines.wrong()
        number = chance.choice([0, 1, count, count + 1, count + 2, 9_999, 10_000, 99_998, 99_999])
        return chance.choice([
            b"a " + wrong, b"i %d %s" % (number, wrong), b"r %d %s" % (number, wrong), b"i %d %s" % (number, good), b"r %d %s" % (number,
            good), b"d %d" % number,
            b"d %d %d" % (number, chance.randrange(count + 2)), b"d 00001", b"a", b"r 1", b"i 0", b"x 1", b"", b"d", b"d  1",
            b"m %d %d %d" % (number, number, chance.randrange(count + 2)), b"m 1 1 %d" % number, b"m %d %d 0" % (max(count, 1), number),
            b"m", b"m 1", b"m 1 1", b"m 1 1 100000", b"m 1 1 1 1", b"m 1  1", b"m 1 1 ", b"m 1 1 0 ", b"m 1\t1 0", b"m 1 1 00000",
            b"i 100000 X", b"i -1 X", b"list ", b"LIST", b"ax", b"a" + b"X" * 300,
            b"a " + b"X" * chance.randrange(195, 202), good.replace(b"\n", b"") or b"z", b"d 1 1 1", b"i 1\t", b"\x00", b"r 1  " + good[:80],
        ])
