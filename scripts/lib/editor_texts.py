"""The texts that an editor has open, and what a server may show of them: for the script `drive-server`.

Positions and changes are those of the Language Server Protocol, by bytes of UTF-8 or units of UTF-16. What lines are shown by is
what a batch writes of them. Where names stand isn't known here, but for symbols in plain statements outside macros, by the cross-reference:
of these the rest is held against what is told.
"""
import itertools
import re
from functools import cached_property

from random_lines import CENTRAL, MOST_BYTES, MOST_LINES, PERIPHERAL, WRONG

MOST_ROWS = 40
# How many kinds of tokens there are.
MOST_KINDS = 9
MOST_CAUSES = 10
END, OPEN_END = "the source ends ", "open range at end of source"
REGISTERS = [letter + digit for letter in "ABX" for digit in "01234567"]
WORD = re.compile(rb"[A-Za-z0-9.=]+")
# Operations whose location field defines a symbol, and those whose operands read symbols and have no text and no comment.
DEFINING = {operation for operation, _ in CENTRAL + PERIPHERAL} | {"EQU", "=", "SET", "BSS", "BSSZ", "CON", "VFD"}
READING = DEFINING - {"NO", "PS", "PSN"} | {"ORG", "IFEQ", "IFGT", "IFLE"}
# The operations that open lines, and those that part or close them.
OPENERS = {"IDENT", "MACRO", "DUP", "IF", "IFEQ", "IFNE", "IFGT", "IFGE", "IFLT", "IFLE"}
CLOSERS = {"ELSE", "ENDIF", "ENDD", "ENDM", "END"}
# A line that is a heading.
HEADING = re.compile(rb"\*\*.*[^\x00-\x20*]")
# How the protocol counts headings and macros.
NAMESPACE, FUNCTION = 3, 12
# How a place counts.
IDLE, READ, DEFINED = 1, 2, 3


def units(text, is_utf8):
    """The units of a text, which is bytes of whole characters."""
    return len(text) if is_utf8 else len(text.decode().encode("utf-16-le")) // 2


def without_return(line):
    return line[:-1] if line.endswith(b"\r") else line


def place(text, line, character, is_utf8):
    """The place of a position in the bytes of a text."""
    lines = text.split(b"\n")
    if line >= len(lines):
        return len(text)
    at = sum(len(other) + 1 for other in lines[:line])
    for letter in without_return(lines[line]).decode():
        size = len(letter.encode()) if is_utf8 else 1 + (ord(letter) > 0xFFFF)
        if character < size:
            break
        character -= size
        at += len(letter.encode())
    return at


def changed(text, change, is_utf8):
    new = change["text"].encode()
    if change.get("range") is None:
        return new
    start, end = (place(text, change["range"][side]["line"], change["range"][side]["character"], is_utf8) for side in ("start", "end"))
    return text[:start] + new + text[max(start, end) :]


def source_lines(text):
    lines = text.split(b"\n")
    return [without_return(line) for line in (lines if lines[-1] else lines[:-1])]


def cards_of(text):
    """What is assembled of a text, with a blank for each byte that no line may have."""
    cards = [bytes(32 if byte in WRONG else byte for byte in line[:MOST_BYTES]) for line in source_lines(text)[:MOST_LINES]]
    return b"".join(card + b"\n" for card in cards)


def takes(text):
    """Whether a batch takes a text."""
    lines = source_lines(text)
    return len(lines) <= MOST_LINES and all(map(is_right, lines))


def is_right(line):
    return len(line) <= MOST_BYTES and not WRONG.intersection(line)


def fields(text):
    """The location and the operation of a line."""
    text = text[:72].upper()
    location = next((text[at:].split(" ", 1)[0] for at in (0, 1) if text[at : at + 1].strip()), "")
    behind = max(2, text.find(location) + len(location)) if location else 2
    return location, next(iter(text[behind:].split()), "")


def operand_words(text, location):
    """What stands between the commas and the operators of a statement's operands, each with its place; not behind the `=` of a literal."""
    behind = text.find(location) + len(location) if location else 2
    operation = re.compile(r" *\S+ *").match(text, max(2, behind))
    first = operation.end() if operation else len(text)
    if first > 28:
        return
    for operand in re.finditer(r"[^,]+", text[first:].split(" ", 1)[0]):
        for word in re.finditer(r"[^-+*/]+", operand[0]):
            if operand[0][0] != "=":
                yield first + operand.start() + word.start(), word[0]


def located(uri, ranges):
    return [{"range": one, "uri": uri} for one in ranges]


def around(ranges, position):
    """Those of the ranges that are around a position, else those that end there."""
    here = [one for one in ranges if one["start"]["line"] == position["line"]]
    within = [one for one in here if one["start"]["character"] <= position["character"] < one["end"]["character"]]
    return within or [one for one in here if one["end"] == position]


def by_line(items, key):
    """Items that are in the order of their lines, by line and name."""
    ordered = sorted(items, key=key)
    return ordered if [key(one)[0] for one in ordered] == [key(one)[0] for one in items] else items


class Shown:
    """What a batch and a check write of the lines of a text, and where a plain search finds its symbols. `texts` runs these."""

    def __init__(self, texts, text, is_utf8, form, takes_trees):
        self.lines, self.is_utf8, self.form, self.texts, self.reports = source_lines(text), is_utf8, form, texts, None
        self.takes_trees = takes_trees
        self.source = text if takes(text) else cards_of(text)
        self.rows = []
        for row in texts.part("listing", self.source):
            number = row[37:43].strip()
            if number.isdigit():
                self.rows.append([])
            if number or row[44:] != OPEN_END:
                self.rows[-1].append(row)
        self.symbols = {row[:8].rstrip(): row for row in texts.part("symbols", self.source)}
        self.defined = self.definitions()

    def definitions(self):
        """The symbols that each line defines: by the cross-reference, and in each SET that has a value."""
        found = {}
        for name in self.symbols:
            number = self.numbers(name)[0]
            if number:
                found.setdefault(number - 1, set()).add(name)
        for number, rows in enumerate(self.rows):
            for row in rows:
                name, operation = fields(row[44:])
                if operation == "SET" and name in self.symbols and row[16:36].strip() and not {"D", "L"}.intersection(row[:8]):
                    found.setdefault(number, set()).add(name)
        return dict(sorted(found.items()))

    def numbers(self, name):
        """The number of the first line that defines a symbol, 0 if none does, and those of the lines that read it."""
        return [int(number) for number in self.symbols[name][30:].split()]

    def value(self, name):
        return self.symbols[name][9:29].strip()

    def causes(self, number):
        """The causes of a line's flags, without the statements of its expansion: the first 10, and once one that follows itself."""
        if not any(row[:8].strip() for row in self.rows[number]):
            return []
        if self.reports is None:
            self.reports, _ = self.texts.reports(self.source)
        told = [(letter, message.split("\n")[0]) for line, _, letter, message, _ in self.reports if line == number]
        rows = [row for row, _ in itertools.groupby(f"{letter}: {cause}" for letter, cause in told if not cause.startswith(END))]
        return rows[:MOST_CAUSES] + ([".."] if len(rows) > MOST_CAUSES else [])

    # ---- ranges

    def position(self, number, at):
        return {"line": number, "character": units(self.lines[number][:at], self.is_utf8)}

    def whole(self, number):
        """A line without blanks at its ends; of a blank one the first column."""
        line = self.lines[number]
        first, last = len(line) - len(line.lstrip(b" ")), len(line.rstrip(b" "))
        return {"start": self.position(number, first if last else 0), "end": self.position(number, last or 1)}

    def around(self, position):
        """The range of the word around a position, or none at that place."""
        number = position["line"]
        if number >= len(self.lines):
            return {"start": {"line": number, "character": 0}, "end": {"line": number, "character": 0}}
        line = self.lines[number]
        at = self.column(position)
        first, last = next((one.span() for one in WORD.finditer(line) if one.start() <= at <= one.end()), (at, at))
        return {"start": self.position(number, first), "end": self.position(number, last)}

    def word(self, number, name):
        """The first word of a line that is a symbol, else the line."""
        for one in WORD.finditer(self.lines[number]):
            if one[0].decode().upper() == name:
                return {"start": self.position(number, one.start()), "end": self.position(number, one.end())}
        return self.whole(number)

    @cached_property
    def written(self):
        """Of each line the places where its own statement defines a symbol or reads one, as the cross-reference has it: the first and the last place,
        the symbol, and how it counts. Lines of macros have none, and statements whose operands may be text. A line that opens others may define by these."""
        depth, found, reading = 0, {}, {name: set(self.numbers(name)[1:]) for name in self.symbols}
        for number, card in enumerate(cards_of(b"\n".join(self.lines)).decode().split("\n")[:-1]):
            text = card[:72].upper()
            location, operation = fields(text)
            depth = max(0, depth + (operation == "MACRO") - (operation == "ENDM"))
            if depth or text[:1] in ("*", ","):
                continue
            opens = any(row[42:43] == "+" for row in self.rows[number])
            places = [(text.find(location), location, DEFINED)] if not opens and operation in DEFINING and location in self.defined.get(number, ()) else []
            if operation in READING:
                places += [(at, word, READ) for at, word in operand_words(text, location) if number + 1 in reading.get(word, ())]
            found[number] = [(at, at + len(word), word, kind) for at, word, kind in places]
        return found

    def known(self, position):
        """The symbol that surely stands at a position, or None."""
        number, at = position["line"], self.column(position)
        return next((word for first, last, word, _ in self.written.get(number, ()) if first <= at <= last), None)

    def column(self, position):
        """The place of a position in its line, 0 where there is none."""
        line = self.lines[position["line"]] if position["line"] < len(self.lines) else b""
        return place(line + b"\r", 0, position["character"], self.is_utf8)

    def is_nameless(self, position):
        """Whether surely no name is at a position: blanks and ends of lines are around it, or it is in a comment of a source without macros, or in no line."""
        if position["line"] >= len(self.lines):
            return True
        line, at = b" " + self.lines[position["line"]] + b" ", self.column(position)
        return line[at : at + 2] == b"  " or line[1:2] == b"*" and not any(b"MACRO" in one.upper() for one in self.lines)

    def text_at(self, told):
        """What stands in a range, in capitals; nothing where it isn't in one line, or has no character."""
        start, end = told["start"], told["end"]
        if start["line"] != end["line"] or not 0 <= start["line"] < len(self.lines):
            return ""
        return self.lines[start["line"]][self.column(start) : self.column(end)].decode(errors="replace").upper()

    # ---- answers

    def fault(self, uri, position, said):
        """What is wrong about the name at a position, or None, by what is said of it: `highlights`, all `references`, `uses`, `definitions` and `hover`."""
        spots = [(one["kind"], one["range"]) for one in said["highlights"]]
        places, defined = [told for _, told in spots], located(uri, [told for kind, told in spots if kind == DEFINED])
        if said["highlights"] != [{"kind": kind, "range": told} for kind, told in spots] or len(set(map(str, places))) < len(places):
            return f"wrong or twice: {said['highlights']}"
        if spots and not said["references"]:
            return self.fault_of_partners(uri, position, spots, said) or self.fault_of_hover(position, None, [], said["hover"])
        if said["references"] != located(uri, places) or said["uses"] != located(uri, [told for kind, told in spots if kind != DEFINED]):
            return f"references {said['references']}, {said['uses']} and highlights {spots}"
        found = said["definitions"]
        if not isinstance(found, list) or bool(found) != bool(defined) or any(one not in defined for one in found):
            return f"definitions {found} and highlights {spots}"
        if spots and self.is_nameless(position):
            return f"{spots} where no name is"
        name = self.known(position)
        return (name and self.fault_of(name, spots)) or self.fault_of_texts(name, places) or self.fault_of_hover(position, name, spots, said["hover"])

    def fault_of_partners(self, uri, position, spots, said):
        """What is wrong about operations that open, part and close the same lines, told as texts: the first, if it stands above, opens them."""
        texts = [self.text_at(told) for _, told in spots]
        first, number = spots[0][1], position["line"]
        wanted = located(uri, [first]) if first["start"]["line"] < number else []
        is_whole = texts[0] in OPENERS and all(text in CLOSERS for text in texts[1:]) and number in [told["start"]["line"] for _, told in spots]
        is_told = is_whole and said["uses"] == [] and said["definitions"] == wanted and {kind for kind, _ in spots} == {IDLE}
        return None if is_told else f"{texts} at {spots}, with {said['definitions']}"

    def fault_of(self, name, spots):
        """What is wrong about the places that are told of a symbol: each where its lines surely write it is wanted."""
        for number, places in self.written.items():
            for first, last, word, kind in places:
                wanted = {"start": self.position(number, first), "end": self.position(number, last)}
                if word == name and not any(told == wanted and (kind == READ or found == DEFINED) for found, told in spots):
                    return f"{name} stands at {wanted}, and told are {spots}"
        return None

    def fault_of_texts(self, name, places):
        """What is wrong about the texts of a name's places: each is the name, or a part of it where it is joined."""
        texts = [self.text_at(told) for told in places]
        return None if all(text and " " not in text and text in (name or text) for text in texts) else f"{name} is written by {texts}"

    def fault_of_hover(self, position, name, spots, said):
        """What is wrong about a hover, with the rows of a name that has these places."""
        number = position["line"]
        if number >= len(self.rows):
            return None if said is None and not spots else f"{said} behind the last line"
        texts = [self.text_at(told) for _, told in spots]
        names = [name] if name else [symbol for symbol in self.symbols if texts and all(text in symbol for text in texts)]
        fronts = [[self.symbols[symbol]] for symbol in names]
        if not name:
            line = next((told["start"]["line"] for kind, told in spots if kind == DEFINED), number)
            fronts.append(self.shown(line) if line != number else [])
        if not name and not spots:
            fronts = [self.manual(position)]
        ranges = [{"range": told} for told in around([told for _, told in spots], self.position(number, self.column(position)))] or [{}]
        contents = [self.marked(front + self.shown(number) + self.causes(number)) for front in fronts]
        wanted = [{"contents": one, **told} for one in contents for told in ranges]
        return None if said in wanted else f"{said} is shown, and not one of {wanted}"

    def manual(self, position):
        """The rows that are told of the operation around a position, as of a word. A letter alone, or digits, are told of otherwise."""
        around = self.around(position)
        word = self.text_at(around) if self.field(position) == 1 else ""
        if word != "=" and not re.fullmatch(r"[A-Z=][A-Z0-9.=]+", word):
            return []
        return self.texts.run(["explain", word], b"")[1].split("\n")[:-1]

    def shown(self, number):
        """The first rows of a line."""
        rows = self.rows[number]
        return rows[:MOST_ROWS] + ([".."] if len(rows) > MOST_ROWS else [])

    def marked(self, rows):
        text = "".join(row + "\n" for row in rows)
        return {"kind": self.form, "value": "```text\n" + text + "```" if self.form == "markdown" else text}

    # ---- what is free, but for its form

    def freely(self, method, more, answer):
        """What is wrong about an answer of which the form alone is known, or None."""
        if method == "foldingRange":
            return self.fault_of_folds(answer)
        if method == "signatureHelp":
            return None if answer is None or all(map(self.is_signature, answer["signatures"])) and self.is_active(answer) else "a signature"
        if method == "codeAction":
            return None if all(self.is_edit(edit) for one in answer for edits in one["edit"]["changes"].values() for edit in edits) else "an edit outside the text"
        return self.fault_of_tokens(more, answer["data"])

    def fault_of_folds(self, folds):
        """What is wrong about folds: they come in the order of their first lines, each has a line behind that; and of comments each run of two lines or more."""
        spans, comments = [(one["startLine"], one["endLine"]) for one in folds], [number for number, line in enumerate(self.lines) if line[:1] == b"*"]
        runs = [[number for _, number in run] for _, run in itertools.groupby(enumerate(comments), lambda one: one[1] - one[0])]
        wanted = [(run[0], run[-1]) for run in runs if len(run) > 1]
        told = [span for span, one in zip(spans, folds) if one.get("kind") == "comment"]
        is_right = spans == sorted(spans, key=lambda span: span[0]) and all(first < last < len(self.lines) for first, last in spans)
        return None if is_right and told == wanted else f"{told} are comments and not {wanted}" if is_right else f"{spans} of {len(self.lines)} lines"

    def is_signature(self, one):
        """Whether parameters are columns of a label, one behind the other."""
        columns = [at for parameter in one["parameters"] for at in parameter["label"]]
        return columns == sorted(columns) and all(0 <= at <= len(one["label"]) for at in columns) and one["label"].isprintable()

    def is_active(self, answer):
        count = len(answer["signatures"][answer["activeSignature"]]["parameters"])
        return 0 <= answer["activeParameter"] < max(1, count)

    def is_edit(self, edit):
        """Whether an edit is within a line."""
        start, end = edit["range"]["start"], edit["range"]["end"]
        return start["line"] == end["line"] < len(self.lines) and start["character"] <= end["character"] <= units(self.lines[end["line"]], self.is_utf8)

    def fault_of_tokens(self, more, data):
        """What is wrong about tokens: they stand one behind the other in lines of the range, each within its line."""
        first, last = more["range"]["start"]["line"] if "range" in more else 0, more["range"]["end"]["line"] if "range" in more else len(self.lines)
        line = start = end = 0
        for token in zip(*[iter(data)] * 5):
            start = token[1] + (0 if token[0] else start)
            line, end = line + token[0], 0 if token[0] else end
            is_within = first <= line <= last and line < len(self.lines) and end <= start < start + token[2] <= units(self.lines[line], self.is_utf8)
            if not is_within or token[3] >= MOST_KINDS or token[4] >= 4:
                return f"{token} in line {line} from {start}"
            end = start + token[2]
        return f"{len(data)} numbers" if len(data) % 5 else None

    def outline(self):
        return [{"detail": self.value(name), "kind": 14, "name": name, "range": self.whole(number), "selectionRange": self.word(number, name)}
                for number, names in self.defined.items() for name in sorted(names)]

    def hints(self, first, last):
        found = []
        for number in range(first, min(last + 1, len(self.rows))):
            rows = self.rows[number]
            labels = [" ".join(part for part in (row[9:15].strip(), row[16:36].strip()) if part) for row in rows]
            at = next((at for at, label in enumerate(labels) if label), None)
            if at is not None:
                found.append({"label": labels[at] + " .." * (at + 1 < len(rows)), "paddingLeft": True, "position": self.position(number, len(self.lines[number]))})
        return found

    def listings(self, first, last):
        return ["".join(row + "\n" for row in self.rows[number]) for number in range(first, min(last + 1, len(self.rows)))]

    def field(self, position):
        """The field of a letter where the word around a position begins: 0 for a location, 1 an operation, 2 operands, and 3 for all else."""
        number, at = position["line"], self.column(position)
        line = self.lines[number] if number < len(self.lines) else b""
        at = next((one.start() for one in WORD.finditer(line) if one.start() <= at <= one.end()), at)
        text = bytes(32 if byte in WRONG else byte for byte in line[:at]).decode() + "A"
        begun = [one.start() for one in re.finditer(r"\S+", text)]
        if len(text) > 72 or len(text) > 1 and text[0] in "*,":
            return 3
        field = len(begun) - (begun[0] < 2)
        return 3 if field > 2 or field == 2 and begun[-1] > 28 else field

    def completions(self, position):
        """The symbols that are offered in the place of the word around a position, each with the first line that defines it, or that reads it."""
        field, around, lines = self.field(position), self.around(position), {}
        if field == 2:
            for number, names in self.defined.items():
                for name in names:
                    lines.setdefault(name, number)
        if field == 0:
            defined = set().union(*self.defined.values())
            lines = {name: self.numbers(name)[1] for name in self.symbols if name not in defined}
        names = sorted(lines, key=lambda name: (lines[name], name))
        return [{"detail": self.value(name), "kind": 21, "label": name, "textEdit": {"newText": name, "range": around}} for name in names], lines

    def may_be_offered(self, others, position):
        """Whether words may be offered behind the symbols: macros and operations in their field, and registers in operands, unless a line above may have PERIPH."""
        field, around = self.field(position), self.around(position)
        if any(one != self.offered(one, around) for one in others):
            return False
        labels = [one["label"] for one in others]
        if field == 1:
            return {one["kind"] for one in others} <= {3, 14} and len(set(labels)) == len(labels) and "IDENT" in labels and ("LDN" in labels) != ("SA0" in labels)
        is_declared = any(b"PERIPH" in line.upper() for line in self.lines[: position["line"]])
        return field == 2 and labels == REGISTERS and {one["kind"] for one in others} == {6} or labels == [] and (field != 2 or is_declared)

    def answer(self, uri, method, more):
        """The answer to a request that has this beside the text's URI."""
        if method == "documentSymbol":
            return self.outline()
        if method == "inlayHint":
            return self.hints(more["range"]["start"]["line"], more["range"]["end"]["line"])
        if method == "compass/rows":
            return self.listings(more["range"]["start"]["line"], more["range"]["end"]["line"])
        return self.completions(more["position"])[0]

    def offered(self, one, around):
        """What is offered with the label, the kind and the detail of another, in the place of a range."""
        label, kind, detail = one.get("label"), one.get("kind"), one.get("detail")
        return {"label": label, "kind": kind, "detail": detail, "textEdit": {"newText": label, "range": around}} if isinstance(label, str) else None

    def in_order(self, method, more, answer):
        """An answer with the symbols of one line in the order of their names, and of an outline or completions these alone, if what stands behind them may."""
        if method == "documentSymbol" and isinstance(answer, list):
            rows = self.rows_of_tree(answer) if self.takes_trees else answer
            symbols = [one for one in rows if one["kind"] not in (FUNCTION, NAMESPACE)]
            others = [one for one in rows if one["kind"] in (FUNCTION, NAMESPACE)]
            if (self.takes_trees or rows == symbols + others) and all(map(self.is_outlined, others)):
                return by_line(symbols, lambda one: (one["range"]["start"]["line"], one["name"]))
        if method == "completion" and isinstance(answer, list):
            lines = self.completions(more["position"])[1]
            symbols, others = answer[: len(lines)], answer[len(lines) :]
            if self.may_be_offered(others, more["position"]):
                return by_line(symbols, lambda one: (lines.get(one.get("label"), -1), one.get("label")))
        return answer

    def rows_of_tree(self, answer):
        """The rows of a tree without its headings, each told in the lines of its section. Nothing but what was told where one isn't."""
        heads = [number for number, line in enumerate(self.lines) if HEADING.match(line)]
        sections = answer[len(answer) - len(heads) :] if heads else []
        rows = [[one for one in answer if one not in sections], *(one.get("children") or [] for one in sections)]
        ends = [*heads, min(len(self.lines), MOST_LINES)]
        for first, end, within in zip([0, *heads], ends, rows):
            lines = [one["range"]["start"]["line"] for one in within]
            if lines != sorted(lines) or not all(first <= line < end and "children" not in one for line, one in zip(lines, within)):
                return answer
        for first, end, one in zip(heads, ends[1:], sections):
            whole = {"start": {"line": first, "character": 0}, "end": {"line": end, "character": 0}}
            if (one["kind"], one["detail"], one["range"]) != (NAMESPACE, "heading", whole) or one["selectionRange"]["start"]["line"] != first:
                return answer
        return [one for within in rows for one in within]

    def is_outlined(self, one):
        """Whether a macro or a heading is told where its name stands, or all of a line whose statements define a macro."""
        whole = self.whole(one["range"]["start"]["line"])
        is_named = one["selectionRange"] == whole or self.text_at(one["selectionRange"]) == one["name"].upper()
        return one["detail"] == ("macro" if one["kind"] == FUNCTION else "heading") and one["range"] == whole and is_named

    def questions(self, method):
        """What to ask about all places of a text: about each word, and about each line."""
        if method in ("documentSymbol", "foldingRange", "semanticTokens/full"):
            yield {}
        elif method in ("inlayHint", "compass/rows", "codeAction", "semanticTokens/range"):
            yield {"range": {"start": {"line": 0, "character": 0}, "end": {"line": len(self.lines), "character": 0}}}
        else:
            for number, line in enumerate(self.lines):
                for at in [0, *(at for one in WORD.finditer(line) for at in one.span())]:
                    yield {"position": self.position(number, at)}
