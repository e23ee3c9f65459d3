"""A plain reading of octal texts beside the words of a source, and what `compass compare` must tell of the two: a second way of counting,
for `scripts/hostile/plant-slips`. It is written from docs/LANGUAGE.md, row by row and claim by claim, and keeps every claim."""
import re
from collections import defaultdict
from dataclasses import dataclass
from itertools import groupby

DIGITS, ADDRESS = re.compile(r"[0-7?._]+"), re.compile(r"([0-7]{1,6})[:Bb]?")
FIGURES, TAKEN = frozenset("0123456789?._"), frozenset("0123456789?._OoIl")
BLANKS = str.maketrans("\r\f\v", "   ")
FILLING = "46000"
MOST_WORDS = 0o1000000


@dataclass
class Row:
    """What a row is: read, blank, other or unread."""

    kind: str
    reason: str = ""
    address: int = 0
    place: int = 0
    digits: str = ""


@dataclass
class Setup:
    """How a text is read, and what is compared of it."""

    is_dump: bool = False
    offset: int = 0
    columns: tuple = ()
    low: int = None
    high: int = None
    is_whole: bool = False


def looks_like_digits(part):
    count = sum(byte in FIGURES for byte in part)
    return 2 * count > len(part) or (count > 0 and TAKEN.issuperset(part))


def parts_of(row):
    """The parts of a row, each with its column; tabs have stops of 8."""
    return [(found.start(), found[0]) for found in re.finditer("[^ ]+", row.translate(BLANKS).expandtabs(8))]


def address_of(part):
    found = ADDRESS.fullmatch(part)
    return int(found[1], 8) if found else None


def says_again(parts):
    words = [part.upper() for _, part in parts]
    return words == ["*"] or words[0].startswith(("DUPL", "REPEAT", "SAME"))


class Reader:
    """Reads rows. A row may go on in the word `open`, an address with the number of its digits, that begin in `column`; rows at the address
    `closed` aren't read."""

    def __init__(self, size, setup):
        self.size, self.setup = size, setup
        self.open = self.column = self.closed = self.last = None
        self.repeated = 0

    def unread(self, reason, address=None):
        if address is not None:
            self.closed = address
        elif self.open:
            self.closed = self.open[0]
        self.open = self.last = None
        return Row("unread", reason)

    def read(self, row, following):
        parts = parts_of(row)
        if not parts:
            return Row("blank")
        if self.setup.is_dump and says_again(parts):
            return self.repeat(parts_of(following))
        column, first = parts[0]
        if DIGITS.fullmatch(first) and (len(first) > 6 or column == self.column):
            return self.digits(parts, None)
        address = address_of(first)
        if address is None:
            return self.unread("no address") if looks_like_digits(first) else Row("other")
        if len(parts) == 1 or not (DIGITS.fullmatch(parts[1][1]) or looks_like_digits(parts[1][1])):
            return Row("other")
        self.column = parts[1][0]
        return self.digits(parts[1:], address)

    def digits(self, parts, address):
        """Reads the digits that stand in front of the first other part."""
        groups = []
        for _, part in parts:
            if not DIGITS.fullmatch(part):
                if looks_like_digits(part):
                    return self.unread("damaged digits", address)
                break
            groups.append(part)
        digits = "".join(groups)
        parcel = 5 if self.size == 20 else 4
        if self.size == 4 or len(digits) % 20:
            for group in groups:
                if len(group) % parcel:
                    return self.unread(f"a group of {len(group)} digits", address)
        if self.setup.is_dump and len(digits) % self.size:
            return self.unread("no whole words", address)
        return self.go_on(digits) if address is None else self.begin(address, digits)

    def go_on(self, digits):
        if not self.open:
            return self.unread("no address" if self.closed is None else "behind a row that isn't read")
        address, count = self.open
        if self.setup.is_dump and count == self.size:
            return self.claim(address + 1, 0, digits)
        if count + len(digits) > self.size:
            return self.unread("no address")
        return self.claim(address, count, digits)

    def begin(self, address, digits):
        if self.closed == address and len(digits) < self.size:
            return self.unread("behind a row that isn't read", address)
        if self.open and self.open[0] == address and self.open[1] + len(digits) <= self.size:
            return self.claim(address, self.open[1], digits)
        return self.claim(address, 0, digits)

    def claim(self, address, place, digits):
        last, rest = divmod(place + len(digits) - 1, self.size)
        at = address + self.setup.offset
        if at < 0 or at + last >= MOST_WORDS:
            return self.unread("no such address", address)
        self.closed, self.open, self.last = None, (address + last, rest + 1), (address, digits)
        return Row("read", address=at, place=place, digits=digits)

    def repeat(self, parts):
        """The words of the row before stand again, up to the address of the next row."""
        end = address_of(parts[0][1]) if parts else None
        if self.last is None or end is None:
            return self.unread("a repetition without an end")
        begin, digits = self.last
        words = len(digits) // self.size
        count = end - begin - words
        if count <= 0 or count % words:
            return self.unread("a repetition that doesn't come out even")
        if self.repeated + count > MOST_WORDS:
            return self.unread("too many repetitions")
        self.repeated += count
        return self.claim(begin + words, 0, digits * (count // words))


def read_rows(text, size, setup):
    first, last = setup.columns or (1, len(text))
    rows = [row[first - 1:last] for row in text.split("\n")]
    reader = Reader(size, setup)
    return [reader.read(row, following) for row, following in zip(rows, rows[1:] + [""])]


def is_filling(word, count):
    """Whether the word's digits behind the first `count` are zeros up to a parcel, and then parcels that do nothing."""
    parcel = (count + 4) // 5 * 5
    return len(word) == 20 and not word[count:parcel].strip("0") and word[parcel:] == FILLING * ((20 - parcel) // 5)


class Side:
    """The claims of rows beside the words of a source: by address and place the digits that are known, and the addresses with a mark or a digit."""

    def __init__(self, words, rows, setup):
        self.words, self.rows, self.setup = words, rows, setup
        self.size = len(next(iter(words.values())))
        self.known, self.claimed = defaultdict(set), defaultdict(set)
        for row in rows:
            for at, digit in enumerate(row.digits, row.place):
                address, place = row.address + at // self.size, at % self.size
                self.claimed[address].add(place)
                if digit in "01234567":
                    self.known[address, place].add(digit)

    def limits(self):
        stand = {address for address, _ in self.known} | (set(self.words) if self.setup.is_whole else set())
        low, high = self.setup.low, self.setup.high
        return min(stand) if low is None else low, max(stand) if high is None else high

    def lacks(self, address):
        """Whether a word of the source has a digit that isn't claimed, nor filling."""
        word, places = self.words[address], self.claimed.get(address, ())
        return bool(places) and len(places) < self.size and not is_filling(word, len(places))

    def differs(self, address):
        word = self.words.get(address)
        for place in range(self.size):
            for digit in self.known.get((address, place), ()):
                if word is None or word[place] != digit:
                    return True
        return self.setup.is_whole and word is not None and (address not in self.claimed or self.lacks(address))

    def told(self, is_all):
        """What must be told: the status; the addresses of the words that differ, and of how many more; the rows of the summary, or the fault."""
        unread = [(number, row.reason) for number, row in enumerate(self.rows, 1) if row.kind == "unread"]
        if not self.known:
            if self.claimed:
                return 2, [], ["each digit of OCTAL is unknown"]
            if unread:
                return 2, [], ["no row of OCTAL is read, the first is row %d: %s" % unread[0]]
            return 2, [], ["no row of OCTAL has an address and octal digits"]
        low, high = self.limits()
        known = [(address, place) for address, place in self.known if low <= address <= high]
        if not known:
            return 2, [], [f"no digit of OCTAL is compared between {low:06o} and {high:06o}"]
        given = {address for address, _ in known}
        here = {address for address in self.words if low <= address <= high}
        compared = given | here if self.setup.is_whole else given
        differing = sorted(filter(self.differs, compared))
        rows = [f"compared: {len(known)} digits of {len(given)} words, in {sum(row.kind == 'read' for row in self.rows)} rows"]
        rows += self.counted(low, high, known, here)
        if unread:
            rows.append("not read: %d rows, first row %d: %s" % (len(unread), *unread[0]))
        other = [number for number, row in enumerate(self.rows, 1) if row.kind == "other"]
        if other:
            rows.append(f"other text: {len(other)} rows, first row {other[0]}")
        rows.append(f"{len(differing)} of {len(compared)} words differ ({low:06o} to {high:06o})")
        return 1 if differing else 0, list(self.runs(sorted(compared), set(differing), is_all)), rows

    def runs(self, compared, differing, is_all):
        """The words that are told: of more than five that differ one after another the first four, and how many more there are."""
        for differs, run in groupby(compared, differing.__contains__):
            run = [f"{address:06o}" for address in run] if differs else []
            if is_all or len(run) <= 5:
                yield from run
            else:
                yield from [*run[:4], f"{run[4]} to {run[-1]}: {len(run) - 4} more words differ"]

    def counted(self, low, high, known, here):
        """The rows of what is unknown, twice, not given and in part, between the limits."""
        marks = [address for address, places in self.claimed.items() for place in places
                 if low <= address <= high and (address, place) not in self.known]
        twice = [address for address, place in known if len(self.known[address, place]) > 1]
        missing = [address for address in here if address not in self.claimed]
        part = [address for address in here if self.lacks(address)]
        for found, text in ((marks, "unknown: %d digits"), (twice, "twice: %d digits with two values"),
                            (missing, "not given: %d words of the deck"), (part, "in part: %d words")):
            if found:
                yield f"{text % len(found)}, first at {min(found):06o}"
