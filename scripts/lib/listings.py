"""Lays out a source as COMPASS lays out its listing, by the texts of `compass batch`: an address on the first row of a word, none on the rows of
its other parcels, and no row for filling."""
import re
import subprocess

HEADING = "1" + " " * 44 + "%-30s COMPASS - VER 3.  75/03/14. 10.22.33.     PAGE %4d"
ROWS_OF_PAGE = 58


def batch(program, part, path):
    ran = subprocess.run([program, "batch", "--part", part, path], stdout=subprocess.PIPE, check=False)
    return ran.stdout.decode("ascii")


def words_of(program, path):
    """The words of a source by their addresses, as octal digits."""
    rows = re.findall(r"^([0-7]{4}|[0-7]{6}) ([0-7]{4}|[0-7]{20})$", batch(program, "binary", path), re.M)
    return {int(address, 8): word for address, word in rows}


def rows_of(program, path):
    """The rows of the program's own listing: an address or None, the groups of code, and the statement or None where the row before has it."""
    for row in batch(program, "listing", path).splitlines():
        address = row[9:15].strip()
        yield int(address, 8) if address else None, row[16:36].split(), row[44:] if row[36:43].strip() else None


def parcels_of(rows, words):
    """The addresses whose rows have whole parcels: those of VFD may have other fields."""
    codes = {}
    for address, code, _ in rows:
        if address is not None:
            codes.setdefault(address, []).extend(code)
    return {address for address, code in codes.items() if all(len(group) % 5 == 0 for group in code) and words.get(address, "").startswith("".join(code))}


class Layout:
    """Rows, with the numbers of those that have code, from 0, and the column in which that begins and the one behind it."""

    def __init__(self, program, path):
        self.rows, self.codes = [], []
        self.words = words_of(program, path)
        self.title, self.page, self.before, self.done = path.rsplit("/", 1)[-1], 0, None, set()
        rows = list(rows_of(program, path))
        self.size = len(next(iter(self.words.values()), ""))
        self.parcels = parcels_of(rows, self.words)
        for address, code, text in rows:
            self.lay(address, code, text or "")
        for address in sorted(set(self.words) - self.done):
            self.put(address, self.words[address], "")

    def row(self, text):
        if len(self.rows) % (ROWS_OF_PAGE + 2) == 0:
            self.page += 1
            self.rows += [HEADING % (self.title, self.page), ""]
        self.rows.append(text.rstrip())

    def put(self, address, code, text):
        """A row of code; without an address where the row before has it too."""
        where = "" if address == self.before and self.size == 20 else f"{address:o}"
        front = f"{'':11}{where:>6}  "
        self.row(f"{front}{code:<20} {'+' if len(code) == 10 else ' ':<8}{text}")
        self.codes.append((len(self.rows) - 1, len(front), len(front) + len(code)))
        self.before = address
        self.done.add(address)

    def lay(self, address, code, text):
        """A row of the listing. A word with other fields than parcels stands whole in the first of its rows."""
        if address is None or not code:
            where = "" if address is None else f"{address:o}"
            self.row(f"{'':11}{where:>6}{'':31}{text}")
        elif self.size == 20 and address not in self.parcels:
            if address not in self.done:
                self.put(address, self.words[address], text)
                self.before = None
        else:
            self.put(address, " ".join(code), text)
            self.done.update(range(address, address + len(code)) if self.size == 4 else ())


class OwnLayout:
    """The program's own listing, by the same names."""

    def __init__(self, program, path):
        self.rows = batch(program, "listing", path).splitlines()
        self.codes = []
        for number, row in enumerate(self.rows):
            code = row[16:36]
            if row[9:15].strip() and code.strip():
                self.codes.append((number, 36 - len(code.lstrip()), 16 + len(code.rstrip())))


def dump_of(words, count):
    """A dump: rows of so many words, by parcels."""
    rows, size = [], 5 if len(next(iter(words.values()))) == 20 else 4
    for address in sorted(words):
        parcels = " ".join(re.findall("." * size, words[address]))
        if rows and rows[-1][0] + rows[-1][1] == address and rows[-1][1] < count:
            first, had, text = rows.pop()
            rows.append((first, had + 1, text + "  " + parcels))
        else:
            rows.append((address, 1, parcels))
    return [f"{address:06o}  {text}" for address, _, text in rows]
