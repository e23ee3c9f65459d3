"""Texts that a server edits, beside a batch of each text before and after."""
import json
import os
import subprocess

from editor_texts import cards_of, changed, source_lines, takes, units
from examples import program_names, program_path
from random_lines import Lines

URI = "file:///a.cps"
ODD = ["é", "Ω", "€", "𝄞", "~", "{"]
MIXED = os.path.join(os.path.dirname(os.path.abspath(__file__)), "../measure/mixed-source")


class Difference(Exception):
    """The server did what it may not do."""


class Server:
    """A server with one text, which must have some providers."""

    def __init__(self, program, text, is_utf8, providers):
        self.process = subprocess.Popen([program, "server"], stdin=subprocess.PIPE, stdout=subprocess.PIPE)
        self.number, self.is_utf8 = 0, is_utf8
        offers = {"general": {"positionEncodings": ["utf-8"]}} if is_utf8 else {}
        told = self.request("initialize", {"capabilities": offers})["result"]["capabilities"]
        if any(told.get(name) != value for name, value in providers.items()) or (told["positionEncoding"] == "utf-8") != is_utf8:
            raise Difference(f"{told} is offered")
        self.send({"method": "textDocument/didOpen", "params": {"textDocument": {"uri": URI, "text": text.decode()}}})
        self.read()

    def send(self, message):
        body = json.dumps({"jsonrpc": "2.0", **message}).encode()
        self.process.stdin.write(b"Content-Length: %d\r\n\r\n" % len(body) + body)
        self.process.stdin.flush()

    def read(self):
        size = int(self.process.stdout.readline().split(b":")[1])
        self.process.stdout.readline()
        return json.loads(self.process.stdout.read(size).decode())

    def request(self, method, params):
        self.number += 1
        self.send({"method": method, "params": params, "id": self.number})
        answer = self.read()
        if answer.get("id") != self.number:
            raise Difference(f"{answer} answers {method} of {self.number}")
        return answer

    def ask(self, method, **more):
        return self.request("textDocument/" + method, {"textDocument": {"uri": URI}, **more})

    def end(self):
        self.process.kill()
        self.process.communicate()


class Batch:
    """What a batch writes of a text, or of what is assembled of it."""

    def __init__(self, program, text):
        source = text if takes(text) else cards_of(text)
        rows = {part: self.part(program, part, source) for part in ("binary", "flags", "listing", "symbols")}
        self.binary, self.flags, self.symbols = rows["binary"], rows["flags"], rows["symbols"]
        self.listing = [row[:43] for row in rows["listing"]]

    @staticmethod
    def part(program, part, data):
        ran = subprocess.run([program, "batch", "--part", part], input=data, stdout=subprocess.PIPE, check=False)
        return ran.stdout.decode().split("\n")

    def called(self, old, new):
        """The rows of the cross-reference with a name in the place of another."""
        return sorted(f"{new:<8}{row[8:]}" if row[:8].rstrip() == old else row for row in self.symbols)


def compare(was, now):
    """Compares what a batch writes of two texts, but for the texts of rows and the cross-reference."""
    for part in ("binary", "flags", "listing"):
        before, after = getattr(was, part), getattr(now, part)
        if before != after:
            at = next((at for at, pair in enumerate(zip(before, after)) if pair[0] != pair[1]), min(len(before), len(after)))
            raise Difference(f"the {part} has {after[at : at + 1]} in the place of {before[at : at + 1]}")


def edited(text, edits, is_utf8):
    """A text with edits, one after another, each in a line above the one before it."""
    below, lines = len(source_lines(text)), source_lines(text)
    for edit in edits:
        start, end = edit["range"]["start"], edit["range"]["end"]
        number = start["line"]
        if set(edit) != {"newText", "range"} or end["line"] != number or not number < below or not start["character"] <= end["character"] <= units(lines[number], is_utf8):
            raise Difference(f"{edit} is told")
        below = number
        text = changed(text, {"range": edit["range"], "text": edit["newText"]}, is_utf8)
    return text


def with_odd(chance, text):
    """A text with some characters that no line may have, most of them in comments."""
    lines = text.split(b"\n")
    for _ in range(len(lines) // 5):
        at = chance.randrange(len(lines))
        lines[at] = lines[at].ljust(chance.randrange(30, 60)) + chance.choice(ODD).encode()
    return b"\n".join(lines)


def random_source(chance):
    lines = Lines(chance)
    made = lines.head()
    while len(made) < 40:
        made += lines.structure() if chance.random() < 0.4 else [lines.good()]
    return b"\n".join(made) + b"\n"


def sources(chance):
    """Sources without an end."""
    while True:
        with open(program_path(chance.choice(program_names()) + ".cps"), "rb") as file:
            yield file.read()
        words = [MIXED, str(chance.choice([60, 200, 600])), str(chance.randrange(1 << 30))]
        yield subprocess.run(words, stdout=subprocess.PIPE, check=True).stdout
        for _ in range(6):
            yield random_source(chance)
