"""The tries of the extension of VS Code, over a model of the editor (`vscode_stub.js`) that node runs. The extension starts the program itself,
and what it shows is compared with what a batch and a check tell of the same text. Where a try needs a server that ends, refuses or can
more than the program, a stand-in is started in its place."""
import json
import os
import re
import signal
import subprocess
import sys
from collections import namedtuple

from .shared import BENEATH, HEADED, HEADINGS, HINTS, OUTLINED, REFUSAL, ROOT, SECONDS, TAKEN, Fault, renamed, run, same, until

FOLDER = os.path.join(ROOT, "editors/vscode")
STUB = os.path.join(os.path.dirname(os.path.abspath(__file__)), "vscode_stub.js")
DECK = "file:///decks/deck.cps"
# As VS Code counts them.
ERROR, HINT = 0, 3
# How often a server may end by itself within a minute, and what is shown then.
MOST_ENDS = 4
ENDS = f"COMPASS: {{}}, {MOST_ENDS} times within a minute. It isn't started again."

# A server that answers by a table, sends what stands there for a method, or ends. What it writes comes in pieces.
STAND_IN = """\
#!{python}
import json, sys, time
answers = json.load(open({table!r}))
while True:
    length = 0
    while (row := sys.stdin.buffer.readline().strip()):
        length = int(row.split()[1])
    if not length:
        break
    message = json.loads(sys.stdin.buffer.read(length))
    with open({heard!r}, "a") as file:
        file.write(json.dumps(message) + "\\n")
    method = message.get("method")
    told = answers.get(method, {{"result": None}})
    if method == "exit" or told.get("ends"):
        break
    sends = told.pop("sends", [])
    if method and "id" in message:
        sends.append({{"id": message["id"], **told}})
    output = b""
    for each in sends:
        body = json.dumps({{"jsonrpc": "2.0", **each}}, ensure_ascii=False).encode()
        output += b"Content-Length: %d\\r\\n\\r\\n" % len(body) + body
    for place in range(0, len(output), {piece}):
        sys.stdout.buffer.write(output[place:place + {piece}])
        sys.stdout.buffer.flush()
        time.sleep(0.002)
"""


class Code:
    """The model, with the extension and the program that it starts."""

    def __init__(self, program):
        self.process = subprocess.Popen(["node", STUB, FOLDER, program], stdin=subprocess.PIPE, stdout=subprocess.PIPE, text=True)
        self.tell("activate")

    def answer(self, order, **more):
        self.process.stdin.write(json.dumps({"do": order, **more}) + "\n")
        self.process.stdin.flush()
        row = self.process.stdout.readline()
        if not row:
            raise Fault("node has ended")
        return json.loads(row)

    def tell(self, order, **more):
        """What the model answers to an order."""
        answer = self.answer(order, **more)
        if "error" in answer:
            raise Fault(f"{order} {more}: {answer['error']}")
        return answer["result"]

    def ask(self, provider, method, *given):
        return self.tell("ask", provider=provider, method=method, given=given)

    def providers(self):
        return dict(self.tell("providers"))

    def shows(self, *messages):
        """Waits until these messages are shown, and no other, and takes them away."""
        same("what is shown", lambda: self.tell("shown"), list(messages))
        self.tell("forget")

    def started(self):
        return self.tell("started")

    def open(self, uri, text, **more):
        self.tell("open", uri=uri, text=text, **more)

    def change(self, uri, *changes):
        """Makes changes: the range of each, and its new text."""
        self.tell("change", uri=uri, changes=[{"range": place, "text": text} for place, text in changes])

    def marks(self, uri):
        """The errors of a text: line, column, letter."""
        starts = [(one["range"]["start"], one.get("code", "")) for one in self.tell("marks", uri=uri) if one["severity"] == ERROR]
        return sorted((start["line"] + 1, start["character"] + 1, letter) for start, letter in starts)

    def noted(self, uri):
        """The lines of what else is marked."""
        return sorted({one["range"]["start"]["line"] + 1 for one in self.tell("marks", uri=uri) if one["severity"] != ERROR})

    def has_marks(self, uri, program):
        """Each flag and note of a check has its mark, and no mark stands elsewhere."""
        text = self.tell("text", uri=uri)
        same("marks", lambda: (self.marks(uri), self.noted(uri)), (program.flags(text), program.notes(text)))

    def close(self):
        self.process.stdin.close()
        self.process.stdout.close()
        self.process.wait(SECONDS)


def in_code(program, tried):
    """Tries something in a model that is ended in any case. No message may be left, and no server."""
    editor = Code(program)
    try:
        told = tried(editor)
        pids = [each["pid"] for each in editor.started() if "pid" in each]
        editor.tell("deactivate")
        editor.shows()
        until(lambda: not any(map(is_there, pids)), lambda: f"a server is left: {editor.started()}")
        return told
    finally:
        editor.close()


def is_there(pid):
    try:
        os.kill(pid, 0)
    except ProcessLookupError:
        return False
    return True


def is_served(editor):
    until(lambda: "Hover" in editor.providers(), lambda: f"there is no server: {editor.tell('shown')}, {editor.started()}")


def lines_of(locations):
    return [one["range"]["start"]["line"] + 1 for one in locations]


def try_marks(room, program):
    """Each flag has its mark in the text as it is typed, and a closed text has none."""
    def tried(editor):
        editor.open(DECK, room.read("flags.cps"))
        editor.has_marks(DECK, program)
        if not editor.marks(DECK):
            raise Fault("the deck has no mark")
        before = editor.marks(DECK)
        # X2*2, which no form of SA1 takes
        editor.change(DECK, ([6, 20, 6, 21], "+"))
        same("marks without the one of line 7", lambda: editor.marks(DECK), [one for one in before if one[0] != 7])
        editor.has_marks(DECK, program)
        # several places at once, and in line 5 characters that no line may have
        editor.change(DECK, ([0, 0, 0, 0], "          SA1     AWAY\n"), ([8, 0, 9, 0], ""), ([3, 1, 3, 1], " \u00c4\U0001d11e "))
        text = editor.tell("text", uri=DECK).replace("\u00c4", " ").replace("\U0001d11e", " ")
        same("marks of lines", lambda: sorted({one[0] for one in editor.marks(DECK)}), sorted({one[0] for one in program.flags(text)} | {5}))
        editor.tell("close", uri=DECK)
        same("marks of a closed text", lambda: editor.marks(DECK), [])
    in_code(program.path, tried)


def try_answers(room, program):
    """Hover, definition, references, symbols, hints and completion are those of the listing and the cross-reference."""
    def tried(editor):
        text = room.read("sum.cps")
        lines, rows = text.splitlines(), program.rows(text)
        editor.open(DECK, text)
        editor.has_marks(DECK, program)
        row, defined, reads = program.symbol(text, "SUM")
        rows_of_hover = (row, rows[reads[-1] - 1][0])
        place = [reads[-1] - 1, lines[reads[-1] - 1].index("SUM") + 1]
        shown = editor.ask("Hover", "provideHover", DECK, place)["contents"][0]["value"]
        same("a hover", lambda: shown.splitlines(), ["", "```plaintext", *rows_of_hover, "", "```"])
        same("definition", lambda: lines_of(editor.ask("Definition", "provideDefinition", DECK, place)), [defined])
        for at, has, wanted in (place, True, sorted([defined, *reads])), (place, False, reads), ([26, 12], True, [17, 27, 28]):
            same("references", lambda: lines_of(editor.ask("Reference", "provideReferences", DECK, at, {"includeDeclaration": has})), wanted)
        same("a macro, from its call", lambda: lines_of(editor.ask("Definition", "provideDefinition", DECK, [26, 12])), [17])
        symbols = {one["name"]: one for one in editor.ask("DocumentSymbol", "provideDocumentSymbols", DECK)}
        wanted = {line.split()[0] for line in lines if re.match(r"[A-Z]", line)}
        same("symbols", lambda: set(symbols), wanted)
        same("the place of a symbol", lambda: lines_of([symbols["SUM"]]), [defined])
        told = editor.ask("InlayHints", "provideInlayHints", DECK, [0, 0, len(lines), 0])
        same("room before hints", lambda: {one["paddingLeft"] for one in told}, {True})
        hints = {one["position"]["line"]: one["label"] for one in told}
        for number, each in enumerate(rows):
            labels = [" ".join(filter(None, (row[9:15].strip(), row[16:36].strip()))) for row in each]
            shown = [label + " .." * (at + 1 < len(each)) for at, label in enumerate(labels) if label]
            same(f"the hint of line {number + 1}", lambda: hints.get(number, ""), "".join(shown[:1]))
        offered, operations = ({one["label"]: one for one in editor.ask("CompletionItem", "provideCompletionItems", DECK, [place[0], at])} for at in (place[1], 11))
        names = {"SUM", "X1", "PLUS", "MACRO", "EQ", "UJN"}
        same("what is offered of a symbol, a register, a macro, a statement and operations of both machines, in an operand and in an operation",
             lambda: (names.intersection(offered), names.intersection(operations)), ({"SUM", "X1"}, {"PLUS", "MACRO", "EQ"}))
        whole = {"start": {"line": place[0], "character": place[1] - 1}, "end": {"line": place[0], "character": place[1] + 2}}
        same("the place of what is completed", lambda: offered["SUM"]["range"], whole)
        # the editor's numbers of constants
        same("kinds", lambda: (symbols["SUM"]["kind"], offered["SUM"]["kind"]), (13, 20))
        # nothing stands there, and that is no fault
        same("a hover behind the text", lambda: editor.ask("Hover", "provideHover", DECK, [len(lines) + 5, 0]), None)
        same("a definition of no name", lambda: editor.ask("Definition", "provideDefinition", DECK, [0, 0]), [])
    in_code(program.path, tried)


def try_outline(room, program):
    """An outline has each heading over the rows of its lines; what nothing reads, and lines that are skipped, are hints."""
    def tried(editor):
        editor.open(DECK, HEADED)
        same("hints", lambda: sorted([one["range"]["start"]["line"] + 1, one["message"]] for one in editor.tell("marks", uri=DECK) if one["severity"] == HINT), HINTS)
        told = editor.ask("DocumentSymbol", "provideDocumentSymbols", DECK)
        same("an outline", lambda: [[one["name"], *(each["name"] for each in one["children"])] for one in told], [["FIRST"], *BENEATH])
        rows = [each for one in told for each in [one, *one["children"]]]
        same("its lines", lambda: sorted(lines_of(rows)), sorted(HEADINGS + OUTLINED))
    in_code(program.path, tried)


def changed(text, edits):
    """A text with edits of its lines, of which none has a line end."""
    lines = text.splitlines()
    for one in sorted(edits, key=lambda one: one["range"]["start"]["character"], reverse=True):
        start, end = one["range"]["start"], one["range"]["end"]
        line = lines[start["line"]]
        lines[start["line"]] = line[: start["character"]] + one["newText"] + line[end["character"] :]
    return "".join(line + "\n" for line in lines)


def try_rename(room, program):
    """A rename changes each place of a name, and other fields keep their columns; why one is refused is shown."""
    def tried(editor):
        text = room.read("sum.cps")
        editor.open(DECK, text)
        is_served(editor)
        place = [45, text.splitlines()[45].index("SUM")]
        told = editor.ask("Rename", "prepareRename", DECK, place)
        same("what is renamed", lambda: (told["placeholder"], lines_of([told])), ("SUM", [46]))
        edits = editor.ask("Rename", "provideRenameEdits", DECK, place, "ADDER")["files"][DECK]
        same("a renamed text", lambda: changed(text, edits), renamed(text))
        same("a refusal", lambda: editor.answer("ask", provider="Rename", method="provideRenameEdits", given=[DECK, place, TAKEN]), {"error": REFUSAL})
    in_code(program.path, tried)


def folds(lines):
    """The lines that may be folded in a source without DUP and IF: runs of comments, and macros up to the line before ENDM; from 0."""
    found, begun = [], None
    for number, line in enumerate([*lines, ""]):
        if line[:1] != "*" and begun is not None:
            found += [{"start": begun, "end": number - 1, "kind": 1}] if begun < number - 1 else []
        begun = (number if begun is None else begun) if line[:1] == "*" else None
        if line[10:15] == "MACRO":
            end = next(at for at in range(number, len(lines)) if lines[at][10:14] == "ENDM")
            found.append({"start": number, "end": end - 1})
    return sorted(found, key=lambda one: one["start"])


def try_more(room, program):
    """What may be folded, what a macro takes, what words are, and what may be mended."""
    def tried(editor):
        text = room.read("sum.cps")
        lines = text.splitlines()
        editor.open(DECK, text)
        is_served(editor)
        same("foldings", lambda: editor.ask("FoldingRange", "provideFoldingRanges", DECK), folds(lines))
        told = editor.ask("SignatureHelp", "provideSignatureHelp", DECK, [26, lines[26].index(",") + 1])
        same("what a macro takes", lambda: (told["signatures"][0]["label"], told["activeParameter"]), ("TOTAL TABLE,LENGTH,WORD", 1))
        # in pieces of five, by the place in the legend of features.js
        data = list(editor.ask("DocumentSemanticTokens", "provideDocumentSemanticTokens", DECK)["data"].values())
        same("words of line 1", lambda: data[:10], [0, 10, 5, 0, 0, 0, 8, 3, 4, 1])
        same("lines that have words", lambda: sum(data[::5]), len(lines) - 1)
        editor.change(DECK, ([44, 9, 44, 10], "\t"))
        tab = {"range": {"start": {"line": 44, "character": 9}, "end": {"line": 44, "character": 10}}, "newText": " "}
        action, = editor.ask("CodeActions", "provideCodeActions", DECK, [44, 0, 44, 0], {"diagnostics": []})
        same("a tab is mended", lambda: action["edit"]["files"], {DECK: [tab]})
    in_code(program.path, tried)


def try_servers(room, program):
    """One server serves all sources, also those that were open before; texts of other kinds and older states aren't sent."""
    def tried(editor):
        is_served(editor)
        others = ["untitled:Untitled-1", "git:/decks/deck.cps?HEAD", "file:///decks/deck.txt"]
        editor.open(DECK, room.read("flags.cps"))
        editor.open(others[0], room.read("flags.cps"))
        editor.open(others[1], room.read("flags.cps"))
        editor.open(others[2], room.read("flags.cps"), language="plaintext")
        editor.has_marks(DECK, program)
        editor.has_marks(others[0], program)
        editor.change(others[2], ([0, 0, 0, 0], "X"))
        same("marks of other texts", lambda: [editor.marks(uri) for uri in others[1:]], [[], []])
        editor.tell("command", name="compass.restart")
        editor.has_marks(DECK, program)
        same("what is started", lambda: [(one["words"], one["ended"]) for one in editor.started()], [(["server"], 0), (["server"], None)])
        # two at once leave one server
        for path in program.path, program.path:
            editor.tell("configure", path=path)
        until(lambda: [one["ended"] for one in editor.started()] == [0, 0, 0, None], lambda: f"servers: {editor.started()}")
        editor.has_marks(DECK, program)
    in_code(program.path, tried)


def try_end(room, program):
    """The server ends when the extension does, with status 0, and nothing is shown."""
    def tried(editor):
        editor.open(DECK, room.read("flags.cps"))
        editor.has_marks(DECK, program)
        editor.tell("deactivate")
        same("how the server ended", lambda: [one["ended"] for one in editor.started()], [0])
        editor.shows()
    editor = Code(program.path)
    try:
        tried(editor)
    finally:
        editor.close()


def try_ends(room, program):
    """A server that ends by itself is started again, with all texts, but not more often than is told."""
    def tried(editor):
        editor.open(DECK, room.read("flags.cps"))
        for times in range(1, MOST_ENDS + 1):
            editor.has_marks(DECK, program)
            last = editor.started()[-1]["pid"]
            os.kill(last, signal.SIGKILL)
            same("how the server ended", lambda: editor.started()[times - 1]["ended"], "SIGKILL")
        until(lambda: len(editor.started()) == MOST_ENDS and not editor.providers() and not editor.marks(DECK),
              lambda: f"what is left: {editor.providers()}, {editor.marks(DECK)}")
        editor.shows(ENDS.format("the server ended by SIGKILL"))
        # what is typed meanwhile is sent as it is then
        editor.change(DECK, ([6, 20, 6, 21], "+"))
        editor.tell("command", name="compass.restart")
        editor.has_marks(DECK, program)
        is_served(editor)
    in_code(program.path, tried)


def try_choice(room, program):
    """A server that ends as soon as it begins is started so often, and again where that is chosen; so is one that writes no message."""
    ends, other = room.at("bin/ends"), room.at("bin/other")
    write_script(ends, f"#!/bin/sh\nif test -e {room.at('well')}; then exec {program.path} \"$@\"; fi\nexit 2\n")
    write_script(other, "#!/bin/sh\nprintf 'no message\\r\\n\\r\\n'\nexec sleep 60\n")

    def tried(editor):
        editor.open(DECK, room.read("flags.cps"))
        editor.shows(ENDS.format("the server ended by status 2"))
        same("how often it was started", lambda: len(editor.started()), MOST_ENDS)
        editor.tell("configure", path=other)
        editor.shows(ENDS.format("the server writes what is no message"))
        same("how often it was started", lambda: len(editor.started()), 2 * MOST_ENDS)
        editor.tell("choose", choice="Start")
        editor.tell("configure", path=ends)
        until(lambda: len(editor.started()) > 3 * MOST_ENDS, lambda: f"it isn't started again: {editor.started()}")
        room.write("well", "")
        editor.has_marks(DECK, program)
        editor.tell("forget")
    in_code(ends, tried)


def write_script(path, text):
    with open(path, "w", encoding="ascii") as file:
        file.write(text)
    os.chmod(path, 0o755)


def try_missing(room, program):
    """Where there is no program, or it is no server, a message says so; when compass.path is set to one, that is started."""
    missing, unreadable, other = room.at("bin/missing"), room.at("bin/unreadable"), room.at("bin/other")
    room.write("bin/unreadable", "")
    # it sends back what it is sent
    write_script(other, "#!/bin/sh\nexec cat\n")
    hint = "Put it into your PATH, or set compass.path to it."

    def tried(editor):
        editor.open(DECK, room.read("flags.cps"))
        editor.shows(f"COMPASS: There is no program {missing}. {hint}")
        editor.tell("choose", choice="Settings")
        editor.tell("configure", path=unreadable)
        editor.shows(f"COMPASS: {unreadable} can't be started: EACCES. {hint}", "workbench.action.openSettings")
        same("providers", editor.providers, {})
        editor.tell("choose", choice=None)
        editor.tell("configure", path=other)
        editor.shows(f"COMPASS: {other} refuses to begin: unknown method.")
        same("providers", editor.providers, {})
        editor.tell("configure", path=program.path)
        editor.has_marks(DECK, program)
    in_code(missing, tried)


RANGE = {"start": {"line": 0, "character": 1}, "end": {"line": 0, "character": 4}}
EDITS = [{"range": RANGE, "newText": "NEW"}]
# What a later server may tell: a capability, a method and its answer. What comes of it: a provider, its method, what is given beside the
# text, and the value.
Later = namedtuple("Later", "capability told method answer provider asked given value")
LATER = [
    Later("documentHighlightProvider", True, "documentHighlight", [{"range": RANGE, "kind": 3}, {"range": RANGE}],
          "DocumentHighlight", "provideDocumentHighlights", [[0, 2]], [{"range": RANGE, "kind": 2}, {"range": RANGE, "kind": 0}]),
    Later("foldingRangeProvider", True, "foldingRange", [{"startLine": 1, "endLine": 3, "kind": "comment"}, {"startLine": 5, "endLine": 6}],
          "FoldingRange", "provideFoldingRanges", [], [{"start": 1, "end": 3, "kind": 1}, {"start": 5, "end": 6}]),
    Later("documentFormattingProvider", True, "formatting", EDITS,
          "DocumentFormattingEdit", "provideDocumentFormattingEdits", [{"tabSize": 8}], EDITS),
    Later("documentRangeFormattingProvider", True, "rangeFormatting", EDITS,
          "DocumentRangeFormattingEdit", "provideDocumentRangeFormattingEdits", [[0, 0, 1, 0], {"tabSize": 8}], EDITS),
    Later("renameProvider", {"prepareProvider": True}, "rename",
          {"documentChanges": [{"textDocument": {"uri": DECK, "version": 1}, "edits": EDITS}]},
          "Rename", "provideRenameEdits", [[0, 2], "NEW"], {"files": {DECK: EDITS}}),
    Later("codeActionProvider", {"codeActionKinds": ["quickfix"]}, "codeAction",
          [{"title": "blanks", "kind": "quickfix", "edit": {"changes": {DECK: EDITS}}}],
          "CodeActions", "provideCodeActions", [[0, 0, 0, 1], {"diagnostics": [{"range": RANGE, "message": "M", "severity": 0}]}],
          [{"title": "blanks", "kind": {"value": "quickfix"}, "edit": {"files": {DECK: EDITS}}}]),
    Later("signatureHelpProvider", {"triggerCharacters": [" ", ","]}, "signatureHelp",
          {"signatures": [{"label": "SAi Aj", "parameters": [{"label": [4, 6]}]}], "activeParameter": 0},
          "SignatureHelp", "provideSignatureHelp", [[0, 2]],
          {"signatures": [{"label": "SAi Aj", "parameters": [{"label": [4, 6]}]}], "activeSignature": 0, "activeParameter": 0}),
    Later("semanticTokensProvider", {"legend": {"tokenTypes": ["macro"], "tokenModifiers": []}, "full": True, "range": True},
          "semanticTokens/full", {"data": [0, 1, 3, 0, 0]},
          "DocumentSemanticTokens", "provideDocumentSemanticTokens", [], {"data": {"0": 0, "1": 1, "2": 3, "3": 0, "4": 0}}),
]


def stand_in(room, answers, piece):
    """A stand-in with these answers, which writes pieces of this size; and a function that tells the messages which it has heard."""
    path, table, file = room.at("bin/stand_in"), room.at("table"), room.at("heard")
    room.write("table", json.dumps(answers))
    write_script(path, STAND_IN.format(python=sys.executable, table=table, heard=file, piece=piece))

    def heard(method):
        with open(file, encoding="ascii") as rows:
            return [one for one in map(json.loads, rows) if method in (None, one.get("method"))]
    return path, heard


def try_later(room, program):
    """What a later server can is registered and answered, and a refusal is shown for a rename alone."""
    refused = {"error": {"code": -32803, "message": "no name stands here"}}
    path, heard = stand_in(room, {
        "initialize": {"result": {"capabilities": {"textDocumentSync": 1, **{one.capability: one.told for one in LATER}}}},
        **{f"textDocument/{one.method}": {"result": one.answer} for one in LATER},
        "textDocument/prepareRename": refused, "textDocument/semanticTokens/range": refused}, 100)

    def tried(editor):
        editor.open(DECK, " ONE\n")
        until(lambda: "Rename" in editor.providers(), lambda: f"{editor.providers()}")
        for one in LATER:
            same(one.provider, lambda: editor.ask(one.provider, one.asked, DECK, *one.given), one.value)
        same("what makes the editor ask", lambda: editor.providers()["SignatureHelp"],
             [{"triggerCharacters": [" ", ","], "retriggerCharacters": []}])
        same("a refusal", lambda: editor.answer("ask", provider="Rename", method="prepareRename", given=[DECK, [0, 0]]),
             {"error": "no name stands here"})
        same("a quiet refusal",
             lambda: editor.ask("DocumentRangeSemanticTokens", "provideDocumentRangeSemanticTokens", DECK, [0, 0, 1, 0]), None)
        editor.change(DECK, ([0, 1, 0, 4], "TWO"))
        same("a rename of an older text",
             lambda: editor.answer("ask", provider="Rename", method="provideRenameEdits", given=[DECK, [0, 2], "NEW"]),
             {"error": "the text has changed meanwhile"})
    in_code(path, tried)
    methods = [one["method"] for one in heard(None) if "method" in one]
    same("how it begins", lambda: methods[:3], ["initialize", "initialized", "textDocument/didOpen"])
    same("how it ends", lambda: methods[-2:], ["shutdown", "exit"])
    same("a change", lambda: [one["params"]["contentChanges"] for one in heard("textDocument/didChange")], [[{"text": " TWO\n"}]])
    same("what is sent for an action", lambda: heard("textDocument/codeAction")[0]["params"]["context"]["diagnostics"],
         [{"range": RANGE, "message": "M", "severity": 1}])


def try_sent(room, program):
    """Marks of an older text aren't shown, those of this one are with all that they say, and what nobody knows is refused."""
    place = {"location": {"uri": DECK, "range": RANGE}, "message": "here \u2190"}
    mark = {"range": RANGE, "severity": 2, "code": "D", "source": "compass", "message": "twice", "tags": [1], "relatedInformation": [place]}

    def marks(version, *each):
        return {"method": "textDocument/publishDiagnostics", "params": {"uri": DECK, "version": version, "diagnostics": each}}
    sent = [{"method": "window/other", "params": {}}, {"id": "one", "method": "workspace/other"}, marks(1, mark)]
    path, heard = stand_in(room, {
        "initialize": {"result": {"capabilities": {"textDocumentSync": {"openClose": True, "change": 2}, "hoverProvider": True}}},
        "textDocument/didOpen": {"sends": sent},
        "textDocument/didChange": {"sends": [marks(1), marks(2, mark, mark), marks(1)]},
        "textDocument/hover": {"ends": True}}, 100_000)

    def tried(editor):
        editor.open(DECK, " ONE\n")
        shown = {"range": RANGE, "message": "twice", "severity": 1, "code": "D", "source": "compass", "tags": [1], "relatedInformation": [place]}
        same("marks", lambda: editor.tell("marks", uri=DECK), [shown])
        editor.change(DECK, ([0, 1, 0, 2], "O"), ([0, 3, 0, 4], "\u20ac"))
        same("marks", lambda: editor.tell("marks", uri=DECK), [shown, shown])
        same("providers", editor.providers, {"Hover": []})
        same("a hover of which the server dies", lambda: editor.ask("Hover", "provideHover", DECK, [0, 0]), None)
        is_served(editor)
        editor.open("file:///decks/deck.txt", "", language="plaintext")
        for uri in "file:///decks/deck.txt", DECK:
            editor.tell("close", uri=uri)
    in_code(path, tried)
    same("a refusal", lambda: next(one for one in heard(None) if one.get("id") == "one"),
         {"jsonrpc": "2.0", "id": "one", "error": {"code": -32601, "message": "unknown method"}})
    same("closed texts", lambda: [one["params"]["textDocument"]["uri"] for one in heard("textDocument/didClose")], [DECK])
    same("changes", lambda: [one["params"]["contentChanges"] for one in heard("textDocument/didChange")], [[
        {"range": {"start": {"line": 0, "character": 3}, "end": {"line": 0, "character": 4}}, "text": "\u20ac"},
        {"range": {"start": {"line": 0, "character": 1}, "end": {"line": 0, "character": 2}}, "text": "O"}]])


def try_keys(room, program):
    """The tab key makes blanks up to columns 11, 18 and 30, then to each eighth; and a name with a point is one word."""
    def tried(editor):
        is_served(editor)
        at = [[0, 0], [1, 9], [2, 10], [3, 17], [4, 28], [5, 29], [6, 40]]
        same("where blanks end", lambda: [column + 1 + len(text) for _, column, text in editor.tell("typed", name="compass.tab", at=at)],
             [11, 11, 18, 30, 30, 38, 46])
    in_code(program.path, tried)
    with open(os.path.join(FOLDER, "language-configuration.json"), encoding="utf-8") as file:
        pattern = json.load(file)["wordPattern"]
    same("words", lambda: re.findall(pattern, "F.STATUS  EQU  1240B+A=B,CH"), ["F.STATUS", "EQU", "1240B", "A=B", "CH"])


def try_package(room, program):
    """Each file that package.json names is there, and the grammar is of its language."""
    def read(name):
        with open(os.path.join(FOLDER, name), encoding="utf-8") as file:
            return json.load(file)
    package = read("package.json")
    offers = package["contributes"]
    for language in offers["languages"]:
        read(language["configuration"])
    for grammar in offers["grammars"]:
        same("the scope of the grammar", lambda: read(grammar["path"])["scopeName"], grammar["scopeName"])
    known = {each["command"] for each in offers["commands"]}
    same("commands of keys", lambda: {each["command"] for each in offers["keybindings"]} - known, set())


TRIES = [try_package, try_marks, try_answers, try_outline, try_rename, try_more, try_servers, try_end, try_ends, try_choice, try_missing, try_later, try_sent, try_keys]


def try_all(program):
    """The status of all tries."""
    return run("vscode", ["node"], TRIES, program)
