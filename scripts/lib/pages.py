"""Pages of sources: read as XML, and compared with the four texts and with what a check tells."""
import html
import re
import xml.etree.ElementTree as tree

PARTS = {"listing": "listing", "words": "binary", "symbols": "symbols", "flags": "flags"}
NOTES = ("h2", "small")


class Fault(Exception):
    pass


def local(element):
    """The name of an element, without that of its space."""
    return element.tag.rsplit("}", 1)[-1]


def said(element):
    """The text of an element beside its notes."""
    text = element.text or ""
    for inner in element:
        if local(inner) not in NOTES:
            text += said(inner)
        text += inner.tail or ""
    return text


def causes_in(told):
    """The letter and the words of each cause that a check tells."""
    return sorted(" ".join(found) for found in re.findall(r"^[^:\n]*:\d+:\d+: error: ([A-Z]): (.*)$", told, re.M))


def defining_lines(symbols):
    """The first line that defines each symbol, by the cross-reference; 0 where none does."""
    return {row[:8].rstrip(): row[30:].split()[0] for row in symbols.splitlines()}


def check_sections(page, root, texts):
    for identifier, part in PARTS.items():
        found = [section for section in root.iter() if local(section) == "section" and section.get("id") == identifier]
        if len(found) != 1:
            raise Fault(f"{len(found)} sections {identifier}")
        if said(found[0]) != texts[part]:
            raise Fault(f"the section {identifier} says another text")
        written = re.search(rf'<section id="{identifier}">(.*?)</section>', page, re.S)[1]
        bare = re.sub(r"<(h2|small)\b.*?</\1>", "", written, flags=re.S)
        if html.unescape(re.sub(r"<[^<>]*>", "", bare)) != texts[part]:
            raise Fault(f"without its tags the section {identifier} is another text")


def notes_in(root, identifier, style):
    """The notes of a style in a section."""
    section = next(section for section in root.iter() if local(section) == "section" and section.get("id") == identifier)
    return ["".join(note.itertext()) for note in section.iter() if local(note) == "small" and note.get("class") == style]


def check_notes(root, texts, causes):
    title = next("".join(element.itertext()) for element in root.iter() if local(element) == "title")
    if title != (texts["binary"].split("\n", 1)[0].removeprefix("IDENT").strip() or "COMPASS listing"):
        raise Fault(f"the title is {title!r}")
    for section in (section for section in root.iter() if local(section) == "section" and section.get("id") not in PARTS):
        if said(section):
            raise Fault(f"the section {section.get('id')} says something")
    for section in ("listing", "flags"):
        told = sorted(re.sub(r" \(\d+ times\)$", "", note) for note in notes_in(root, section, "c"))
        if told != causes:
            differs = set(told) ^ set(causes)
            raise Fault(f"the section {section} tells other causes than a check: {sorted(differs)[:3] or len(told)}")
    counts = [int(note[30:39]) for note in notes_in(root, "instructions", "t")]
    codes = sum(1 for row in texts["listing"].split("\n") if re.match(r"[0-7]{5}([0-7]{5})?$|[0-7]{4}( [0-7]{4})?$", row[16:37].strip()) and row[36:44].strip()
                and not re.match(r" ?(\S+)? +(VFD|CON|DATA|DIS)\b", row[44:], re.I))
    if sum(counts) != codes:
        raise Fault(f"{sum(counts)} instructions are told, and the listing has {codes}")


def check_links(root, texts):
    identifiers = [element.get("id") for element in root.iter() if element.get("id") is not None]
    twice = {name for name in identifiers if identifiers.count(name) > 1} if len(identifiers) < 2_000 else len(identifiers) - len(set(identifiers))
    if twice:
        raise Fault(f"identifiers that come twice: {twice}")
    known, lines = set(identifiers), defining_lines(texts["symbols"])
    for element in (element for element in root.iter() if element.get("id") in lines or re.fullmatch(r"w\d+", element.get("id") or "")):
        name, row = element.get("id"), said(element)
        if name in lines and row.split(" ", 1)[0] != name or name not in lines and row.split(" ", 1)[0].lstrip("0") != name[1:].lstrip("0"):
            raise Fault(f"the row at {name!r} is {row!r}")
    for element in (element for element in root.iter() if (element.get("id") or "").startswith("b-")):
        if local(element) != "small" or said(element).split(" ", 1)[0] != element.get("id")[2:]:
            raise Fault(f"the block at {element.get('id')!r} is {said(element)!r}")
    words = {row.split(" ", 1)[0].lstrip("0") or "0" for row in texts["binary"].splitlines()[1:]}
    if {name[1:] for name in known if re.fullmatch(r"w\d+", name)} != words:
        raise Fault("the words that can be led to aren't those of the binary text")
    for link in (element for element in root.iter() if local(element) == "a"):
        target, words = link.get("href", ""), said(link)
        if not target.startswith("#") or target[1:] not in known:
            raise Fault(f"the link {words!r} leads to {target!r}")
        if words in lines and target[1:].isdigit() and target[1:] != lines[words]:
            raise Fault(f"the symbol {words} leads to line {target[1:]}, and line {lines[words]} defines it")


def codes_by_word(listing):
    """By each address the codes of its rows in their order, each with the number of its line."""
    codes, line = {}, ""
    for row in listing.split("\n"):
        line = row[37:43].strip() if row[37:43].strip().isdigit() else line
        address, code = row[9:15].strip(), row[16:37].strip()
        if address and code:
            codes.setdefault(address.lstrip("0") or "0", []).append((code, line))
    return codes


def lines_of_zeros(listing):
    """The numbers of lines of BSSZ, whose words have no row of their own."""
    return {row[37:43].strip() for row in listing.split("\n") if re.search(r"\bBSSZ\b", row[43:], re.IGNORECASE)}


def check_makers(root, texts):
    """Where a word begins with the codes of its rows, the digits of the last lead to its line. Bits of a VFD may end in a digit, which leads to the line behind."""
    codes, zeros = codes_by_word(texts["listing"]), lines_of_zeros(texts["listing"])
    for word in (element for element in root.iter() if re.fullmatch(r"w\d+", element.get("id") or "")):
        here, digits = codes.get(word.get("id")[1:], []), said(word).split(" ", 1)[1].strip()
        if not here or not digits.startswith("".join(code for code, _ in here)) or any(len(code) not in (4, 5, 10, 20) for code, _ in here):
            continue
        code, line = here[-1]
        pieces = [(said(link), link.get("href")[1:]) for link in word.iter() if local(link) == "a"][1:]
        if any(target in zeros for _, target in pieces):
            continue
        if not any((code in piece or code[:-1] == piece) and line == target for piece, target in pieces):
            raise Fault(f"no digits of the word {word.get('id')} lead to line {line}, which has the code {code}")


def check_codes(root, texts):
    """A code is shifted by as many digits as its word has before it, where these are the codes of the rows before it. The operand of a later row stands in its statement."""
    section = next(section for section in root.iter() if local(section) == "section" and section.get("id") == "listing")
    shown = [element for element in section.iter() if local(element) in ("div", "summary") and any(local(inner) == "span" for inner in element)]
    rows = [row for row in texts["listing"].split("\n") if row]
    if shown and local(shown[-1]) != "div" or len(shown) != len(rows):
        raise Fault(f"{len(shown)} rows are shown of {len(rows)}")
    before, words = {}, {row.split(" ", 1)[0]: row.split(" ", 1)[1] for row in texts["binary"].split("\n")[1:] if " " in row}
    statement = ""
    for element, row in zip(shown, rows):
        address, code, text = row[9:15].strip(), row[16:37].strip(), row[44:]
        statement = text or statement
        shift = next((int(part.get("class")[1:]) for part in element.iter() if re.fullmatch(r"s\d+", part.get("class") or "")), 0)
        note = next((part.text or "" for part in element if local(part) == "small" and part.get("class") == "o"), "")
        if statement[len(note) - len(note.lstrip()) :][: len(note.strip())] != note.strip() or text and note:
            raise Fault(f"the operand {note!r} doesn't stand in {statement!r}")
        if not text and code and address and not note and re.match(r".? ?(\S+)? +(VFD|CON|DATA)\b", statement, re.I):
            raise Fault(f"no operand is told of the row {row!r}")
        if not address or not code or " " in code:
            continue
        so_far = before.setdefault(address, "")
        before[address] += code
        if so_far and len(code) in (5, 10) and words.get(address, "").startswith(before[address]) and len(so_far) % 5 == 0 and shift != len(so_far):
            raise Fault(f"the code {code} at {address} stands behind {shift} digits, and its word has {len(so_far)} before it")


def check_meant(root):
    """What is meant is a part of a row that has a flag, or of one behind which such a row of its statement comes."""
    for parent in root.iter():
        rows = list(parent)
        for at, row in enumerate(rows):
            if any(part.get("class") == "u" for part in row.iter()) and local(row) in ("div", "summary") and any(local(inner) == "span" for inner in row):
                later = [other for other in rows[at:] if local(other) in ("div", "summary")]
                if not any(other.get("class") == "bad" for other in later):
                    raise Fault(f"something is meant in {said(row)!r}, which has no flag")


def check_page(page, texts, causes):
    """Ends with a fault where a page isn't one of these texts."""
    try:
        root = tree.fromstring(page)
    except tree.ParseError as error:
        raise Fault(f"no XML: {error}") from error
    if re.search(r"<script|(?:src|href)=\"(?!#)|url\(", page):
        raise Fault("a script, or an address of another page")
    check_sections(page, root, texts)
    check_links(root, texts)
    check_makers(root, texts)
    check_codes(root, texts)
    check_meant(root)
    check_notes(root, texts, causes)
