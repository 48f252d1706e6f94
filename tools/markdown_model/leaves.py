"""What a leaf shows: the runs of its rows, those of html, lines of code, and where links lead."""
from __future__ import annotations

import re
from collections.abc import Iterator
from dataclasses import dataclass

from .blocks import BLOCK_TAGS, Node, cells_of
from .html import text_of_leaf
from .inlines import ENTITY, Inlines, Piece, entity_text
from .lines import Compound


class Address:
    """A link's: two links may lead to the same place."""

    def __init__(self, text: str):
        self.text = text


class Picture:
    """Two pictures may say the same."""


@dataclass
class Run:
    text: str
    bold: bool = False
    italic: bool = False
    code: bool = False
    strike: bool = False
    link: Address | None = None
    picture: Picture | None = None

    def same(self, o: Run) -> bool:
        flags = (self.bold, self.italic, self.code, self.strike) == (o.bold, o.italic, o.code, o.strike)
        return flags and self.link is o.link and self.picture is o.picture


TURNS = "\u202a\u202b\u202c\u202d\u202e\u2066\u2067\u2068\u2069"  # what turns the direction


def printable(s: str) -> str:
    """A text that a terminal doesn't obey: an entity may be an escape, a tab or a newline too. The library's `printable`, for one character
    after the other."""
    def one(c: str) -> str:
        if c in "\t\n":
            return " "
        if c < " " or c == "\x7f":
            return "\u2421" if c == "\x7f" else chr(0x2400 + ord(c))
        return "\ufffd" if c < "\xa0" and c > "\x7f" or c in TURNS else c
    return "".join(map(one, s))


Row = list[Run]


FLAG_OF = {"b": "bold", "strong": "bold", "i": "italic", "em": "italic", "s": "strike", "del": "strike", "code": "code", "kbd": "code", "tt": "code", "samp": "code"}


class Shown:
    """The rows of a leaf so far, each a list of runs whose neighbours differ, and what is on: flags by tags and by pairs of marks, each counted, the links
    and images of brackets that are open, and the link that a tag has begun. A link of brackets or an address comes before one of a tag. What is said of
    a picture has the link around it and no other flag, and a break in it is a space; tags in it change nothing. Of images in one another the outermost is
    the picture."""

    def __init__(self) -> None:
        self.rows: list[Row] = [[]]
        self.marks = {"bold": 0, "italic": 0, "strike": 0}
        self.tags = {"bold": 0, "italic": 0, "strike": 0, "code": 0}
        self.links: list[Address | None] = []  # of the open links and images: the address of the link that they are in
        self.images: list[Picture | None] = []  # of the same: the picture that they are or are in
        self.tag_link: Address | None = None
        self.addresses: list[str] = []  # of all links

    def put(self, text: str, code: bool = False, link: Address | None = None, picture: Picture | None = None) -> None:
        text = printable(text)
        if not text:
            return
        picture = self.images[-1] if self.images and self.images[-1] else picture
        around = self.links[-1] if self.links and self.links[-1] is not None else None if picture else link
        run = Run(text, link=around or self.tag_link, picture=picture)
        if not picture:
            run.bold, run.italic, run.strike = (self.tags[k] + self.marks[k] > 0 for k in ("bold", "italic", "strike"))
            run.code = code or self.tags["code"] > 0
        row = self.rows[-1]
        if row and row[-1].same(run):
            row[-1].text += text
        else:
            row.append(run)

    def cut(self) -> None:
        if self.images and self.images[-1]:
            self.put(" ")
        else:
            self.rows.append([])

    def tag(self, text: str) -> None:
        """A tag, which may be an image, or say something of the text behind it."""
        m = MARKUP.match(text)
        name = (m.group(3) or "").lower() if m else ""
        said = image_text(text)
        if said is not None:
            self.put(said, picture=Picture())
            return
        link = None
        if name == "a" and not m.group(2):
            href = attribute(m.group(4), "href")
            if href:
                link = Address(printable(href))
                self.addresses.append(link.text)
        if self.images and self.images[-1]:
            return
        if name in FLAG_OF:
            flag = FLAG_OF[name]
            self.tags[flag] = max(0, self.tags[flag] + (-1 if m.group(2) else 1))
        elif name == "a":
            self.tag_link = link

    def trimmed(self) -> list[Row]:
        """Empty rows at the leaf's ends aren't shown: none is left of a leaf that shows nothing."""
        return without_empty_ends([trim(r) for r in self.rows])


def shown_of_leaf(s: str, defs: dict) -> Shown:
    """What a leaf shows. It is cut at hard breaks."""
    shown = Shown()
    of_mark = {"em": "italic", "strong": "bold", "del": "strike"}
    reader = Inlines(s, defs)
    reader.bare = True
    found = reader.read()
    for k, p in enumerate(found):
        if p.kind == "text":
            shown.put(p.text)
        elif p.kind in ADDRESSES:
            shown.addresses.append(printable(address(p)))
            shown.put(p.text, link=Address(address(p)))
        elif p.kind == "code":
            shown.put(p.text, True)
        elif p.kind == "html":
            if re.match(r"</?br(?![A-Za-z0-9-])", p.text, re.I):
                shown.cut()
            else:
                shown.tag(p.text)
        elif p.kind == "break":
            shown.cut()
        elif p.kind == "soft":
            shown.put(" ")
        elif p.kind == "run":
            for t in p.before:
                shown.marks[of_mark[t]] -= 1
            shown.put(s[p.start] * p.count)
            for t in p.after:
                shown.marks[of_mark[t]] += 1
        elif p.tag is None:
            shown.put(s[p.start:p.start + (2 if s[p.start] == "!" else 1)])
        elif p.kind == "open":
            links, images = shown.links, shown.images
            image, inside = p.tag[0] == "image", images[-1] if images else None
            links.append(links[-1] if links and (image or inside) else None if image or inside else Address(p.tag[1]))
            images.append(inside or (Picture() if image else None))
        else:
            if p.tag[0] == "image" and found[k - 1].kind == "open" and found[k - 1].tag is p.tag:
                shown.put(file_name(p, s))
            if p.tag[0] == "link":
                shown.addresses.append(printable(p.tag[1]))
            shown.links.pop()
            shown.images.pop()
    return shown


def runs_of_leaf(s: str, defs: dict) -> list[Row]:
    return shown_of_leaf(s, defs).trimmed()


def file_name(p: Piece, s: str) -> str:
    """What an image says that has nothing between its brackets: the last part of its address's path, if that stands in parentheses behind it."""
    inline = p.end > p.start + 1 and s[p.start + 1] == "("
    return file_of(p.tag[1]) if inline else ""


def file_of(address_text: str) -> str:
    return re.split("[?#]", address_text)[0].rpartition("/")[2]


def without_empty_ends(rows: list[Row]) -> list[Row]:
    filled = [k for k, row in enumerate(rows) if row]
    return rows[filled[0]:filled[-1] + 1] if filled else []


ADDRESSES = ("uri", "email", "bare", "mail")


def address(p: Piece) -> str:
    """Where a bare address leads, or one in angle brackets."""
    return ("mailto:" if p.kind in ("email", "mail") else "http://" if p.kind == "bare" and p.text[:4].lower() == "www." else "") + p.text


def links_of_leaf(s: str, defs: dict) -> list[str]:
    """Where the links of a leaf lead, in the order of their closing brackets, their addresses and their tags."""
    return shown_of_leaf(s, defs).addresses


def trim(row: Row) -> Row:
    """A row without the spaces at its ends."""
    while row and not row[0].code and not row[0].text.lstrip(" "):
        row.pop(0)
    if row and not row[0].code:
        row[0].text = row[0].text.lstrip(" ")
    while row and not row[-1].code and not row[-1].text.rstrip(" "):
        row.pop()
    if row and not row[-1].code:
        row[-1].text = row[-1].text.rstrip(" ")
    return row


def cell_runs(rows: list[Row], bold: bool) -> Row:
    """The runs of a cell that a leaf of these rows would be: it has one row, so a break is a space. The head is bold, and neighbours that don't differ
    any more are joined."""
    out: Row = []
    for r in [x for k, row in enumerate(rows) for x in ([Run(" ")] if k else []) + row]:
        r.bold = r.bold or bold
        if out and out[-1].same(r):
            out[-1].text += r.text
        else:
            out.append(r)
    return out


def compounds(row: Row) -> list[Compound]:
    return [Compound(r.text, r.bold, r.italic, r.code, r.strike, r.link and r.link.text, r.picture is not None) for r in row]


ATTRIBUTE = r"""[ \t\n]+([A-Za-z_:][A-Za-z0-9_.:-]*)(?:[ \t\n]*=[ \t\n]*(?:"([^"]*)(?:"|\Z)|'([^']*)(?:'|\Z)|([^ \t\n"'=<>`]+))?)?"""
ATTRIBUTES = re.compile("(?:" + re.sub(r"\((?!\?)", "(?:", ATTRIBUTE) + ")*")
MARKUP = re.compile(r"<!--.*?(?:-->|\Z)|<\?.*?(?:\?>|\Z)|<!\[CDATA\[.*?(?:\]\]>|\Z)|<![A-Za-z].*?(?:>|\Z)|<(script|style)(?=[ \t\n/>]).*?(?:(?=</\1[ \t\n/>])|\Z)"
                    rf"|<(/)?([A-Za-z][A-Za-z0-9-]*)(?=[ \t\n/>])((?(2)|{ATTRIBUTES.pattern}))[^>]*(?:>|\Z)", re.S | re.I)
CELL_TAGS = {"td", "th"}
CUTTING_TAGS = BLOCK_TAGS - CELL_TAGS | {"br", "pre"}
BLANKS = re.compile("[ \t\n]+")


def decoded(s: str) -> str:
    return ENTITY.sub(entity_text, s)


def attribute(attributes: str, name: str) -> str | None:
    """The first of this name, if it says something else than blanks."""
    found = next((a for a in re.finditer(ATTRIBUTE, attributes) if a.group(1).lower() == name), None)
    return decoded(BLANKS.sub(" ", found.group(2) or found.group(3) or found.group(4) or "").strip(" ")) or None if found else None


def image_text(tag: str) -> str | None:
    """What an image's tag says, or the name of its file; None of all others."""
    m = MARKUP.match(tag)
    if not m or m.group(2) or (m.group(3) or "").lower() != "img":
        return None
    source = attribute(m.group(4), "src")
    return attribute(m.group(4), "alt") or (file_of(source) if source else None)


HEADING = re.compile(r"h[1-6]\Z")


def html_leaves(lines: list[str]) -> Iterator[tuple[int, list[Row], list[str]]]:
    """The leaves of a block of html: each tag of a heading begins another one. Of each its level, or 0, its rows, and where its links lead. Block tags cut
    rows. Blanks that meet are one space, with the flags where the first stands, and none is in front of a row. Comments, scripts and tags without an end
    go on to the end of the text."""
    s = "\n".join(lines)
    level, shown, begun, gapped, at = 0, Shown(), False, False, 0

    def gap() -> None:
        nonlocal gapped
        if begun and not gapped:
            shown.put(" ")
            gapped = True

    for m in list(MARKUP.finditer(s)) + [None]:
        for k, word in enumerate(BLANKS.split(s[at:m.start() if m else len(s)])):
            if k > 0:
                gap()
            if word:
                shown.put(decoded(word))
                begun, gapped = True, False
        if m is None:
            break
        at = m.end()
        name = (m.group(3) or "").lower()
        if HEADING.match(name):
            yield level, shown.trimmed(), shown.addresses
            level, shown, begun, gapped = 0 if m.group(2) else int(name[1]), Shown(), False, False
        elif name in CUTTING_TAGS:
            if begun:
                shown.cut()
            begun = gapped = False
        elif name in CELL_TAGS:
            gap()
        else:
            shown.tag(m.group())
            if image_text(m.group()) is not None:
                begun, gapped = True, False
    yield level, shown.trimmed(), shown.addresses


def expanded(s: str) -> str:
    """A line of code: tabs as spaces up to the next fourth column; a character is a column."""
    out = ""
    for ch in s:
        out += " " * (4 - len(out) % 4) if ch == "\t" else printable(ch)
    return out


def links_of(node: Node, defs: dict) -> list[str]:
    """Where the links of a leaf lead, those of a table cell by cell."""
    if node.kind in ("para", "head"):
        return links_of_leaf(text_of_leaf(node), defs)
    if node.kind == "table":
        return [x for line in node.lines for t in cells_of(line)[:len(node.aligns)] for x in links_of_leaf(t, defs)]
    return []
