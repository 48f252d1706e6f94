"""The sections of a text: the lines of each leaf, behind the gutters of the containers that are open there.

`Mapping` is a fold over the blocks. What the sections look like at a width is in `page`.
"""
from __future__ import annotations

import re
from bisect import bisect_left, bisect_right
from collections.abc import Iterator
from dataclasses import dataclass, field, replace

from .blocks import Node, cells_of, lines_of, read_blocks, runs_of
from .html import define, definitions, text_of_leaf
from .inlines import Definitions
from .leaves import cell_runs, compounds, expanded, html_leaves, links_of, runs_of_leaf
from .lines import CODE, EMPTY, PARAGRAPH, Align, Composite, Compound, HorizontalRule, Line, Normal, TableRow, TableRule, header, paragraph
from .provisional import provided
from .steady import steady

ALIGN = {"": Align.UNSPECIFIED, "left": Align.LEFT, "center": Align.CENTER, "right": Align.RIGHT}


# ------------------------------------------------------------------ gutters


@dataclass(frozen=True)
class Gutter:
    """What a container shows: `first` in front of its first row, `rest` in front of all others. Both have the same columns. `name` is how rows of tests
    have it, `term` how theorems do."""

    name: str
    term: str
    first: str
    rest: str

    @property
    def columns(self) -> int:
        return len(self.first)

    @property
    def hangs(self) -> bool:
        """It is an item's, so it is blank but in front of the first row."""
        return self.first != self.rest


def hanging(name: str, term: str, sign: str) -> Gutter:
    return Gutter(name, term, sign + " ", " " * (len(sign) + 1))


def number(value: int) -> Gutter:
    return hanging(f"{value}.", f"Number {value}", f"{value}.")


def alert_bar(word: str) -> Gutter:
    return Gutter(f"|{word.lower()}", f"AlertBar {word.capitalize()}", BAR.first, BAR.rest)


BAR = Gutter("|", "Bar", "▐ ", "▐ ")
BULLET = hanging("*", "Bullet", "•")
OPEN = hanging("[ ]", "Task false", "☐")
DONE = hanging("[x]", "Task true", "☑")
CODE_SIDES = Gutter("=", "Code", "  ", "  ")


@dataclass(frozen=True)
class Section:
    """Lines behind gutters, the outermost first; the last `fresh` of these begin with it. A table may be shown as a list, whose items have the bullet.
    Of code in a fence `fence` has what stands behind the fence, and the lines of the source."""

    gutters: list[Gutter]
    fresh: int
    lines: list[Line]
    bullet: Gutter = BULLET
    fence: tuple[str, ...] = ()

    @property
    def items(self) -> list[Gutter] | None:
        """What the items of a table's list are behind."""
        return self.gutters + [self.bullet] if isinstance(self.lines[0], TableRule) else None


# ------------------------------------------------------------------ from blocks to sections

TASK = re.compile(r"\[([ xX])\][ \t]+(?=[^ \t])")
ALERT = re.compile(r"\[!(NOTE|TIP|IMPORTANT|WARNING|CAUTION)\][ \t]*\Z", re.I | re.A)
LARGE = ("head", "fence", "code", "table", "rule")


@dataclass
class Open:
    """A container that is open, and its gutter."""

    node: Node
    gutter: Gutter


@dataclass
class Mapping:
    """`open` are the containers that are open; of the last `fresh` nothing is shown yet. `last` is the leaf that was shown last, and the containers that
    it was in. With `streamed`, a leaf knows the definitions up to it alone, as in a text that comes in pieces, and for now those that it names by
    their shape."""

    source: str
    streamed: bool = False
    sections: list[Section] = field(default_factory=list)
    links: list[tuple[int, str]] = field(default_factory=list)
    open: list[Open] = field(default_factory=list)
    fresh: int = 0
    last: tuple[Node, list[Open]] | None = None

    def __post_init__(self) -> None:
        doc = read_blocks(self.source)
        self.defs = {} if self.streamed else definitions(doc)
        self.blank_lines = blank_lines(self.source, doc)
        self.walk(doc)

    # ---- containers

    def walk(self, node: Node) -> None:
        for child in runs_of(node.children):
            if isinstance(child, list):
                for k, item in enumerate(child):
                    self.container(item, number(child[0].number + k) if item.marker in ".)" else BULLET)
            elif child.kind == "quote":
                self.container(child, BAR)
            else:
                self.show(child)

    def container(self, node: Node, gutter: Gutter) -> None:
        self.open.append(Open(node, gutter))
        self.fresh += 1
        self.walk(node)
        if self.fresh and node.kind == "item":  # nothing in it is shown, so its gutter is alone in a row
            self.put(Node("item", node.first, node.first), [EMPTY])
        self.open.pop()
        self.fresh = max(0, self.fresh - 1)

    # ---- leaves

    def show(self, node: Node) -> None:
        if node.kind == "def":
            define(self.defs, node)
        elif node.kind == "html":
            for level, rows, links in html_leaves(node.lines):
                kind = header(level) if level else PARAGRAPH
                self.put(replace(node, kind="head" if level else "html"), [Normal(Composite(kind, compounds(r))) for r in rows], links)
        elif node.kind == "para" and self.fresh:
            front, rest = self.sign(node)
            lines = front + self.lines_of(rest)
            self.put(rest, lines)
        else:
            self.put(node, self.lines_of(node))

    def sign(self, node: Node) -> tuple[list[Line], Node]:
        """What a container's first paragraph begins with that isn't text, and the rest: the box of a task, which is its item's gutter, or the word of an
        alert, which is a row of its own."""
        inner = self.open[-1]
        box = TASK.match(node.lines[0]) if inner.gutter is BULLET else None
        if box:
            inner.gutter = OPEN if box.group(1) == " " else DONE
            return [], replace(node, lines=[node.lines[0][box.end():]] + node.lines[1:])
        alert = ALERT.match(node.lines[0]) if inner.gutter is BAR else None
        if alert:
            inner.gutter = alert_bar(alert.group(1))
            return [paragraph([Compound(alert.group(1).upper(), bold=True)])], replace(node, lines=node.lines[1:])
        return [], node

    def lines_of(self, node: Node) -> list[Line]:
        """What a leaf shows: none where it isn't shown."""
        if node.kind in ("para", "head"):
            kind = PARAGRAPH if node.kind == "para" else header(node.level)
            return [Normal(Composite(kind, compounds(r))) for r in runs_of_leaf(text_of_leaf(node), self.known(node))]
        if node.kind in ("fence", "code"):
            return [Normal(Composite(CODE, [Compound(expanded(x))] if x else [])) for x in node.lines]
        if node.kind == "table":
            return self.table_lines(node)
        return [HorizontalRule()] if node.kind == "rule" else []

    def table_lines(self, node: Node) -> list[Line]:
        rule = TableRule([ALIGN[a] for a in node.aligns])
        defs = self.known(node)
        head, *rows = [self.table_row(line, len(node.aligns), k == 0, defs) for k, line in enumerate(node.lines)]
        return [rule, head, *([rule] if rows else []), *rows, rule]

    def table_row(self, line: str, most: int, bold: bool, defs: Definitions) -> TableRow:
        return TableRow([Composite(PARAGRAPH, compounds(cell_runs(runs_of_leaf(t, defs), bold))) for t in cells_of(line)[:most]])

    def known(self, node: Node) -> Definitions:
        """The definitions by which a leaf is shown."""
        return provided(self.defs, "\n".join(node.lines)) if self.streamed else self.defs

    # ---- sections

    def put(self, node: Node, lines: list[Line], links: list[str] | None = None) -> None:
        """A leaf's lines, behind the gutters of the open containers. Before them is a blank row where one is wanted, behind those that the last leaf was in
        too, up to the last bar. A leaf without lines isn't shown."""
        if not lines:
            return
        if self.last and self.apart(self.last[0], node):
            both = [a.gutter for a, b in zip(self.open, self.last[1]) if a is b]
            while both and both[-1].hangs:
                both.pop()
            self.sections.append(Section(both, 0, [EMPTY]))
        self.links += [(len(self.sections), x) for x in (links_of(node, self.known(node)) if links is None else links)]
        sides = [CODE_SIDES] if node.kind in ("fence", "code") else []
        fence = (node.info, *node.lines) if node.kind == "fence" else ()
        self.sections.append(Section([x.gutter for x in self.open] + sides, self.fresh + len(sides), lines, fence=fence))
        self.fresh = 0
        self.last = node, list(self.open)

    def apart(self, a: Node, b: Node) -> bool:
        """Whether a blank row is between two neighbours that are shown: where a blank line is, and beside headings, code, tables and rules."""
        between = bisect_left(self.blank_lines, b.first) - bisect_right(self.blank_lines, a.last)
        return between > 0 or a.kind in LARGE or b.kind in LARGE


def blank_lines(source: str, doc: Node) -> list[int]:
    """The blank lines, but for quote signs, those of html apart. One in a quote counts where the next block is in that quote too."""
    blocks = list(blocks_in(doc))
    inside = {n for x in blocks if x.kind == "html" for n in range(x.first, x.last + 1)}
    ends: dict[int, int] = {}
    for x in blocks:  # an inner quote comes after those around it
        if x.kind == "quote":
            ends.update((n, x.last) for n in range(x.first, x.last + 1))
    starts = sorted({x.first for x in blocks})

    def counts(n: int) -> bool:
        at = bisect_right(starts, n)
        return n not in ends or at < len(starts) and starts[at] <= ends[n]

    return [n for n, x in enumerate(lines_of(source), 1) if not x.strip(" \t>") and n not in inside and counts(n)]


def blocks_in(node: Node) -> Iterator[Node]:
    for child in node.children:
        yield child
        yield from blocks_in(child)


# ------------------------------------------------------------------ of a whole text


def behind_mark(source: str) -> str:
    """A text without the byte order mark at its front."""
    return source.removeprefix("\ufeff")


def mapping_of(source: str, streamed: bool = False) -> Mapping:
    return Mapping(behind_mark(source), streamed)


def steadied(line: Line) -> Line:
    """A line, each of whose runs is steady by itself."""
    def one(composite: Composite) -> Composite:
        return replace(composite, compounds=[replace(c, src=steady(c.src)) for c in composite.compounds])

    if isinstance(line, Normal):
        return Normal(one(line.composite))
    return TableRow([one(cell) for cell in line.cells]) if isinstance(line, TableRow) else line


def sections_of(source: str, streamed: bool = False) -> list[Section]:
    """The sections of a text, steady."""
    return [replace(s, lines=[steadied(x) for x in s.lines]) for s in mapping_of(source, streamed).sections]


def links_in(source: str) -> list[tuple[int, str]]:
    """The links of a text: the number of a section, and where each leads."""
    return mapping_of(source).links
