"""The rows of a text's page at a width, in a skin without styles: python3 -m markdown_model.page [--sections] WIDTH FILE ..

WIDTH is a number or `none`. With --sections it writes the sections that are shown there, a table that has no room as a list.
"""
from __future__ import annotations

import argparse
import gzip
from dataclasses import replace
from pathlib import Path

from . import dump
from .leaf_rows import Cells, Row, columns, fits_as_table, layout, placed, table_of
from .lines import EMPTY, Align, Compound, HorizontalRule, Line, Normal, TableRule, paragraph
from .sections import BULLET, CODE_SIDES, DONE, OPEN, Gutter, Section, hanging, sections_of
from .words import pictured, worded

PageRow = tuple[str, Row]
LOOKS = ("page", "boxes", "ascii", "plain")
ASCII = {gutter: hanging(gutter.name, gutter.term, sign) for gutter, sign in ((BULLET, "*"), (OPEN, "[ ]"), (DONE, "[x]"))}


BELOW = {1: Gutter("below 1", "Below 0", "", ""), 2: Gutter("below 2", "Below 1", "", "")}
ROUND = str.maketrans("┌┐└┘", "╭╮╰╯")


def gutters_shown(width: int | None, gutters: list[Gutter]) -> list[Gutter]:
    """The last gutters, as many as take less than half of the width."""
    count = taken = 0
    while count < len(gutters):
        taken += gutters[-1 - count].columns
        if width is not None and 2 * taken >= width:
            break
        count += 1
    return gutters[len(gutters) - count:]


def room(width: int | None, gutters: list[Gutter]) -> int | None:
    return None if width is None else width - sum(g.columns for g in gutters_shown(width, gutters))


def unfolded(width: int | None, section: Section, beside: int = 0) -> list[Section]:
    """A table whose longest words don't fit side by side in its room, with so many blanks at each side of a cell, is a list: an item for each row, in it a
    paragraph for each cell that isn't empty, behind its head. Where a head is longer than half of the room, or there are no rows, the head row is the first
    item, and isn't said again."""
    table, columns_left = table_of(section.lines), room(width, section.gutters)
    if table is None or columns_left is None or fits_as_table(table, columns_left, beside):
        return [section]
    said = bool(table.rows) and all(2 * head_length(head.compounds) <= columns_left for head in table.heads)
    items = [item_lines(table.heads, row) for row in table.rows] if said else [item_lines([], row) for row in [table.heads, *table.rows]]
    return [replace(section, gutters=section.gutters + [section.bullet], fresh=section.fresh + 1 if k == 0 else 1, lines=lines) for k, lines in enumerate(items)]


def head_length(row: Row) -> int:
    """Columns, where each character counts as one at least."""
    return sum(max(columns(ch), 1) for c in row for ch in c.src)


def item_lines(heads: Cells, row: Cells) -> list[Line]:
    def label(column: int) -> Row:
        head = heads[column].compounds if column < len(heads) else []
        return head + [Compound(": ")] if head else []

    return [paragraph(label(k) + cell.compounds) for k, cell in enumerate(row) if cell.compounds] or [EMPTY]


def section_rows(width: int | None, section: Section, beside: int = 0) -> list[PageRow]:
    """The layout of a section's lines in its room, each row behind the gutters that are shown."""
    shown = gutters_shown(width, section.gutters)
    late = len(shown) - min(section.fresh, len(shown))
    first = "".join(g.rest for g in shown[:late]) + "".join(g.first for g in shown[late:])
    rest = "".join(g.rest for g in shown)
    return [(first if k == 0 else rest, row) for k, row in enumerate(layout(room(width, section.gutters), section.lines, beside))]


def boxed_rows(width: int | None, section: Section) -> list[PageRow]:
    """The same where code has a background: of the two columns of code's gutter one is behind the row, and the row fills what is between them."""
    rows = section_rows(width, section)
    columns_left = room(width, section.gutters)
    if gutters_shown(width, section.gutters)[-1:] != [CODE_SIDES]:
        return rows
    return [(front[:-1], placed(row, columns_left or 0, Align.LEFT) + [Compound(" ")]) for front, row in rows]


def dressed(section: Section) -> list[Section]:
    """What a page without styles shows in the place of a section: marks at its words, signs in front of its pictures, below a heading of the first two levels
    a rule, and the signs in front of another."""
    section = pictured(worded(section))
    first = section.lines[0]
    level = first.composite.style.level if isinstance(first, Normal) else 0
    if level in BELOW:
        return [section, Section(section.gutters + [BELOW[level]], 0, [HorizontalRule()])]
    if level:
        signs = hanging("#" * level, f"Signs {level - 1}", "#" * level)
        return [replace(section, gutters=section.gutters + [signs], fresh=min(section.fresh, len(section.gutters)) + 1)]
    return [section]


def plain_rows(width: int | None, section: Section) -> list[PageRow]:
    """The rows of a section with the characters of a page without styles, and a blank at each side of a cell."""
    return [(front.replace("▐", "▌"), plain_row(section, row)) for front, row in section_rows(width, section, 1)]


def plain_row(section: Section, row: Row) -> Row:
    first = section.lines[0]
    if isinstance(first, HorizontalRule):
        sign = "═" if section.gutters[-1:] == [BELOW[1]] else "─"
        return [replace(c, src=sign * len(c.src)) for c in row]
    if isinstance(first, TableRule) and len(row) == 1:
        return [replace(c, src=c.src.translate(ROUND)) for c in row]
    return row


def shown_sections(width: int | None, sections: list[Section], beside: int = 0) -> list[Section]:
    return [u for s in sections for u in unfolded(width, s, beside)]


def texts(width: int | None, sections: list[Section], look: str = "page") -> list[str]:
    """The rows of a page, as texts. In the look `boxes` code has a background, in `ascii` bullets are ASCII, and `plain` is that of a page without styles."""
    rows_of = {"boxes": boxed_rows, "plain": plain_rows}.get(look, section_rows)
    if look == "ascii":
        sections = list(map(in_ascii, sections))
    sections = [d for s in sections for d in (dressed(s) if look == "plain" else [pictured(s)])]
    return [ended(front + "".join(c.src for c in row), look, s) for s in shown_sections(width, sections, int(look == "plain")) for front, row in rows_of(width, s)]


def ended(row: str, look: str, section: Section) -> str:
    """A row without the blanks at its end, but those of a box."""
    return row if look == "boxes" and section.gutters[-1:] == [CODE_SIDES] else row.rstrip(" ")


def in_ascii(section: Section) -> Section:
    return replace(section, gutters=[ASCII.get(g, g) for g in section.gutters], bullet=ASCII[BULLET])


def page(source: str, width: int | None, look: str = "page", streamed: bool = False) -> list[str]:
    return texts(width, sections_of(source, streamed), look)


def width_of(word: str) -> int | None:
    return None if word == "none" else int(word)


def main() -> None:
    parser = argparse.ArgumentParser(usage="python3 -m markdown_model.page [--sections] WIDTH FILE ..")
    parser.add_argument("--sections", action="store_true")
    parser.add_argument("width", type=width_of)
    parser.add_argument("files", nargs="+", type=Path)
    given = parser.parse_args()
    for path in given.files:
        raw = path.read_bytes()
        sections = sections_of((gzip.decompress(raw) if path.suffix == ".gz" else raw).decode("utf-8", "replace"))
        rows = dump.picture(shown_sections(given.width, sections)) if given.sections else texts(given.width, sections)
        print("\n".join(rows))


if __name__ == "__main__":
    main()
