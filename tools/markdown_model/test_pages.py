"""Laws of pages, checked on files and random texts: python3 -m markdown_model.test_pages SEED COUNT [FILE ..]

1. Fits: a row with its gutters takes at most the width, from three columns on, with blanks beside cells and without.
2. Kept: each character of a section that isn't blank is shown once, in order, with its flags. In a table that is a list each cell's is, behind its head.
3. Nested: the gutters of a section are in front of each of its rows, where they take less than half of the width. Each item's first face is shown once.
4. Pieces: where no definition comes late, a text that comes in pieces is shown as it is shown whole.
"""
from __future__ import annotations

import argparse
import gzip
import random
from collections.abc import Iterator
from itertools import product
from pathlib import Path

from .blocks import Node, read_blocks
from .leaf_rows import Row, columns, table_of
from .lines import HorizontalRule, Normal, TableRow, TableRule
from .page import PageRow, gutters_shown, section_rows, unfolded
from .sections import BULLET, Section, behind_mark, sections_of
from .test_model import random_text

BORDERS = set("│┌┬┐├┼┤└┴┘─")
WIDTHS = (80, 41, 20, 7, 5, 3)
Shown = tuple[str, bool, bool, bool, bool, bool]


def characters(row: Row) -> Iterator[Shown]:
    """Those that aren't blank, with their flags."""
    for c in row:
        yield from ((ch, c.bold, c.italic, c.code, c.strikeout, c.link is not None) for ch in c.src if not ch.isspace())


def said(section: Section) -> list[Shown]:
    composites = [c for x in section.lines for c in (x.cells if isinstance(x, TableRow) else [x.composite] if isinstance(x, Normal) else [])]
    return [ch for composite in composites for ch in characters(composite.compounds)]


def shown(rows: list[PageRow]) -> list[Shown]:
    return [ch for _, row in rows for ch in characters(row)]


def items(node: Node) -> int:
    return sum((c.kind == "item") + items(c) for c in node.children)


def without_borders(found: list[Shown]) -> list[Shown]:
    return [ch for ch in found if ch[0] not in BORDERS]


def check_kept(width: int, section: Section, beside: int) -> None:
    first = section.lines[0]
    if isinstance(first, HorizontalRule):
        return
    if isinstance(first, TableRule):  # cells are side by side, so their rows alternate
        assert sorted(without_borders(shown(section_rows(width, section, beside)))) == sorted(without_borders(said(section))), (width, section)
    else:
        assert shown(section_rows(width, section, beside)) == said(section), (width, section)


def check_list(section: Section, parts: list[Section]) -> None:
    """In the list of a table each cell's characters are there, in order."""
    table = table_of(section.lines)
    assert table and all(part.gutters == section.gutters + [BULLET] for part in parts)
    cells = [cell for row in ([table.heads] if len(parts) > len(table.rows) else []) + table.rows for cell in row]
    found = iter(ch[0] for part in parts for ch in said(part))
    assert all(ch in found for cell in cells for ch in (c[0] for c in characters(cell.compounds))), section


def check_rows(width: int, section: Section, beside: int) -> None:
    """Each row fits, and is behind its gutters."""
    all_shown = gutters_shown(width, section.gutters) == section.gutters
    for k, (front, row) in enumerate(section_rows(width, section, beside)):
        assert columns(front) + sum(columns(c.src) for c in row) <= max(width, 3), (width, front, row)
        late = len(section.gutters) - (section.fresh if k == 0 else 0)
        assert not all_shown or front == "".join(g.rest for g in section.gutters[:late]) + "".join(g.first for g in section.gutters[late:])


def check(source: str) -> None:
    sections = sections_of(source)
    first_faces = sum(g.hangs for s in sections for g in s.gutters[len(s.gutters) - s.fresh:])
    assert items(read_blocks(behind_mark(source))) == first_faces, source
    for width, beside in product(WIDTHS, (0, 1)):
        for section in sections:
            parts = unfolded(width, section, beside)
            if parts != [section]:
                check_list(section, parts)
            for part in parts:
                check_kept(width, part, beside)
                check_rows(width, part, beside)
    if "]:" not in source:
        assert sections_of(source, streamed=True) == sections, source


def main() -> None:
    parser = argparse.ArgumentParser(usage="python3 -m markdown_model.test_pages SEED COUNT [FILE ..]")
    parser.add_argument("seed", type=int)
    parser.add_argument("count", type=int)
    parser.add_argument("files", nargs="*", type=Path)
    given = parser.parse_args()
    chance = random.Random(given.seed)
    for _ in range(given.count):
        check(random_text(chance))
    for path in given.files:
        raw = path.read_bytes()
        check((gzip.decompress(raw) if path.suffix == ".gz" else raw).decode("utf-8", "replace"))
    print(given.count, "random texts,", len(given.files), "files: the laws hold")


if __name__ == "__main__":
    main()
