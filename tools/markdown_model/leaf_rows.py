"""How the lines of a section are laid out in a room: what `IsLayoutAt` of mad_blocks says, with whole words, in plain Python. A row is a list of compounds:
those of the text, and blanks and borders."""
from __future__ import annotations

from collections.abc import Iterator
from dataclasses import replace
from typing import NamedTuple

from .lines import CODE, Align, Composite, Compound, HorizontalRule, Line, Normal, TableRow, TableRule
from .steady import columns as char_columns

Row = list[Compound]
RULE = "―"


def columns(text: str) -> int:
    return sum(char_columns(c) or 0 for c in text)


def row_columns(row: Row) -> int:
    return sum(columns(c.src) for c in row)


# ------------------------------------------------------------------ words


class Token(NamedTuple):
    """Characters in a row of one compound that are all blank or all not, no wider than the limit if they are several."""
    blank: bool
    width: int
    compound: Compound


class Piece(NamedTuple):
    """What isn't parted: a blank token, a word, or a token of a word that is wider than the limit."""
    blank: bool
    width: int
    row: Row


def tokens(row: Row, limit: int) -> Iterator[Token]:
    for c in row:
        at, width, blank = 0, 0, None
        for i, ch in enumerate(c.src):
            b, w = ch.isspace() and not c.code, char_columns(ch) or 0
            if blank is not None and b == blank and width + w <= limit:
                width += w
                continue
            if blank is not None:
                yield Token(blank, width, replace(c, src=c.src[at:i]))
            at, width, blank = i, w, b
        if blank is not None:
            yield Token(blank, width, replace(c, src=c.src[at:]))


def pieces(row: Row, limit: int) -> Iterator[Piece]:
    word: list[Token] = []

    def ended() -> Iterator[Piece]:
        width = sum(t.width for t in word)
        if word and width <= limit:
            yield Piece(False, width, [t.compound for t in word])
        else:
            yield from (Piece(False, t.width, [t.compound]) for t in word)
        word.clear()

    for t in tokens(row, limit):
        if t.blank:
            yield from ended()
            yield Piece(True, t.width, [t.compound])
        else:
            word.append(t)
    yield from ended()


def wrap(row: Row, width: int | None) -> list[Row]:
    """The rows of compounds: one where they fit, or where there is no width; else each piece in the first row that it fits in. A blank that doesn't fit ends
    the row, and goes."""
    if width is None or width < 3 or row_columns(row) <= width:
        return [list(row)]
    rows: list[Row] = []
    last: Row = []
    taken, ended = 0, False
    for piece in pieces(row, width):
        if ended and piece.blank:
            continue
        if not ended and taken + piece.width <= width:
            last += piece.row
            taken += piece.width
        elif piece.blank:
            ended = True
        else:
            rows.append(last)
            last, taken, ended = list(piece.row), piece.width, False
    return rows + [last]


# ------------------------------------------------------------------ tables

Cells = list[Composite]


class Table(NamedTuple):
    heads: Cells
    rows: list[Cells]


def table_of(lines: list[Line]) -> Table | None:
    rows = [x.cells for x in lines if isinstance(x, TableRow)]
    return Table(rows[0], rows[1:]) if rows else None


def longest_word(row: Row) -> int:
    """Characters in a row that aren't blank, of one compound or of several."""
    best = word = 0
    for c in row:
        for ch in c.src:
            word = 0 if ch.isspace() and not c.code else word + (char_columns(ch) or 0)
            best = max(best, word)
    return best


def least_widths(rows: list[Cells], n: int) -> list[int]:
    """For each column the width of its longest word, three at least."""
    out = [3] * n
    for cells in rows:
        for k, cell in enumerate(cells[:n]):
            out[k] = max(out[k], longest_word(cell.compounds))
    return out


def fits_as_table(table: Table, room: int, beside: int = 0) -> bool:
    """Whether the longest words of the columns fit side by side, with so many blanks at each side of a cell."""
    n = len(table.heads)
    return sum(least_widths([table.heads, *table.rows], n)) + (2 * beside + 1) * n + 1 <= room


def grants(widths: list[int], requests: list[int], excess: int) -> list[int]:
    """What the columns give of the excess, the widest first."""
    out = [0] * len(widths)
    for k in sorted(range(len(widths)), key=lambda k: (-widths[k], k)):
        out[k] = min(requests[k], excess)
        excess -= out[k]
    return out


def share(part: int, whole: int, total: int) -> int:
    return -(-part * whole // total) if total else 0


def column_widths(available: int, natural: list[int], average: list[int]) -> list[int]:
    """The papers' widths: columns that are wider than their average give up to four columns first, then all give by their share above three."""
    if sum(natural) <= available:
        return natural
    if len(natural) == 1:
        return [available]
    over = [n - a for n, a in zip(natural, average)]
    spare = [min(o, 4) if n > 4 and o > 1 else 0 for n, o in zip(natural, over)]
    excess = sum(natural) - available
    goal = min(sum(spare), excess)
    requests = [min(share(o, goal, sum(spare)), n - 4) if goal > 0 and n > 4 and o > 0 else 0 for n, o in zip(natural, over)]
    widths = [n - g for n, g in zip(natural, grants(natural, requests, excess))]
    return shrunk(widths, natural, [3] * len(widths), available)


def shrunk(widths: list[int], natural: list[int], least: list[int], available: int) -> list[int]:
    """Widths that give by their share above the least ones, until they fit."""
    excess = sum(widths) - available
    if excess <= 0:
        return widths
    above = [w - l for w, l in zip(widths, least)]
    return [w - g for w, g in zip(widths, grants(natural, [min(share(a, excess, sum(above)), a) for a in above], excess))]


def widths_of(rows: list[Cells], n: int, width: int) -> list[int]:
    """The widths of a table's columns, whose longest words fit side by side."""
    seen = [[row_columns(r[k].compounds) for r in rows if k < len(r)] for k in range(n)]
    natural = [max(c + [3]) for c in seen]
    average = [-(-sum(c) // len(c)) if c else 0 for c in seen]
    least = [min(a, b) for a, b in zip(natural, least_widths(rows, n))]
    available = width - 1 - n
    widths = [max(w, l) for w, l in zip(column_widths(available, natural, average), least)]
    return shrunk(widths, natural, least, available)


def placed(row: Row, width: int, align: Align) -> Row:
    free = max(width - row_columns(row), 0)
    left = free if align == Align.RIGHT else free // 2 if align == Align.CENTER else 0
    return [Compound(" " * left)] * (left > 0) + list(row) + [Compound(" " * (free - left))] * (free > left)


def table_rows(lines: list[Line], width: int | None, beside: int = 0) -> Iterator[Row]:
    """The rows of a table, with so many blanks at each side of a cell."""
    cells = [x.cells for x in lines if isinstance(x, TableRow)]
    n = max(len(x.cells) for x in lines)
    widths = widths_of(cells, n, (2 ** 64 - 1 if width is None else width) - 2 * beside * n)
    blank = [Compound(" " * beside)] * (beside > 0)
    aligns = [Align.CENTER] * n
    for at, x in enumerate(lines):
        if isinstance(x, TableRule):
            aligns = (x.cells + [Align.UNSPECIFIED] * n)[:n]
            left, between, right = "┌┬┐" if at == 0 else "└┴┘" if at == len(lines) - 1 else "├┼┤"
            yield [Compound(left + between.join("─" * (w + 2 * beside) for w in widths) + right)]
        else:
            parts = [wrap(x.cells[k].compounds if k < len(x.cells) else [], w) for k, w in enumerate(widths)]
            for r in range(max(map(len, parts), default=1)):
                row: Row = []
                for part, w, a in zip(parts, widths, aligns):
                    row += [Compound("│")] + blank + placed(part[r] if r < len(part) else [], w, a) + blank
                yield row + [Compound("│")]


# ------------------------------------------------------------------ a section


def code_rows(lines: list[Normal], width: int | None) -> list[Row]:
    """Rows of code, each as wide as the widest line, or as the room."""
    code = [line.composite.compounds for line in lines]
    widest = max(map(row_columns, code))
    place = widest if width is None or width < 3 else min(widest, width)
    return [placed(row, place, Align.LEFT) for line in code for row in wrap(line, width)]


def layout(width: int | None, lines: list[Line], beside: int = 0) -> list[Row]:
    first = lines[0]
    if isinstance(first, TableRule):
        return list(table_rows(lines, width, beside))
    if isinstance(first, Normal) and first.composite.style == CODE:
        return code_rows(lines, width)
    out: list[Row] = []
    for x in lines:
        out += [[Compound(RULE * (width or 0))]] if isinstance(x, HorizontalRule) else wrap(x.composite.compounds, width)
    return out
