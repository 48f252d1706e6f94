"""Markdown for terminals: pages, tables, and the calls of libtermimad.

    >>> Markdown("# Disks\\n\\n- some *words* in a list\\n- [a link](there.md)").show(width=30)
    Disks
    ══════════════════════════════
    <BLANKLINE>
    • some _words_ in a list
    • [a link]
    >>> Markdown("> a quote\\n\\n- an item").rows(width=20)
    ['▌ a quote', '', '• an item']
    >>> print(table([{"disk": "/", "used": 7}, {"disk": "a|b", "used": 42}], width=40, aligns=[Align.LEFT, Align.RIGHT]), end="")
    ┌────┬────┐
    │disk│used│
    ├────┼────┤
    │/   │   7│
    │a|b │  42│
    └────┴────┘
    >>> code("let x = 1;", "rust").rows(width=40)
    ['  let x = 1;']
    >>> Markdown("a").rows(width=70000)
    Traceback (most recent call last):
    termimad.WrongNumber: width=70000 is over 65535.

`Markdown(..).show()` prints a page in the width of the terminal. It has styles only where the output is a terminal and `NO_COLOR` isn't set.

    Markdown, markdown     Markdown as people write it: as an object, and as a call
    Link, Heading          what `Markdown(..).links` and `Markdown(..).headings` have
    Code, code             a text of code, in the colors of its language
    table                  a table of lists, of dicts or of a CSV file
    Lines, text, area      a text of the small grammar: at a width, in an area of the screen
    inline, fit, rows      a line, a line that is cut, how many rows a text takes
    pieces, live           Markdown that comes in pieces: its rows as they are complete, and a `with` block that shows it as it grows
    text_of_pieces         the same of a text of the small grammar
    printable              a text without what a terminal obeys
    background             the terminal's background, which it is asked for
    Refused                why a call answers nothing: WrongNumber, WrongSkin, NotUtf8, OutOfMemory

`help(termimad.table)` tells of one of them, with an example.

- A text is `str` or `bytes`; a path (`pathlib.Path`) stands for the text of its file.
- A width is that of the terminal where none is given.
- A skin of a page is "auto", "dark", "light", "sixteen" or "none", or a `dict`, which changes "default": `{"bold": "red", "page": {"link": "blue"}}`.
- `area`, `text`, `inline`, `fit`, `rows`, `table` and `Lines` read the small grammar, whose lines each stand for themselves. There a skin is "" for no style,
  "default", "dark" or "light", or a `dict` without "page".
- A call raises a `Refused`, which names the argument, where it can answer nothing.
"""
from __future__ import annotations

import csv
import enum
import os
from typing import Iterable, Iterator, List, Mapping, Optional, Sequence, Union

from ._calls import NotUtf8, OutOfMemory, Refused, Skin, Words, WrongNumber, WrongSkin, raw, result, row_count, rows_of_parts, skin_word, table_of_cells
from ._pages import Code, Heading, Lines, Link, Live, Markdown, background, code, columns_of, live, pieces, terminal_width

__version__ = "0.3.0"
__all__ = ["Align", "Code", "Heading", "Lines", "Link", "Live", "Markdown", "NotUtf8", "OutOfMemory", "Refused", "Skin", "Words", "WrongNumber", "WrongSkin", "area", "background", "code", "fit",
    "inline", "live", "markdown", "pieces", "printable", "rows", "table", "terminal_width", "text", "text_of_pieces"]

Record = Union[Sequence[object], Mapping[str, object]]

# A traceback names them as their users do.
for _kind in (Refused, WrongNumber, NotUtf8, WrongSkin, OutOfMemory, Heading, Link):
    _kind.__module__ = __name__


class Align(enum.Enum):
    """On which side a text is: in a column of `table`, or where it is cut by `fit`.

    >>> [fit("one two three", 9, align) for align in Align]
    ['one…o t…e', 'one two …', '… two th…', '…wo three']
    """

    INSIDE = 0  # in no place of its own; `fit` cuts in the widest words
    LEFT = 1  # `fit` cuts the end of the line
    CENTER = 2  # `fit` cuts both ends
    RIGHT = 3  # `fit` cuts the front of the line

    def __index__(self) -> int:
        return int(self.value)


def markdown(text: Words, width: Optional[int] = None, skin: Skin = "none") -> str:
    """The text, read as people write Markdown and laid out in `width` columns, each row with a newline.

    >>> markdown("Two lines\\nof a [paragraph](there.md)", width=20)
    'Two lines of a\\n[paragraph]\\n'
    """
    return result("termimad_markdown", {"text": text, "skin": skin_word(skin)}, {"width": columns_of(width)})


def table(rows: Union[Iterable[Record], "os.PathLike[str]"], width: Optional[int] = None, aligns: Sequence[Union[Align, int]] = (), skin: Skin = "") -> str:
    """A table laid out in `width` columns, each row with a newline. Its first row has its headers; of dicts, these are their keys.

    A path stands for the rows of its CSV file. A cell is a text as it is, or what `str` makes of it: no mark is read in it, and it is made
    printable here. Short rows are filled up. Without a column it is nothing: `table([])` is "".

    >>> print(table([["disk", "used"], ["/", 7]], width=40, aligns=[Align.LEFT, Align.RIGHT]), end="")
    ┌────┬────┐
    │disk│used│
    ├────┼────┤
    │/   │   7│
    └────┴────┘
    >>> table([{"disk": "/", "used": 7}], width=40) == table([["disk", "used"], ["/", "7"]], width=40)
    True
    """
    lines = _lines_of(rows)
    columns = max(map(len, lines), default=0)
    cells = [_cell(word, f"rows[{at}][{column}]") for at, line in enumerate(lines) for column, word in enumerate([*line, *[""] * (columns - len(line))])]
    made = table_of_cells(cells, columns or 1, columns_of(width), aligns, skin)
    return made if columns else ""


def area(markdown: Words, left: int, top: int, width: int, height: int, skin: Skin = "") -> str:
    """A text of the small grammar in an area of the screen, with the commands that move the cursor there.

    >>> area("one", left=3, top=1, width=6, height=1)
    '\\x1b[2;4Hone   '
    """
    numbers = {"left": left, "top": top, "width": width, "height": height}
    return result("termimad_area", {"markdown": markdown, "skin": skin_word(skin)}, numbers)


def text(markdown: Words, width: Optional[int] = None, skin: Skin = "") -> str:
    """A text of the small grammar, laid out in `width` columns, each row with a newline.

    >>> text("* one\\n* *two*", width=20)
    '• one\\n• two\\n'
    """
    return result("termimad_text", {"markdown": markdown, "skin": skin_word(skin)}, {"width": columns_of(width)})


def text_of_pieces(pieces: Iterable[Union[str, bytes]], width: Optional[int] = None, skin: Skin = "") -> Iterator[str]:
    """The rows of a text that comes in pieces, as soon as they are complete: in all, what `text` answers of the whole.

    The pieces are `str` or `bytes`, cut anywhere: a list, a file that is open, or `iter(lambda: file.read1(4096), b"")`, which waits
    for no more than there is.

    >>> list(text_of_pieces(["* on", "e\\n* tw", "o"], width=20))
    ['• one\\n', '• two\\n']
    """
    columns, left, fenced = columns_of(width), b"", 0
    for piece in pieces:
        left += raw(piece, "a piece")
        made, used, fenced = rows_of_parts(left, skin, columns, fenced, 0)
        left = left[used:]
        if made:
            yield made
    made, _, _ = rows_of_parts(left, skin, columns, fenced, 1)
    if made:
        yield made


def inline(line: Words, skin: Skin = "") -> str:
    """The line with its inline marks, and a newline.

    >>> inline("**done** in `3 s`")
    'done in 3 s\\n'
    """
    return result("termimad_inline", {"line": line, "skin": skin_word(skin)}, {})


def rows(markdown: Words, width: Optional[int] = None, skin: Skin = "") -> int:
    """How many rows a text of the small grammar takes in `width` columns.

    >>> rows("* some *words* in a list", width=12)
    2
    """
    return row_count(markdown, skin, columns_of(width))


def fit(line: Words, width: int, align: Union[Align, int] = Align.LEFT, skin: Skin = "") -> str:
    """The line with its inline marks, in at most `width` columns: an ellipsis is where something is left out.

    >>> fit("a **very** long line", width=10)
    'a very lo…'
    """
    return result("termimad_fit", {"line": line, "skin": skin_word(skin)}, {"width": width, "align": align})


def printable(words: Words) -> str:
    """The text without what a terminal obeys. Use it for each text that others wrote, before it is laid out.

    >>> printable("an escape \\x1b[2J")
    'an escape ␛[2J'
    """
    return result("termimad_printable", {"words": words}, {})


def _lines_of(rows: Union[Iterable[Record], "os.PathLike[str]"]) -> List[Sequence[object]]:
    """The rows as sequences, the headers first."""
    if isinstance(rows, os.PathLike):
        return _lines_of_csv(rows)
    found = list(rows)
    for at, row in enumerate(found):
        if isinstance(row, (str, bytes)) or not isinstance(row, (Mapping, Iterable)):
            raise TypeError(f"rows[{at}] is of type {type(row).__name__}, where a sequence of cells or a dict is taken")
        if isinstance(row, Mapping) != isinstance(found[0], Mapping):
            raise TypeError(f"rows[{at}] is of type {type(row).__name__}, and rows[0] of type {type(found[0]).__name__}")
    records = [row for row in found if isinstance(row, Mapping)]
    if not records:
        return [list(row) for row in found]
    heads = list(dict.fromkeys(key for record in records for key in record))
    return [heads, *([record.get(head, "") for head in heads] for record in records)]


def _lines_of_csv(path: "os.PathLike[str]") -> List[Sequence[object]]:
    """The rows of a CSV file, without the mark that some programs put at its front."""
    with open(path, newline="", encoding="utf-8-sig") as file:
        try:
            return list(csv.reader(file))
        except UnicodeDecodeError:
            raise NotUtf8(f"{os.fspath(path)} is not UTF-8.") from None


def _cell(word: object, name: str) -> bytes:
    """A cell's text, without what a terminal obeys; a newline is a space."""
    shown = word if isinstance(word, (str, bytes)) else str(word)
    return result("termimad_printable", {name: shown}, {}).replace("\n", " ").encode()
