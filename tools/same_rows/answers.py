"""Answers calls that it reads, by the Python module: `answers.py <REQUESTS`. tools/same_rows/compare writes them, and says how they look."""
from __future__ import annotations

import io
import json
import sys
from collections.abc import Iterable

import termimad

STATUS_OF = {termimad.WrongNumber: 2, termimad.NotUtf8: 3, termimad.WrongSkin: 4, termimad.OutOfMemory: 5}


def skin_of(word: str) -> termimad.Skin:
    """A skin as users of Python write it: JSON text as the dict that it is."""
    try:
        found = json.loads(word)
    except ValueError:
        return word
    return found if isinstance(found, dict) else word


def table_of(numbers: list[int], texts: list[bytes]) -> str:
    """A table: its numbers are the width, the columns and the alignments; its texts the skin and the cells."""
    skin, *cells = [text.decode() for text in texts]
    width, columns, *aligns = numbers
    rows = [cells[at : at + columns] for at in range(0, len(cells), columns)]
    return termimad.table(rows, width, aligns, skin_of(skin))


def cut_up(text: bytes, size: int) -> Iterable[bytes]:
    """A text in pieces of so many bytes."""
    return (text[at : at + size] for at in range(0, len(text), size))


def pieces_of(text: bytes, skin: termimad.Skin, width: int, cut: int) -> str:
    """A text of the small grammar in pieces."""
    return "".join(termimad.text_of_pieces(cut_up(text, cut), width, skin))


def markdown_pieces_of(text: bytes, skin: termimad.Skin, width: int, cut: int) -> str:
    """Markdown in pieces, whose rows have to be those that are printed."""
    made = "".join(f"{row}\n" for row in termimad.pieces(cut_up(text, cut), width, skin))
    shown = io.StringIO()
    with termimad.live(width, skin, shown) as out:
        for piece in cut_up(text, cut):
            out.write(piece)
    assert made == shown.getvalue(), (made, shown.getvalue())
    return made


def live_of(text: bytes, skin: termimad.Skin, width: int, height: int, cut: int) -> str:
    """Markdown that grows on a terminal."""
    shown = io.StringIO()
    with termimad.live(width, skin, shown, height) as out:
        for piece in cut_up(text, cut):
            out.write(piece)
    return shown.getvalue()


def markdown_of(text: bytes, skin: termimad.Skin, width: int) -> str:
    """Markdown by the call, which has to be what a page has."""
    made = termimad.markdown(text, width, skin)
    rows = termimad.Markdown(text).rows(width, skin)
    assert made == "".join(f"{row}\n" for row in rows), (made, rows)
    return made


def code_of(text: bytes, skin: termimad.Skin, language: bytes, width: int) -> str:
    """A text of code: its rows, each with a newline."""
    return "".join(f"{row}\n" for row in termimad.code(text, language.decode()).rows(width, skin))


def lines_of(found: Iterable[tuple[object, ...]]) -> str:
    """Links or headings as the library writes them: a line for each, its parts with tabs between."""
    return "".join("\t".join(map(str, parts)) + "\n" for parts in found)


def section_of(text: bytes, name: str) -> str:
    """The section to which a name leads; nothing, where there is none."""
    found = termimad.Markdown(text).find_section(name)
    return "" if found is None else str(found)


def made_by(call: str, numbers: list[int], texts: list[bytes]) -> str:
    """What a call makes."""
    if call == "table":
        return table_of(numbers, texts)
    text, skin = texts[0], skin_of(texts[1].decode()) if len(texts) > 1 else ""
    calls = {
        "area": lambda: termimad.area(text, *numbers, skin),
        "text": lambda: termimad.text(text, *numbers, skin),
        "markdown": lambda: markdown_of(text, skin, *numbers),
        "code": lambda: code_of(text, skin, texts[2], *numbers),
        "inline": lambda: termimad.inline(text, skin),
        "pieces": lambda: pieces_of(text, skin, *numbers),
        "markdown-pieces": lambda: markdown_pieces_of(text, skin, *numbers),
        "live": lambda: live_of(text, skin, *numbers),
        "rows": lambda: str(termimad.rows(text, *numbers, skin)),
        "fit": lambda: termimad.fit(text, *numbers, skin),
        "printable": lambda: termimad.printable(text),
        "links": lambda: lines_of((it.section, it.address) for it in termimad.Markdown(text).links),
        "section": lambda: section_of(text, texts[1].decode()),
        "headings": lambda: lines_of((it.level, it.section, it.name, it.text) for it in termimad.Markdown(text).headings),
    }
    return calls[call]()


def main() -> None:
    source, out = sys.stdin.buffer, sys.stdout.buffer
    for line in iter(source.readline, b""):
        call, number_count, _, *sizes = line.decode().split()
        numbers, lengths = [int(it) for it in sizes[: int(number_count)]], [int(it) for it in sizes[int(number_count) :]]
        texts = [source.read(length) for length in lengths]
        try:
            status, made = 0, made_by(call, numbers, texts).encode()
        except termimad.Refused as refusal:
            status, made = STATUS_OF[type(refusal)], b""
        out.write(b"%d %d\n" % (status, len(made)) + made)


if __name__ == "__main__":
    main()
