"""Pages of Markdown, in the width and the skin that suit the terminal."""
from __future__ import annotations

import os
import re
import select
import shutil
import sys
import time
from typing import Any, Dict, Iterable, Iterator, List, NamedTuple, Optional, TextIO, Tuple, Union

from ._calls import Growth, Skin, Stream, Words, lines_of, raw, result, section_of, skin_word

_WIDEST = 65535
_SECONDS_TO_ANSWER = 1.0
_NARROWEST = 8  # in a layout of rich, where it is wider


def terminal_width() -> int:
    """The columns of the terminal: `COLUMNS`, its size, or 80.

    >>> 1 <= terminal_width() <= 65535
    True
    """
    return min(max(shutil.get_terminal_size((80, 24)).columns, 1), _WIDEST)


def columns_of(width: Optional[int]) -> int:
    """The width that is given, else that of the terminal."""
    return terminal_width() if width is None else width


def skin_for(skin: Skin, is_terminal: bool) -> Skin:
    """The skin that is meant. `"auto"` is `"none"` where there is no terminal or `NO_COLOR` is set; else it goes by `COLORFGBG`, else `"dark"`."""
    if skin != "auto":
        return skin
    if os.environ.get("NO_COLOR") or os.environ.get("TERM") == "dumb" or not is_terminal:
        return "none"
    return _skin_over(os.environ.get("COLORFGBG", "").rpartition(";")[2])


def background() -> Optional[str]:
    """Asks the terminal for its background: `"dark"`, `"light"`, or `None` where it tells none within a second. It reads what is typed meanwhile.

    >>> Markdown("> a quote").show(skin="none" if background() is None else "auto")
    ▌ a quote
    """
    try:
        terminal = os.open("/dev/tty", os.O_RDWR | os.O_NOCTTY)
    except OSError:
        return None
    try:
        return _background_of(_asked(terminal, b"\x1b]11;?\x1b\\\x1b[c"))
    finally:
        os.close(terminal)


def _asked(terminal: int, question: bytes) -> bytes:
    """What a terminal answers, up to the answer that each one gives."""
    import termios
    import tty

    before = termios.tcgetattr(terminal)
    answer, end = b"", time.monotonic() + _SECONDS_TO_ANSWER
    try:
        tty.setcbreak(terminal)
        os.write(terminal, question)
        while not re.search(rb"\x1b\[\?[0-9;]*c", answer) and select.select([terminal], [], [], max(end - time.monotonic(), 0))[0]:
            answer += os.read(terminal, 256)
    finally:
        termios.tcsetattr(terminal, termios.TCSADRAIN, before)
    return answer


def _background_of(answer: bytes) -> Optional[str]:
    """What an answer says: light where red, green and blue weigh more than half of white."""
    found = re.search(rb"\x1b\]11;rgba?:([0-9a-fA-F]+)/([0-9a-fA-F]+)/([0-9a-fA-F]+)", answer)
    if not found:
        return None
    red, green, blue = (int(part, 16) / (16 ** len(part) - 1) for part in found.groups())
    return "light" if 0.299 * red + 0.587 * green + 0.114 * blue > 0.5 else "dark"


def _skin_over(background_number: str) -> str:
    """The skin over a color of the sixteen."""
    return "light" if background_number in {"7", "9", "10", "11", "12", "13", "14", "15"} else "dark"


class Link(NamedTuple):
    """A link: the address to which it leads, and the number of its section.

    >>> Markdown("see [the disks](disks.md)").links
    [Link(address='disks.md', section=0)]
    """

    address: str
    section: int


class Heading(NamedTuple):
    """A heading: its level from 1 to 6, what it shows, the name to which `#name` goes, and the number of its section.

    >>> Markdown("# Disks").headings
    [Heading(level=1, text='Disks', name='disks', section=0)]
    """

    level: int
    text: str
    name: str
    section: int


class _Shown:
    """A text that has rows. What it is read as, a class below says."""

    _call = ""

    def __init__(self, source: Words) -> None:
        self.source = raw(source, "source")

    def rows(self, width: Optional[int] = None, skin: Skin = "none") -> List[str]:
        """Its rows in `width` columns, by default those of the terminal. A style that begins in a row ends there.

        >>> Markdown("1. one\\n2. two *words*").rows(width=10)
        ['1. one', '2. two', '   _words_']
        >>> Markdown("**a**").rows(width=8, skin="dark")
        ['\\x1b[1ma\\x1b[0m']
        """
        return self._written(width, skin).split("\n")[:-1]

    def show(self, width: Optional[int] = None, skin: Skin = "auto", file: Optional[TextIO] = None) -> None:
        """Prints its rows, by default on the standard output. Only a terminal gets styles, where the skin is `"auto"`.

        >>> Markdown("> a quote").show(width=40)
        ▌ a quote
        """
        out = sys.stdout if file is None else file
        print(self._written(width, skin_for(skin, out.isatty())), end="", file=out)

    def __str__(self) -> str:
        return self._written(None, "none").rstrip("\n")

    def __repr__(self) -> str:
        return f"{type(self).__name__}({self.source.decode('utf-8', 'replace')!r})"

    def __rich_console__(self, console: Any, options: Any) -> Iterator[Any]:
        from rich.text import Text as RichText

        for row in self.rows(options.max_width, self._rich_skin(console)):
            line = RichText.from_ansi(row, no_wrap=True)
            line.end = "\n"
            yield line

    def __rich_measure__(self, console: Any, options: Any) -> Any:
        from rich.cells import cell_len
        from rich.measure import Measurement

        widest = max((cell_len(row.rstrip()) for row in self.rows(options.max_width)), default=0)
        return Measurement(min(widest, _NARROWEST), widest)

    def _rich_skin(self, console: Any) -> Skin:
        """The skin on a console of rich, which knows whether it is a terminal, and whether it has colors."""
        return skin_for("auto", console.is_terminal and not console.no_color)

    def _written(self, width: Optional[int], skin: Skin) -> str:
        return result(self._call, self._texts(skin), {"width": columns_of(width)})

    def _texts(self, skin: Skin) -> Dict[str, Words]:
        """What the call takes of texts."""
        return {"source": self.source, "skin": skin_word(skin)}


class Markdown(_Shown):
    """Markdown as people write it: a text, or a path, which stands for the text of its file.

    >>> page = Markdown("> *three* disks\\n\\n|disk|used|\\n|-|-:|\\n|/|7|")
    >>> print(page)
    ▌ _three_ disks
    <BLANKLINE>
    ╭──────┬──────╮
    │ disk │ used │
    ├──────┼──────┤
    │ /    │    7 │
    ╰──────┴──────╯
    >>> page.rows(width=9)[:2]
    ['▌ _three_', '▌ disks']

    rich shows it too, in the width that it has there: `rich.print(rich.panel.Panel(page))`.
    """

    _call = "termimad_markdown"

    @property
    def links(self) -> List[Link]:
        """Its links, in the order of the text: no images. An address has no escapes and entities, and no character that a terminal obeys.

        >>> [link.address for link in Markdown("[a](b.md), <https://c.org> and ![an image](d.png)").links]
        ['b.md', 'https://c.org']
        """
        return [Link(address, int(section)) for section, address in lines_of("termimad_links", self.source)]

    @property
    def headings(self) -> List[Heading]:
        """Its headings, in order, each with the name that GitHub gives it.

        >>> page = Markdown("# Disks\\n\\n## `df` says\\n\\nSee [there](#disks).")
        >>> [(it.level, it.text, it.name) for it in page.headings]
        [(1, 'Disks', 'disks'), (2, 'df says', 'df-says')]
        >>> [it.text for it in page.headings if f"#{it.name}" in {link.address for link in page.links}]
        ['Disks']
        """
        found = lines_of("termimad_headings", self.source)
        return [Heading(int(level), text, name, int(section)) for level, section, name, text in found]

    def find_section(self, name: str) -> Optional[int]:
        """The number of the section to which `#name` goes, or `None`: that of the first tag of html with this name, or else of the heading.

        >>> page = Markdown("# Disks\\n\\nSee [there](#disks), or [here](#what).")
        >>> [page.find_section(link.address[1:]) for link in page.links]
        [0, None]
        """
        return section_of(self.source, name)


class Lines(_Shown):
    """A text whose lines each stand for themselves, with the marks of the small grammar.

    >>> Lines("one\\n*two*").rows(width=20)
    ['one', 'two']

    Its skins are those of the small grammar: `"default"`, `"dark"`, `"light"`, a `dict`, and `"none"`.
    """

    _call = "termimad_text"

    def _written(self, width: Optional[int], skin: Skin) -> str:
        return super()._written(width, "" if skin == "none" else skin)


class Code(_Shown):
    """A text of code, or that of a file, in the language of a word, or of a file of that name.

    >>> page = Code("let a = `b`;", "rust")
    >>> print(page)
      let a = `b`;
    >>> page
    Code('let a = `b`;', 'rust')

    Without a language it is that of the file's name, if the source is a path.
    """

    _call = "termimad_code"

    def __init__(self, source: Words, language: str = "") -> None:
        super().__init__(source)
        self.language = language or (os.path.basename(os.fsdecode(source)) if isinstance(source, os.PathLike) else "")

    def __repr__(self) -> str:
        return f"{super().__repr__()[:-1]}, {self.language!r})"

    def _texts(self, skin: Skin) -> Dict[str, Words]:
        return {"source": self.source, "language": self.language, "skin": skin_word(skin)}


def code(text: Words, language: str = "") -> Code:
    """A text of code, or that of a file, as a page. `language` is the word of a language, such as `rust`, or a file's name, such as `main.rs`.

    >>> code("let a = `b`;", "rust").rows(width=20)
    ['  let a = `b`;']
    """
    return Code(text, language)


def _screen_of(out: TextIO) -> Optional[os.terminal_size]:
    """The size of the terminal that is written on, if it is one that moves its cursor."""
    if os.environ.get("TERM") == "dumb" or not out.isatty():
        return None
    try:
        size = os.get_terminal_size(out.fileno())
    except OSError:
        return None
    return size if size.columns > 1 and size.lines > 0 else None


class Live:
    """What `live` answers: a text of Markdown that is shown as it comes."""

    def __init__(self, width: Optional[int], skin: Skin, file: Optional[TextIO], height: Optional[int]) -> None:
        self._out = sys.stdout if file is None else file
        self._width = width
        self._screen = _screen_of(self._out) if height is None else None
        dress = skin_for(skin, self._out.isatty())
        self._growth: Optional[Growth] = None
        if height is not None:
            self._growth = Growth(max(terminal_width() - 1, 1) if width is None else width, height, dress)
        elif self._screen is not None:
            self._growth = Growth(*self._room(self._screen), dress)
        self._text = self._growth or Stream(columns_of(width), dress)

    def write(self, piece: Union[str, bytes]) -> None:
        """Takes the next piece, cut anywhere, and shows what came with it."""
        taken = raw(piece, "a piece")
        self._follow()
        self._print(self._text.take(taken))

    def __enter__(self) -> "Live":
        return self

    def __exit__(self, kind: object, fault: object, trace: object) -> None:
        """At the end of the text the rest of its rows is printed. After an exception it isn't."""
        try:
            if kind is None:
                self._follow()
                self._print(self._text.take(b"", True))
            elif self._growth is not None:
                self._print("\x1b[0m\n")
        finally:
            self._text.close()

    def _room(self, screen: os.terminal_size) -> Tuple[int, int]:
        """The columns and rows of the text on a terminal, whose last column stays free."""
        columns = screen.columns - 1
        return columns if self._width is None else min(self._width, columns), screen.lines

    def _follow(self) -> None:
        """Goes on below what is shown, where the terminal has another size now."""
        if self._growth is None or self._screen is None:
            return
        now = _screen_of(self._out)
        if now is not None and now != self._screen:
            self._screen = now
            self._print(self._growth.resize(*self._room(now)))

    def _print(self, shown: str) -> None:
        if shown:
            print(shown, end="", file=self._out, flush=True)


def live(width: Optional[int] = None, skin: Skin = "auto", file: Optional[TextIO] = None, height: Optional[int] = None) -> Live:
    """Prints Markdown as people write it that comes in pieces: the rows of each paragraph, heading, table or block of code as soon as it ends.

    >>> with live(width=20) as out:
    ...     for piece in ["# He", "ad\\n\\n* on", "e\\n* two"]:
    ...         out.write(piece)
    Head
    ════════════════════
    <BLANKLINE>
    • one
    • two

    On a terminal what still grows is shown too, and redrawn in place, in one column less than it has at most. Nothing else may be printed there
    within the block. Where its size changes, the text goes on below. With a `height` it is so on any `file`, for a terminal of so many rows and of
    more columns than `width`.

    A link is told by a definition that came before it or with it. For the rest the rows are those that `Markdown(..).show()` prints of the whole.
    """
    return Live(width, skin, file, height)


def pieces(source: Iterable[Union[str, bytes]], width: Optional[int] = None, skin: Skin = "none") -> Iterator[str]:
    """The rows of Markdown as people write it that comes in pieces, each as soon as its paragraph, heading, table or block of code ends.

    The pieces are `str` or `bytes`, cut anywhere: a list, a file that is open, what a model answers, or `iter(lambda: file.read1(4096), b"")`,
    which waits for no more than there is.

    >>> list(pieces(["> a qu", "ote\\n\\n- an ite", "m"], width=20))
    ['▌ a quote', '', '• an item']
    """
    stream = Stream(columns_of(width), skin)
    try:
        for piece in source:
            yield from stream.take(raw(piece, "a piece")).split("\n")[:-1]
        yield from stream.take(b"", True).split("\n")[:-1]
    finally:
        stream.close()
