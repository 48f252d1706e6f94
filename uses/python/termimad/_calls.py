"""The calls of libtermimad, by ctypes. Set TERMIMAD_LIBRARY to the path of the shared library; without it the loader looks for `libtermimad.so`."""
from __future__ import annotations

import ctypes
import json
import operator
import os
from typing import Any, Dict, List, Mapping, Optional, Sequence, SupportsIndex, Tuple, Union

Words = Union[str, bytes, "os.PathLike[str]"]
Skin = Union[str, bytes, Mapping[str, object]]


class Refused(Exception):
    """A call was refused. Each of its kinds is a class of its own, and names the argument.

    >>> try:
    ...     Markdown("a").show(skin="drak")
    ... except Refused as refusal:
    ...     print(refusal)
    skin='drak' is no name of a skin, and no JSON text.
    """


class WrongNumber(Refused, ValueError):
    """A number is none that the call takes.

    >>> fit("a long line", width=10, align=4)
    Traceback (most recent call last):
    termimad.WrongNumber: align=4 is over 3.
    """


class NotUtf8(Refused, ValueError):
    """A text or a skin is not UTF-8.

    >>> printable(b"caf\\xe9")
    Traceback (most recent call last):
    termimad.NotUtf8: words is not UTF-8.
    """


class WrongSkin(Refused, ValueError):
    """A skin is no name of one, and no JSON text that says one. Where one of its keys is to blame, that is named.

    >>> Markdown("a").rows(skin={"bold": "pissenlit"})
    Traceback (most recent call last):
    termimad.WrongSkin: skin='{"bold": "pissenlit"}' says no skin: bold doesn't take 'pissenlit'.
    """


class OutOfMemory(Refused, MemoryError):
    """There was no memory for the result.

    >>> issubclass(OutOfMemory, MemoryError)
    True
    """


_DONE, _SHORT, _CONDITION, _NOT_UTF8, _SKIN, _MEMORY = range(6)
_FIRST_CAPACITY = 4096
_MOST, _MOST_SIDE, _LEAST_AREA_WIDTH = 65535, 3, 4


class _Answer(ctypes.Structure):
    _fields_ = [("count", ctypes.c_size_t), ("status", ctypes.c_uint32)]


class _Pointer(ctypes.Structure):
    _fields_ = [("text", ctypes.c_void_p)]


class _Place(ctypes.Structure):
    _fields_ = [("section", ctypes.c_size_t), ("found", ctypes.c_uint32), ("status", ctypes.c_uint32)]


class _Progress(ctypes.Structure):
    _fields_ = [("count", ctypes.c_size_t), ("used", ctypes.c_size_t), ("fenced", ctypes.c_uint32), ("status", ctypes.c_uint32)]


_library = ctypes.CDLL(os.environ.get("TERMIMAD_LIBRARY", "libtermimad.so"))
_BYTES = [ctypes.c_char_p, ctypes.c_size_t]
_KEPT = ctypes.POINTER(_Pointer)
_PARAMETERS = {
    "termimad_area": _BYTES * 2 + [ctypes.c_size_t] * 4 + _BYTES,
    "termimad_text": _BYTES * 2 + [ctypes.c_size_t] + _BYTES,
    "termimad_markdown": _BYTES * 2 + [ctypes.c_size_t] + _BYTES,
    "termimad_code": _BYTES * 3 + [ctypes.c_size_t] + _BYTES,
    "termimad_links": _BYTES * 2,
    "termimad_headings": _BYTES * 2,
    "termimad_find_section": _BYTES * 2,
    "termimad_parts": _BYTES * 2 + [ctypes.c_size_t] * 3 + _BYTES,
    "termimad_stream_begin": [_KEPT, *_BYTES, ctypes.c_size_t],
    "termimad_stream_take": [_KEPT, *_BYTES, ctypes.c_size_t, *_BYTES],
    "termimad_stream_end": [_KEPT],
    "termimad_live_begin": [_KEPT, *_BYTES, ctypes.c_size_t, ctypes.c_size_t],
    "termimad_live_take": [_KEPT, *_BYTES, ctypes.c_size_t, *_BYTES],
    "termimad_live_resize": [_KEPT, ctypes.c_size_t, ctypes.c_size_t, *_BYTES],
    "termimad_live_end": [_KEPT],
    "termimad_inline": _BYTES * 3,
    "termimad_rows": _BYTES * 2 + [ctypes.c_size_t],
    "termimad_fit": _BYTES * 2 + [ctypes.c_size_t] * 2 + _BYTES,
    "termimad_printable": _BYTES * 2,
    "termimad_table": _BYTES + [ctypes.POINTER(ctypes.c_size_t), ctypes.c_size_t] * 2 + _BYTES + [ctypes.c_size_t] * 2 + _BYTES,
}
_RESULTS: Dict[str, Any] = {"termimad_find_section": _Place, "termimad_parts": _Progress, "termimad_stream_end": None, "termimad_live_end": None}
for _name, _parameters in _PARAMETERS.items():
    _call = getattr(_library, _name)
    _call.argtypes, _call.restype = _parameters, _RESULTS.get(_name, _Answer)


def result(name: str, texts: Mapping[str, Words], numbers: Mapping[str, SupportsIndex]) -> str:
    """What a call makes of its arguments, each by its name."""
    return _filled(name, texts, numbers)[0]


def rows_of_parts(left: bytes, skin: Skin, width: int, fenced: int, last: int) -> Tuple[str, int, int]:
    """The rows of the complete parts of what is left, how many of its bytes they are of, and whether a fence is open then."""
    made, answer = _filled("termimad_parts", {"pieces": left, "skin": skin_word(skin)}, {"width": width, "fenced": fenced, "last": last})
    return made, answer.used, answer.fenced


class _Kept:
    """A text of Markdown that comes in pieces, which the library keeps until it is closed."""

    _kind = ""

    def __init__(self, skin: Skin, numbers: Mapping[str, SupportsIndex]) -> None:
        self.is_open = False
        self._kept = _Pointer()
        texts, sizes = _raw_texts({"skin": skin_word(skin)}), _sizes(numbers)
        _checked(self._called("begin", *_handed(texts), *sizes.values()), texts, sizes)
        self.is_open = True

    def take(self, piece: bytes, is_last: bool = False) -> str:
        """What the next piece, or the last one, adds."""
        if not self.is_open:
            raise ValueError("a piece comes behind the end of its text")
        found, capacity, left = b"", _FIRST_CAPACITY, piece
        while True:
            buffer = ctypes.create_string_buffer(capacity)
            answer = _checked(self._called("take", left, len(left), int(is_last), buffer, capacity), {"a piece": piece}, {})
            found += buffer.raw[: min(answer.count, capacity)]
            if answer.status == _DONE:
                return found.decode()
            left, capacity = b"", answer.count - capacity

    def close(self) -> None:
        """Gives its memory back. Nothing more comes."""
        if self.is_open:
            self.is_open = False
            self._called("end")

    def __del__(self) -> None:
        self.close()

    def _called(self, name: str, *given: object) -> Any:
        return getattr(_library, f"termimad_{self._kind}_{name}")(ctypes.byref(self._kept), *given)


class Stream(_Kept):
    """A text whose rows come as they are complete."""

    _kind = "stream"

    def __init__(self, width: SupportsIndex, skin: Skin) -> None:
        super().__init__(skin, {"width": width})


class Growth(_Kept):
    """A text that grows on a terminal."""

    _kind = "live"

    def __init__(self, width: SupportsIndex, height: SupportsIndex, skin: Skin) -> None:
        super().__init__(skin, {"width": width, "height": height})

    def resize(self, width: SupportsIndex, height: SupportsIndex) -> str:
        """What begins a new row, below which it goes on."""
        sizes, buffer = _sizes({"width": width, "height": height}), ctypes.create_string_buffer(_FIRST_CAPACITY)
        answer = _checked(self._called("resize", *sizes.values(), buffer, _FIRST_CAPACITY), {}, sizes)
        return buffer.raw[: answer.count].decode()


def lines_of(name: str, source: bytes) -> List[List[str]]:
    """What a call tells of a source, line by line, as the parts between tabs."""
    return [line.split("\t") for line in result(name, {"source": source}, {}).split("\n")[:-1]]


def section_of(source: bytes, name: Words) -> Optional[int]:
    """The number of the section of a source to which a name leads, if there is one."""
    texts = _raw_texts({"source": source, "name": name})
    place = _checked(_library.termimad_find_section(*_handed(texts)), texts, {})
    return int(place.section) if place.found else None


def row_count(markdown: Words, skin: Skin, width: int) -> int:
    """How many rows a text takes."""
    texts, numbers = _raw_texts({"markdown": markdown, "skin": skin_word(skin)}), _sizes({"width": width})
    answer = _library.termimad_rows(*_handed(texts), *numbers.values())
    return int(_checked(answer, texts, numbers).count)


def table_of_cells(cells: Sequence[bytes], columns: int, width: int, aligns: Sequence[SupportsIndex], skin: Skin) -> str:
    """A table of cells, row by row."""
    joined, texts = b"".join(cells), _raw_texts({"skin": skin_word(skin)})
    lengths = (ctypes.c_size_t * len(cells))(*map(len, cells))
    numbers = _sizes({"width": width, **{f"aligns[{index}]": align for index, align in enumerate(aligns)}})
    width, *known_sides = numbers.values()
    sides = (ctypes.c_size_t * len(known_sides))(*known_sides)
    given = [joined, len(joined), lengths, len(cells), sides, len(known_sides), *_handed(texts), columns, width]
    return _answered("termimad_table", given, texts, numbers)[0]


def skin_word(skin: Skin) -> Words:
    """A skin as the library takes it: a word, or JSON text."""
    return json.dumps(skin) if isinstance(skin, Mapping) else skin


def raw(words: Words, name: str = "text") -> bytes:
    """The bytes of a text, or of a file. The name is that of the argument."""
    if isinstance(words, os.PathLike):
        with open(words, "rb") as file:
            return file.read()
    if isinstance(words, str):
        return words.encode("utf-8", "surrogatepass")
    if isinstance(words, (bytes, bytearray, memoryview)):
        return bytes(words)
    raise TypeError(f"{name} is {_kind(words)}, where str, bytes, {'or a dict' if name == 'skin' else 'or a path'} is taken")


def _kind(given: object) -> str:
    return "None" if given is None else f"of type {type(given).__name__}"


def _filled(name: str, texts: Mapping[str, Words], numbers: Mapping[str, SupportsIndex]) -> Tuple[str, Any]:
    """What the call makes of texts and numbers, and its answer."""
    handed, sizes = _raw_texts(texts), _sizes(numbers)
    return _answered(name, [*_handed(handed), *sizes.values()], handed, sizes)


def _answered(name: str, given: Sequence[object], texts: Mapping[str, bytes], numbers: Mapping[str, int]) -> Tuple[str, Any]:
    """What the call makes and its answer, by a second call where the first buffer is too small."""
    capacity = _FIRST_CAPACITY
    while True:
        buffer = ctypes.create_string_buffer(capacity)
        answer = _checked(getattr(_library, name)(*given, buffer, capacity), texts, numbers)
        if answer.status == _DONE:
            return buffer.raw[: answer.count].decode(), answer
        capacity = answer.count


def _checked(answer: Any, texts: Mapping[str, bytes], numbers: Mapping[str, int]) -> Any:
    """The answer, where it isn't a refusal: that names the arguments."""
    if answer.status in (_DONE, _SHORT):
        return answer
    if answer.status == _CONDITION:
        raise WrongNumber(_said_of(numbers))
    if answer.status == _NOT_UTF8:
        wrong = [name for name, text in texts.items() if not _is_utf8(text)] or [*texts]
        raise NotUtf8(f"{' and '.join(wrong)} is not UTF-8.")
    if answer.status == _SKIN:
        word = texts["skin"].decode()
        raise WrongSkin(f"skin={word!r} {_fault_of_skin(word)}.")
    raise OutOfMemory("There was no memory for the result.")


def _said_of(numbers: Mapping[str, int]) -> str:
    """Which numbers no call takes, and why."""
    most = {name: _MOST_SIDE if name.startswith("align") else _MOST for name in numbers}
    said = [f"{name}={number} is under 0" for name, number in numbers.items() if number < 0]
    said += [f"{name}={number} is over {most[name]}" for name, number in numbers.items() if number > most[name]]
    if not said and "left" in numbers:
        said += [f"width={numbers['width']} is under {_LEAST_AREA_WIDTH}"] * (numbers["width"] < _LEAST_AREA_WIDTH)
        pairs = [("left", "width"), ("top", "height")]
        said += [f"{a}={numbers[a]} and {b}={numbers[b]} are together over {_MOST}" for a, b in pairs if numbers[a] + numbers[b] > _MOST]
    return f"{'; '.join(said) or 'a number is none that the call takes'}."


def _fault_of_skin(word: str) -> str:
    """What is wrong with a skin that the library refuses, which doesn't say it: a key is to blame that it refuses alone too."""
    try:
        given = json.loads(word)
    except ValueError:
        return "is no name of a skin, and no JSON text"
    if not isinstance(given, dict):
        return "is JSON text, but no object"
    page = given.pop("page", {})
    parts = [(key, {key: value}, value) for key, value in given.items()]
    if isinstance(page, dict):
        parts += [(f"page.{key}", {"page": {key: value}}, value) for key, value in page.items()]
    else:
        parts += [("page", {"page": page}, page)]
    for name, alone, value in parts:
        if not _says_skin(alone):
            return f"says no skin: {name} doesn't take {value!r}"
    return "says no skin"


def _says_skin(skin: Mapping[str, object]) -> bool:
    """Whether the library takes a skin of a page."""
    word = json.dumps(skin).encode()
    return bool(_library.termimad_markdown(b"", 0, word, len(word), 0, ctypes.create_string_buffer(1), 1).status in (_DONE, _SHORT))


def _is_utf8(text: bytes) -> bool:
    try:
        text.decode()
    except UnicodeDecodeError:
        return False
    return True


def _raw_texts(texts: Mapping[str, Words]) -> Dict[str, bytes]:
    return {name: raw(words, name) for name, words in texts.items()}


def _handed(texts: Mapping[str, bytes]) -> List[object]:
    """Each text as its bytes and their number."""
    return [word for text in texts.values() for word in (text, len(text))]


def _sizes(numbers: Mapping[str, SupportsIndex]) -> Dict[str, int]:
    """The numbers, which ctypes would cut to their lower bits where they are too large."""
    sizes = {}
    for name, number in numbers.items():
        try:
            sizes[name] = operator.index(number)
        except TypeError:
            raise TypeError(f"{name} is {_kind(number)}, where an int is taken") from None
        if not 0 <= sizes[name] < 2**63:
            raise WrongNumber(_said_of({name: sizes[name]}))
    return sizes
