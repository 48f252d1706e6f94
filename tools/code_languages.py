"""The languages whose code is cut into tokens, as the files of tools/languages say them.

    names: toml                      the names that a fence may have; the first one names the language here
    folds                            words have letters of any case, and marks stand in small letters and in capitals

    list TomlWords                   a list of words, by class; a later mode, of another file too, may name it
    name: false true

    mode                             the first mode is the one that a text begins in; others are entered by their numbers, from 1 on
    words: TomlWords                 its list of words, if it has one
    starts: '$'                      bytes that begin a word, beside letters
    more: '-'                        bytes that are in one, beside letters and digits
    otherwise: text                  the class of all else; without this line it is plain
    with: members capitals numbers   that a word behind a period is none of the list; that capitals are names; that digits begin numbers
    with: exact                      that its words have letters as they stand, in a language that folds
        anywhere '#' line comment    the rules, in order: the first that fits is taken

A rule has a place, one mark or several with `|` between them, an extent, a class; then it may have `if` and what has to follow past blanks, and
`enters N`, `becomes N` or `leaves`. Marks are written as in Python. The words are those of crates/code_tables/src/rules.rt, in small letters:
`through`, `through_lines` have what closes them and `never`, `backslash` or `doubled`; `up_to`, `nested`, `two_parts` have what closes them, `labelled` has
`strict` or `loose`, and `word` may have what has to stand right behind it. A line that begins with `#` is a comment.
"""
from __future__ import annotations

import ast
import re
import sys
from dataclasses import dataclass, field
from pathlib import Path

from project import CRATES, ROOT

FOLDER = ROOT / "tools/languages"
RULES = CRATES / "code_tables/src/rules.rt"
CLASSES = "Plain Comment Text Number Keyword Name Key Inserted Deleted".split()
PLACES = "Anywhere FirstByte FirstWord Apart Value AfterColon".split()
ESCAPES = "Never Backslash Doubled".split()
EXTENTS = "Itself OneMore Line Word Digits UpTo Through ThroughLines Nested QuotedChar Pattern TwoParts Labelled".split()
CLOSED = {"UpTo", "Through", "ThroughLines", "Nested", "TwoParts"}
FLAGS = ("members", "capitals", "numbers", "exact")
PART = re.compile(r"'(?:\\.|[^'\\])*'|\"(?:\\.|[^\"\\])*\"|\S+")


@dataclass
class Rule:
    """A rule: the names are those of rules.rt; an extent may have an argument, and so may a turn."""

    place: str
    mark: str
    extent: tuple[str, str]
    close: str
    followed: list[str]
    kind: str
    turn: tuple[str, str]


@dataclass
class Mode:
    """A mode: the name of its list of words, its further bytes, its flags and its rules."""

    words: str = "NoWords"
    starts: str = ""
    more: str = ""
    otherwise: str = "Plain"
    flags: list[str] = field(default_factory=list)
    rules: list[Rule] = field(default_factory=list)


@dataclass
class Language:
    """A language, with the lists of words that its file has: a class for each word."""

    names: list[str]
    folds: bool = False
    lists: dict[str, dict[str, str]] = field(default_factory=dict)
    modes: list[Mode] = field(default_factory=list)


def named(word: str, names: list[str]) -> str:
    """The name of the sources that a word of a file is."""
    words = {re.sub(r"(?<!^)([A-Z])", r"_\1", name).lower(): name for name in names}
    if word not in words:
        raise ValueError(f"{word} is none of {', '.join(words)}")
    return words[word]


class Parts:
    """The parts of a rule's line, one after the other."""

    def __init__(self, line: str) -> None:
        self.left = PART.findall(line)

    def next(self) -> str:
        if not self.left:
            raise ValueError("the line ends too early")
        return self.left.pop(0)

    def is_text(self) -> bool:
        return bool(self.left) and self.left[0][0] in "'\""

    def text(self) -> str:
        part = self.next()
        if part[0] not in "'\"":
            raise ValueError(f"{part} is no text in quotes")
        return ast.literal_eval(part)

    def takes(self, word: str) -> bool:
        """Whether the next part is that word, which then is taken."""
        if self.left[:1] != [word]:
            return False
        self.left.pop(0)
        return True


def rules_of(line: str, folds: bool) -> list[Rule]:
    """The rules of a line, one for each of its marks."""
    parts = Parts(line)
    place, marks = named(parts.next(), PLACES), [parts.text()]
    while parts.takes("|"):
        marks.append(parts.text())
    extent = named(parts.next(), EXTENTS)
    close = parts.text() if extent in CLOSED or extent == "Word" and parts.is_text() else ""
    argument = ""
    if extent in ("Through", "ThroughLines"):
        argument = named(parts.next(), ESCAPES)
    elif extent == "Labelled":
        argument = "true" if named(parts.next(), ["Strict", "Loose"]) == "Strict" else "false"
    kind = named(parts.next(), CLASSES)
    followed = []
    if parts.takes("if"):
        while parts.is_text():
            followed.append(parts.text())
    # What shall stand behind a colon and a blank may stand at the line's end too.
    followed += [":\n"] if ": " in followed else []
    turn = ("Stays", "")
    if parts.left:
        name = named(parts.next(), ["Leaves", "Enters", "Becomes"])
        turn = (name, "" if name == "Leaves" else parts.next())
    if parts.left:
        raise ValueError(f"{parts.left[0]} stands behind the rule")
    cases = [case for mark in marks for case in ([mark, mark.upper()] if folds and mark.upper() != mark else [mark])]
    return [Rule(place, mark, (extent, argument), close, followed, kind, turn) for mark in cases]


def read_line(language: Language, words: dict[str, str] | None, line: str) -> dict[str, str] | None:
    """Takes a line of a file. The list of words that goes on after it, if one does."""
    head, _, rest = line.strip().partition(":")
    if line.startswith("list "):
        return language.lists.setdefault(line.split()[1], {})
    if line == "folds":
        language.folds = True
    elif line == "mode":
        language.modes.append(Mode())
    elif words is not None:
        language.lists[list(language.lists)[-1]].update(dict.fromkeys(rest.split(), named(head, CLASSES)))
        return words
    elif not language.modes:
        raise ValueError("before the first mode stand names, folds and lists")
    elif line.startswith("    "):
        language.modes[-1].rules += rules_of(line, language.folds)
    elif head in ("starts", "more"):
        setattr(language.modes[-1], head, ast.literal_eval(rest.strip()))
    elif head == "words":
        language.modes[-1].words = rest.strip()
    elif head == "otherwise":
        language.modes[-1].otherwise = named(rest.strip(), CLASSES)
    elif head == "with" and set(rest.split()) <= set(FLAGS):
        language.modes[-1].flags = rest.split()
    else:
        raise ValueError(f"no line begins with {head}")
    return None


def joined(text: str) -> list[tuple[int, str]]:
    """The lines of a file with their numbers, without comments and empty ones. A list's line goes on in those that are indented behind it."""
    lines: list[tuple[int, str]] = []
    in_list = False
    for number, line in enumerate(text.split("\n"), 1):
        if not line.strip() or line.startswith("#"):
            continue
        in_list = line.startswith("list ") or in_list and line != "mode"
        if in_list and line.startswith(" "):
            lines[-1] = (lines[-1][0], lines[-1][1] + line)
        else:
            lines.append((number, line))
    return lines


def read(path: Path) -> Language:
    """The language of a file."""
    lines = joined(path.read_text())
    if not lines or not lines[0][1].startswith("names: "):
        sys.exit(f"{path.relative_to(ROOT)}: its first line has to be names: and the language's names")
    language, words = Language(lines[0][1].split()[1:]), None
    if language.names[:1] != [path.stem]:
        sys.exit(f"{path.relative_to(ROOT)}: its first name has to be the file's")
    for number, line in lines[1:]:
        try:
            words = read_line(language, words, line)
        except (ValueError, SyntaxError) as error:
            sys.exit(f"{path.relative_to(ROOT)}:{number}: {error}")
    return language


def languages() -> list[Language]:
    """All languages: those of rules.rt in its order, and behind them those that are new, by their names."""
    found = {path.stem: read(path) for path in sorted(FOLDER.glob("*.txt"))}
    known = re.search(r"pub enum Language \{(.*?)\}", RULES.read_text(), re.S)
    order = [name.strip().lower() for name in known.group(1).split(",") if name.strip()] if known else []
    return [found[name] for name in order if name in found] + [found[name] for name in found if name not in order]
