"""What the tools share: the project's folders, its crates, and how a tool reads its words and keeps a page that is made."""
from __future__ import annotations

import argparse
import re
import sys
from collections.abc import Iterator
from pathlib import Path
from typing import NamedTuple

ROOT = Path(__file__).resolve().parent.parent
CRATES = ROOT / "crates"
# The head of a definition of specs/, with its name.
DEFINITION = re.compile(r"(?:abbrev pub|unfoldable pub|pub record|pub data|pub) (?!use\b|mod\b|record\b|data\b)(\S+)")
# The head of a function.
FUNCTION = re.compile(r" *(pub(?:\(crate\))? )?(?:const )?fn (\w+)")
# A line that takes definitions of specs/; one that takes types, which stand in `declared`, doesn't count.
TAKEN = re.compile(r"^ *(?:ghost |pub )?use Rattle\.(\w+)\.specs\.(?!declared\.)[\w.]+\.\{([^}]*)\}", re.M)


class Function(NamedTuple):
    """A function of a source, with its clauses."""

    name: str
    is_public: bool
    clauses: list[str]


def parser(doc: str | None) -> argparse.ArgumentParser:
    """A parser whose help is a tool's docstring."""
    return argparse.ArgumentParser(description=doc, formatter_class=argparse.RawDescriptionHelpFormatter)


def checks(doc: str | None) -> bool:
    """Whether a tool that makes files is to check them instead: it takes `--check` and no other word."""
    words = parser(doc)
    words.add_argument("--check", action="store_true", help="write nothing, and fail where a file has another text")
    return words.parse_args().check


def keep(path: Path, text: str, check: bool) -> None:
    """Writes a file that is made, if it has another text; a check fails then, and names the tool that writes it."""
    if path.exists() and path.read_text() == text:
        return
    if check:
        sys.exit(f"{path.relative_to(ROOT)} has another text: run {Path(sys.argv[0]).name} in tools/")
    path.write_text(text)
    print("wrote", path.relative_to(ROOT))


def libraries() -> dict[str, list[str]]:
    """The libraries of each crate, in the order of crates.txt."""
    rows = re.findall(r"^(\w+)(?: staticlib)?:(.*)$", (ROOT / "crates.txt").read_text(), re.M)
    return {name: needs.split() for name, needs in rows}


def in_closure(needs: dict[str, list[str]], name: str) -> set[str]:
    """A crate and all crates of ours that it stands on."""
    found, left = set(), [name]
    while left:
        crate = left.pop()
        if crate in needs and crate not in found:
            found.add(crate)
            left += needs[crate]
    return found


def functions(source: str) -> Iterator[Function]:
    """The functions of a source, each with its clauses: from `ensures` on, up to the next clause or the body."""
    lines, at = source.split("\n"), 0
    while at < len(lines):
        head = FUNCTION.match(lines[at])
        at += 1
        if not head:
            continue
        clauses, ended = [], lines[at - 1].endswith(("{", "{}", ";"))
        while not ended and at < len(lines):
            line = lines[at].strip()
            is_open = bool(clauses) and clauses[-1].count("{") > clauses[-1].count("}")
            if line in ("{", "{}") or line.endswith("{") and not is_open and not line.startswith(("ensures", "requires")):
                break
            if line.startswith(("ensures", "requires")):
                clauses.append(line)
            elif clauses:
                clauses[-1] += " " + line
            ended = bool(clauses) and line.endswith("};")
            at += 1
        yield Function(head.group(2), head.group(1) == "pub ", [clause for clause in clauses if clause.startswith("ensures")])


def names_taken(source: str, ours: set[str]) -> dict[str, str]:
    """The names that a source takes from specs/ of crates of ours, with these."""
    return {name.strip(): crate for crate, listed in TAKEN.findall(source) if crate in ours for name in listed.split(",")}


def handed_on(source: str) -> dict[str, set[str]]:
    """The names that `pub use` lines hand on, by the crate that they come from."""
    found = {}
    for crate, group in re.findall(r"pub use (\w+)(?:::[a-z]\w*)*?::(\{[^}]*\}|\w+)(?: as \w+)?;", source):
        found.setdefault(crate, set()).update(re.findall(r"\w+", group))
    return found
