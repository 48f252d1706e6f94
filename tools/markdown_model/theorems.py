"""The examples as theorems: what one sees of their blocks, and their sections, for crates/markdown_examples.

    python3 -m markdown_model.theorems [--check]

It writes Blocks*.antt and Sections*.antt in the crate's specs/ and proofs/, the lists of these, and src/blocks.rt and src/sections.rt, by what the model says
of each text. What is of html there is written by `tools/html_theorems`. With --check it writes nothing, and fails if they are others.
"""
from __future__ import annotations

import json
import re
import sys
from collections.abc import Callable, Iterable, Iterator
from typing import NamedTuple

from code_languages import languages

from .blocks import Node, read_blocks
from .lines import EMPTY, Composite, Compound, HorizontalRule, Line, Normal, TableRow
from .picture import HERE, blocks_of, leaf
from .sections import Mapping, Section

CRATE = HERE.parent.parent / "crates/markdown_examples"
PER = 25


def literal(text: str) -> str:
    """A text's bytes as a term: as characters where each can be seen, else as numbers."""
    escapes = {"\\": "\\\\", '"': '\\"', "\n": "\\n", "\t": "\\t", "\r": "\\r"}
    raw = text.encode()
    signs = [escapes.get(sign) or (sign if sign.isprintable() else None) for sign in raw.decode("latin-1")]
    if not raw:
        return "[]"
    return f"({listed(raw)})" if None in signs else f'(codes "{"".join(signs)}")'


def alone(term: str) -> str:
    """A term that stands between others, where a name's application needs no parentheses."""
    return term[1:-1] if term.startswith("(codes ") else term


def listed(terms: Iterable[object]) -> str:
    return "".join(f"{term} ∷ " for term in terms) + "[]"


# ---- blocks

KINDS = {"para": "Paragraph", "code": "Indented", "fence": "Fenced", "html": "Html", "def": "Definitions", "rule": "Rule"}


def kind_of(node: Node) -> str:
    return f"(Heading {node.level})" if node.kind == "head" else f"(Table {len(node.aligns)})" if node.kind == "table" else KINDS[node.kind]


def seen(children: list[Node]) -> Iterator[str]:
    for node, lines in blocks_of(children):
        if node.kind in ("quote", "item"):
            yield "opens Quote" if node.kind == "quote" else f"opens (Item {ord(node.marker)} {node.number} {node.width})"
            yield from seen(node.children)
            yield "closes"
        else:
            kept = lines if node.kind == "def" else leaf(node)[1]
            yield f"leaf {kind_of(node)} ({listed(alone(literal(line)) for line in kept)})"


def blocks_rows(number: int, text: str) -> Iterator[tuple[str, str]]:
    yield f"e{number}", f"seen {literal(text)} ≡ {listed(seen(read_blocks(text).children))}"


# ---- sections

def run(compound: Compound) -> str:
    if compound.picture:
        assert compound.link is None, "Rows.antt has no word for a picture in a link"
        return f"pictured {literal(compound.src)}"
    flags = (compound.bold, compound.italic, compound.code, compound.strikeout, compound.link is not None)
    return f"{'flagged ' + ' '.join(str(flag).lower() for flag in flags) if any(flags) else 'plain'} {literal(compound.src)}"


def runs(composite: Composite) -> str:
    return f"({listed(map(run, composite.compounds))})"


def line(it: Line) -> str:
    if isinstance(it, Normal):
        kind = it.composite.style
        words = {"Code": "code_row", "Header": f"row (Header {kind.level})"}.get(kind.name, f"row {kind.name}")
        return f"{words} {runs(it.composite)}"
    if isinstance(it, TableRow):
        return f"cells ({listed(map(runs, it.cells))})"
    if isinstance(it, HorizontalRule):
        return "horizontal_rule"
    return f"table_rule ({listed(a.value.capitalize() for a in it.cells)})"


def is_blank(it: Section) -> bool:
    return it.fresh == 0 and it.lines == [EMPTY]


def language_of(info: str) -> str | None:
    """The variant of the language that is named behind a fence, if one is."""
    word = re.match(r"[ \t{}.]*([^ \t,{}:;]*)", info).group(1).lower()
    return next((language.names[0].capitalize() for language in languages() if word in language.names), None)


def section(it: Section) -> str:
    """Its gutters, how many of them begin with it, and its lines. A table's are those of a list too, if it becomes one. Code in a language has its
    tones; the examples have one line of it at most."""
    gutters = f"({listed(gutter.term for gutter in it.gutters)})" if it.gutters else "[]"
    if is_blank(it):
        return f"blank {gutters}"
    language = language_of(it.fence[0]) if it.fence else None
    if language:
        _, code = it.fence
        return f"toned_behind {gutters} {it.fresh} {language} {literal(code)} ({listed(map(line, it.lines))})"
    return f"{'behind' if it.items is None else 'table_behind'} {gutters} {it.fresh} ({listed(map(line, it.lines))})"


def link(section: int, address: str) -> str:
    return f"link_at {section} {literal(address)}"


def sections_rows(number: int, text: str) -> Iterator[tuple[str, str]]:
    """The sections of a text, and its links, if it has some."""
    mapping = Mapping(text)
    yield f"e{number}", f"printable_sections {literal(text)} ≡ {listed(map(section, mapping.sections))}"
    if mapping.links:
        yield f"l{number}", f"unmarked_links {literal(text)} ≡ {listed(link(*it) for it in mapping.links)}"


# ---- files

VARIANTS = {
    "Rattle.markdown_blocks.specs.declared.containers.Container": ["Quote", "Item"],
    "Rattle.markdown_leaves.specs.declared.parts.Kind": ["Paragraph", "Heading", "Indented", "Fenced", "Html", "Table", "Rule", "Definitions"],
    "Rattle.mad_sections.specs.declared.gutters.Gutter": ["Bar", "AlertBar", "Bullet", "Number", "Task", "Code"],
    "Rattle.mad_sections.specs.declared.gutters.Alert": ["Note", "Tip", "Important", "Warning", "Caution"],
    "Rattle.mad_md.specs.declared.composite.CompositeStyle": ["Paragraph", "Header"],
    "Rattle.mad_md.specs.declared.alignment.Alignment": ["Unspecified", "Left", "Center", "Right"],
}

LANGUAGE = "Rattle.code_tables.specs.declared.rules.Language"
TONED = re.compile(r"toned_behind (?:\(.*?\)|\[\]) \d+ (\w+) ")


def named(names: list[str], rows: list[str]) -> list[str]:
    """Those of the names that stand in the rows, but for their texts."""
    words = set(re.findall(r"\w+", re.sub(r'"(\\.|[^"\\])*"', "", " ".join(rows))))
    return [name for name in names if name in words]


def use(path: str, names: list[str]) -> str:
    return f"use {path}.{{{', '.join(names)}}}\n" if names else ""


def variants(path: str, rows: list[str]) -> str:
    return use(path + ".TheVariants", named(VARIANTS[path], rows))


def blocks_uses(rows: list[str]) -> tuple[str, str]:
    containers, kinds = list(VARIANTS)[:2]
    return "", variants(containers, rows) + variants(kinds, rows) + use("Rattle.markdown_examples.specs.Seen", ["opens", "closes", "leaf", "seen"])


def sections_uses(rows: list[str]) -> tuple[str, str]:
    words = ["plain", "flagged", "pictured", "row", "code_row", "cells", "behind", "table_behind", "blank", "toned_behind"]
    tongues = sorted({name for row in rows for name in TONED.findall(row)})
    return ", true, false", use(LANGUAGE + ".TheVariants", tongues) + "".join(variants(path, rows) for path in list(VARIANTS)[2:]) + use(
        "Rattle.mad_md.specs.Lines", named(["table_rule", "horizontal_rule"], rows)) + use(
        "Rattle.markdown_examples.specs.Rows", named(words, rows)) + use(
        "Rattle.markdown_reader.specs.Mapping", named(["link_at"], rows)) + use(
        "Rattle.markdown_reader.specs.Markdown", named(["printable_sections", "unmarked_links"], rows))


def group_files(part: Part, number: int, first: int, texts: list[str]) -> Iterator[tuple[str, str]]:
    """The statements of a group, and their proofs."""
    title = f"-- Examples {first} to {first + len(texts) - 1}"
    named_rows = [row for k, text in enumerate(texts, first) for row in part.rows_of(k, text)]
    prelude, others = part.uses([row for _, row in named_rows])
    module, statement, proof = f"{part.name}{number}", f"Are{part.name}{number}", f"{part.name.lower()}{number}"
    record = f"pub record {statement} : Type 0 where\n" + "".join(f"  pub {name} : {row}\n" for name, row in named_rows)
    yield f"specs/{module}.antt", (
        f"{title}: {part.said}.\nuse Rattle.std.specs.Prelude.{{◌≡◌, [], ◌∷◌, codes{prelude}}}\n{others}\n{record}")
    proofs = "".join(f"{name} : {row}\nunfolding {part.unfolded}\n{name} = refl\n\n" for name, row in named_rows)
    yield f"proofs/{module}.antt", (
        f"{title}, computed.\nuse Rattle.std.proofs.Common.{{◌≡◌, [], ◌∷◌, codes{prelude}, refl}}\n{others}"
        + use(f"Rattle.markdown_examples.specs.{module}", [statement]) + use(f"Rattle.{part.computing}.proofs.Computing", [part.unfolded])
        + f"\n{proofs}pub {proof} : {statement}\n{proof} = record {{ {'; '.join(f'{name} = {name}' for name, _ in named_rows)} }}\n")


class Part(NamedTuple):
    """What is said of the examples: blocks or sections."""
    name: str
    rows_of: Callable[[int, str], Iterator[tuple[str, str]]]
    uses: Callable[[list[str]], tuple[str, str]]
    said: str
    computing: str
    unfolded: str
    law: str
    head: str


PARTS = [
    Part("Blocks", blocks_rows, blocks_uses, "what one sees of their blocks", "markdown_as_html", "reading", "What the blocks of examples {} are.", "The blocks of examples."),
    Part("Sections", sections_rows, sections_uses, "their sections and links", "markdown_examples", "sections", "The sections and links of examples {}.", "The sections that are shown of examples, and their links."),
]


def part_files(part: Part, texts: list[str]) -> Iterator[tuple[str, str]]:
    starts = range(0, len(texts), PER)
    for number, at in enumerate(starts, 1):
        yield from group_files(part, number, at + 1, texts[at:at + PER])
    name, proof = part.name, part.name.lower()
    laws = "".join(
        f"\n/// {part.law.format(f'{at + 1} to {min(at + PER, len(texts))}')}\n#[tactic(auto, using(crate::proofs::{name}{k}::{proof}{k}))]\n"
        f"pub fn examples_{k}()\n    ensures {{ Are{name}{k} }}\n{{}}\n" for k, at in enumerate(starts, 1))
    ghosts = "".join(f"ghost use Rattle.markdown_examples.specs.{name}{k}.{{Are{name}{k}}};\n" for k in range(1, len(starts) + 1))
    yield f"src/{proof}.rt", f"//! {part.head}\n\n{ghosts}{laws}"


def files(texts: list[str]) -> Iterator[tuple[str, str]]:
    for part in PARTS:
        yield from part_files(part, texts)
    count = len(range(0, len(texts), PER))
    made = "".join(f"pub mod {part.name}{k}\n" for part in PARTS for k in range(1, count + 1))
    for folder in ("specs", "proofs"):
        name = f"{folder}/Lib.antt"
        others = re.sub(r"pub mod (Blocks|Sections)\d+\n", "", (CRATE / name).read_text(encoding="utf-8"))
        front, html, rest = others.partition("pub mod Html1\n")
        yield name, front + made + html + rest


def main() -> None:
    texts = [json.loads(one)["text"] for one in (HERE / "examples.jsonl").read_text(encoding="utf-8").splitlines()]
    for name, text in files(texts):
        path = CRATE / name
        if "--check" not in sys.argv[1:]:
            path.write_text(text, encoding="utf-8")
        elif not path.exists() or path.read_text(encoding="utf-8") != text:
            sys.exit(f"{path} has others than the model: run python3 -m markdown_model.theorems in tools/")
    print(len(texts), "examples")


if __name__ == "__main__":
    main()
