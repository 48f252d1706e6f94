"""Marks at the words of a page without styles, where a flag begins and where it ends; and signs in front of pictures."""
from __future__ import annotations

from dataclasses import replace

from .lines import Composite, Compound, Line, Normal, TableRow, TableRule
from .sections import Section

MARKS = (("link", "[", "]"), ("italic", "_", "_"), ("bold", "*", "*"), ("strikeout", "~", "~"), ("code", "`", "`"))
ADDRESSES = ("http://", "https://", "ftp://", "mailto:", "www.")
Flags = frozenset[str]
NONE: Flags = frozenset()


def flags_of(compound: Compound, strong: bool) -> Flags:
    """The flags that have marks: bold has none where the whole line is bold, and a link has none that is an address as it stands."""
    held = {name for name, _, _ in MARKS if getattr(compound, name) not in (None, False)}
    if strong:
        held.discard("bold")
    if compound.src.startswith(ADDRESSES):
        held.discard("link")
    return frozenset(held)


def marked(composite: Composite, strong: bool, before: Flags, after: Flags) -> Composite:
    flags = [before, *(flags_of(c, strong) for c in composite.compounds), after]
    compounds: list[Compound] = []
    for k, compound in enumerate(composite.compounds, 1):
        compounds += [Compound(front) for name, front, _ in MARKS if name in flags[k] - flags[k - 1]]
        compounds.append(compound)
        compounds += [Compound(back) for name, _, back in reversed(MARKS) if name in flags[k] - flags[k + 1]]
    return replace(composite, compounds=compounds)


def edge(lines: list[Line], at: int, place: int, strong: bool = False) -> Flags:
    """The flags of the first compound of a line, or of the last; none where it has none."""
    line = lines[at] if at < len(lines) else None
    return flags_of(line.composite.compounds[place], strong) if isinstance(line, Normal) and line.composite.compounds else NONE


def worded(section: Section) -> Section:
    """A section with marks at its words. The head of a table is bold as a whole, and so is the word with which an alert begins."""
    alert = section.fresh > 0 and section.gutters[-1:] != [] and section.gutters[-1].term.startswith("AlertBar")
    strong = alert or isinstance(section.lines[0], (TableRow, TableRule))
    lines: list[Line] = []
    before = NONE
    for k, line in enumerate(section.lines):
        if isinstance(line, Normal):
            lines.append(Normal(marked(line.composite, strong, before, edge(section.lines, k + 1, 0))))
        elif isinstance(line, TableRow):
            lines.append(TableRow([marked(cell, strong, NONE, NONE) for cell in line.cells]))
        else:
            lines.append(line)
        before = edge(section.lines, k, -1, strong)
        strong = strong and isinstance(line, TableRule)
    return replace(section, lines=lines)


# ------------------------------------------------------------------ pictures


def pictured(section: Section, sign: str = "▣") -> Section:
    """A section with a sign in front of what is said of each picture, and a space behind the sign at which no row breaks."""
    def signed(composite: Composite) -> Composite:
        return replace(composite, compounds=[x for c in composite.compounds for x in ([Compound(sign + " ", code=True, sign=True)] if c.picture else []) + [c]])

    def line_of(line: Line) -> Line:
        if isinstance(line, Normal):
            return Normal(signed(line.composite))
        return TableRow(list(map(signed, line.cells))) if isinstance(line, TableRow) else line

    return replace(section, lines=list(map(line_of, section.lines)))
