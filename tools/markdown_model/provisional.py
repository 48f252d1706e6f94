"""Labels of references that count in a leaf before their definitions come, in a text in pieces: [text][label] and [label][] are links by their shape."""
from .inlines import LABEL, normal_label

WORD = frozenset("ABCDEFGHIJKLMNOPQRSTUVWXYZabcdefghijklmnopqrstuvwxyz0123456789_)]")


def label_behind(between: str, rest: str) -> str | None:
    """The label that a closing bracket names, by what is between the brackets and what follows."""
    full = LABEL.match(rest)
    if full and full.group(1).strip(" \t\n"):
        return full.group(1)
    return between if rest.startswith("[]") else None


def labels_named(text: str) -> list[str]:
    """The labels that a text names by their shape. A bracket right behind a word is an index, and digits alone between brackets are a citation."""
    opens: list[tuple[int, bool]] = []
    labels: list[str] = []
    before, escaped = "", False
    for at, c in enumerate(text):
        if escaped:
            escaped = False
        elif c == "[":
            opens.append((at + 1, before not in WORD))
        elif c == "]" and opens:
            begin, free = opens.pop()
            between = text[begin:at]
            label = label_behind(between, text[at + 1:]) if free and not is_number(between) else None
            labels += [] if label is None else [label]
        else:
            escaped = c == "\\"
        before = c
    return labels


def is_number(text: str) -> bool:
    """Nothing but digits, or nothing at all."""
    return all(c in "0123456789" for c in text)


def provided(defs: dict[str, tuple[str, str]], text: str) -> dict[str, tuple[str, str]]:
    """The definitions for a leaf: those that labels of this text lack lead nowhere for now."""
    return {**{normal_label(label): ("", "") for label in labels_named(text)}, **defs}
