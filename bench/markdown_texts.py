"""Markdown that is made to be bad for a reader: each kind as a function of its size in characters."""
import sys
from pathlib import Path

sys.path.insert(0, str(Path(__file__).resolve().parent.parent / "tools"))
from markdown_model.hostile import TEXTS as OF_THE_MODEL  # noqa: E402


def repeated(piece, front="", end=""):
    return lambda size: front + piece * ((size - len(front) - len(end)) // len(piece)) + end


def labels(size):
    """Many definitions, and a bracket for each."""
    count = size // 20
    return "".join(f"[{number}]: a\n" for number in range(count)) + "\n" + " ".join(f"[{number}]" for number in range(count))


# A hash that multiplies 16 bytes at a time is nought for all texts of 32 bytes that begin so, whatever the last eight are: the eight before
# them are what the first 16 come to, so one factor is nought. Of random letters one in some million comes to letters.
COLLIDING = "nzrqkwuutsdcrhacborstpsw"


def colliding_labels(size):
    """Many definitions whose labels collide in a hash of a fixed seed, and a bracket for each."""
    labels = [f"[{COLLIDING}{number:08}]" for number in range(size // 73)]
    return "".join(f"{label}: a\n" for label in labels) + "\n" + " ".join(labels)


TEXTS = {
    **OF_THE_MODEL,
    "prose": repeated("some words, and **bold** ones; "),
    "links": repeated("[a](b)"),
    "labels and their definitions": labels,
    "labels that collide": colliding_labels,
    "instructions and a sign >": repeated("a <? ", end=">"),
    "images of html": repeated("<img alt='a'>", "a "),
    "names": repeated("&la;"),
    "names that are": repeated("&lt;"),
    "semicolons behind an address": repeated("&a;", "http://a.b"),
    "block of html: text": repeated("some words, ", "<div>"),
    "block of html: signs <": repeated("<", "<div>"),
    "block of html: tags": repeated("<b>a</b>", "<div>"),
    "block of html: tags that cut": repeated("<p>a", "<div>"),
    "block of html: tags that don't end": repeated("<a ", "<div>"),
    "block of html: quotes": repeated("<a b='", "<div>"),
    "block of html: names of tags": repeated("<aaaa", "<div>"),
    "block of html: closing tags": repeated("</script ", "<div><script>"),
    "block of html: comments": repeated("<!-- ", "<div>"),
    "block of html: images": repeated("<img alt='a'>", "<div>"),
    "block of html: entities": repeated("&lt;", "<div>"),
}
