#!/usr/bin/env python3
"""Writes the texts of the speed comparison: texts.py FOLDER [NAME ..], all of them without a name.

The same bytes come out on every machine and Python version: the generator of numbers is our own. Sizes are in the names: `1m` is 1,000,000
bytes, or the first line end past that. MANIFEST.txt gets the size, the count of lines and the SHA-256 of each file.
"""
import hashlib
import os
import sys

LATIN = """the of and to in a is that it for was on are as with his they at be this from have or by one
had not but what all were when we there can an your which their said if do will each about how up out
them then she many some so these would other into has more her two like him see time could no make
than first been its who now people my made over did down only way find use may water long little very
after words called just where most know""".split()
TECH = """parameter configuration repository serialization asynchronous compatibility implementation
documentation deterministic throughput termination buffer column renderer wrapping alignment
(see below), e.g. well-known end-to-end it's café naïve Zürich""".split()
CODE_WORDS = """fn let mut self.lines.iter() -> Result<(), Error> { } for line in &text.lines; if
width >= 3 => match Some(x) None; return Ok(()); vec![3; n]; usize u16 impl<'s> struct # // --flag
"a string" 0x1f x * y + z ** 2 |a| b""".split()
CJK = "一二三日本語漢字概要天地人火水木金土山川田中大小上下左右前後東西南北春夏秋冬朝昼夜東京都大阪府京都市한국어조선말글자"
KANA = "あいうえおかきくけこさしすせそたちつてとなにぬねのアイウエオカキクケコ"
EMOJI = ["😀", "🚀", "🎉", "👍🏽", "👩‍💻", "❤️", "🇫🇷", "✅"]
COMBINED = ["e\u0301", "n\u0303", "Z\u0360\u0321A", "o\u0308"]


class Rng:
    """splitmix64"""

    def __init__(self, seed):
        self.state = int.from_bytes(hashlib.sha256(seed.encode()).digest()[:8], "big")

    def next(self):
        self.state = (self.state + 0x9E3779B97F4A7C15) & (2**64 - 1)
        z = self.state
        z = ((z ^ (z >> 30)) * 0xBF58476D1CE4E5B9) & (2**64 - 1)
        z = ((z ^ (z >> 27)) * 0x94D049BB133111EB) & (2**64 - 1)
        return z ^ (z >> 31)

    def below(self, n):
        return self.next() % n

    def between(self, lo, hi):
        return lo + self.below(hi - lo + 1)

    def pick(self, seq):
        return seq[self.below(len(seq))]

    def chance(self, percent):
        return self.below(100) < percent


def word(r):
    return r.pick(TECH) if r.chance(12) else r.pick(LATIN)


def words(r, n, marks=8):
    """n words, some of them in runs of bold, italic, code or struck out."""
    out = []
    while n > 0:
        if marks and r.chance(marks):
            k = min(n, r.between(1, 4))
            mark = r.pick(["**", "*", "`", "*", "~~"])
            out.append(mark + " ".join(word(r) for _ in range(k)) + mark)
            n -= k
        else:
            out.append(word(r))
            n -= 1
    return " ".join(out)


def until(size, make):
    """Joins what make() gives until size bytes are reached."""
    parts, total = [], 0
    while total < size:
        part = make()
        parts.append(part)
        total += len(part.encode())
    return "".join(parts)


def prose(r, size):
    def block():
        kind = r.below(100)
        if kind < 8:
            return "#" * r.between(1, 4) + " " + words(r, r.between(2, 9), 5) + "\n\n"
        if kind < 13:
            return "> " + words(r, r.between(10, 60)) + "\n\n"
        if kind < 15:
            return "----\n\n"
        return words(r, r.between(15, 140)) + ".\n\n"
    return until(size, block)


def lists(r, size):
    def item():
        spaces = " " * r.pick([0, 0, 0, 1, 2, 2, 3])
        mark = f"{r.between(1, 400)}. " if r.chance(35) else "* "
        n = r.between(1, 6) if r.chance(50) else r.between(8, 40)
        return spaces + mark + words(r, n) + "\n" + ("\n" if r.chance(4) else "")
    return until(size, item)


def cell(r, col):
    if col == 0:
        return str(r.between(1, 99999))
    if col in (1, 2):
        return words(r, r.between(1, 2), 10)
    if col == 3:
        return "* " + words(r, 2) if r.chance(20) else word(r)
    return words(r, r.between(2, 16), 10)


def table(r, rows, cols):
    rules = ["-", ":-", "-:", ":-:"]
    out = ["|" + "|".join("**" + word(r) + "**" for _ in range(cols)) + "|",
           "|" + "|".join(r.pick(rules) for _ in range(cols)) + "|"]
    for _ in range(rows):
        out.append("| " + " | ".join(cell(r, c) for c in range(cols)) + " |")
    out.append("|" + "-|" * cols)
    return "\n".join(out) + "\n"


def small_tables(r, size):
    return until(size, lambda: words(r, 12) + "\n\n" + table(r, r.between(2, 15), r.between(2, 5)) + "\n")


def code(r, size):
    def line():
        n = r.between(0, 9) if r.chance(80) else r.between(10, 40)
        return " " * (4 * r.below(4)) + " ".join(r.pick(CODE_WORDS) for _ in range(n)) + "\n"

    def block():
        if r.chance(70):
            return words(r, 20) + "\n```rust\n" + "".join(line() for _ in range(r.between(1, 60))) + "```\n\n"
        return words(r, 20) + "\n\n" + "".join("    " + line() for _ in range(r.between(1, 12))) + "\n"
    return until(size, block)


def cjk(r, size):
    def run():
        kind = r.below(100)
        if kind < 55:
            return "".join(r.pick(CJK) for _ in range(r.between(3, 25))) + r.pick(["、", "。", "，", " "])
        if kind < 75:
            return "".join(r.pick(KANA) for _ in range(r.between(2, 12)))
        if kind < 85:
            return " " + words(r, r.between(1, 4)) + " "
        if kind < 93:
            return r.pick(EMOJI)
        if kind < 97:
            return r.pick(COMBINED)
        return "**" + "".join(r.pick(CJK) for _ in range(4)) + "**"

    def block():
        mark = r.pick(["", "", "", "", "* ", "> ", "## ", "1. "])
        return mark + "".join(run() for _ in range(r.between(3, 30))) + "\n" + ("\n" if r.chance(40) else "")
    return until(size, block)


def long_line(r, size):
    return until(size, lambda: words(r, 50) + " ") + "\n"


def long_word(r, size):
    return until(size, lambda: r.pick("abcdefghijklmnopqrstuvwxyz0123456789") * r.between(1, 9)) + "\n"


def tiny_lines(r, size):
    def line():
        kind = r.below(10)
        if kind < 6:
            return "abcdefghijklmnopqrstuvwxyz"[r.below(26)] * r.between(1, 3) + "\n"
        return ["\n", "* a\n", "x *y*\n", "1. b\n"][kind - 6]
    return until(size, line)


def links(r, size):
    """Paragraphs and items with links of each form, and the definitions of those that are named."""
    def address():
        return "https://example.org/" + "/".join(r.pick(LATIN) for _ in range(r.between(1, 3)))

    def link(named):
        kind = r.below(10)
        text = words(r, r.between(1, 4), 10)
        if kind < 5:
            return f"[{text}]({address()})"
        if kind < 7:
            return f"<{address()}>" if kind == 5 else address()
        if kind < 8:
            return f"![{text}]({address()}.png \"{word(r)}\")"
        named.append(f"[{r.pick(LATIN)}-{len(named)}]")
        return f"[{text}]{named[-1]}"

    def block():
        named = []
        front = "- " if r.chance(40) else ""
        parts = " ".join(f"{words(r, r.between(2, 12), 4)} {link(named)}" for _ in range(r.between(1, 5)))
        return front + parts + ".\n\n" + "".join(f"{label}: {address()}\n" for label in named) + ("\n" if named else "")
    return until(size, block)


def mixed(r, size):
    makers = [lambda: prose(r, 3000), lambda: lists(r, 1500), lambda: code(r, 1500),
              lambda: words(r, 9) + "\n\n" + table(r, r.between(3, 12), r.between(2, 5)) + "\n",
              lambda: cjk(r, 300)]
    return until(size, lambda: r.pick(makers)())


CORPORA = {
    "prose_1m": lambda r: prose(r, 1_000_000),
    "prose_10m": lambda r: prose(r, 10_000_000),
    "mixed_1m": lambda r: mixed(r, 1_000_000),
    "mixed_10m": lambda r: mixed(r, 10_000_000),
    "lists_1m": lambda r: lists(r, 1_000_000),
    "lists_10m": lambda r: lists(r, 10_000_000),
    "table_1000x8": lambda r: table(r, 1000, 8),
    "table_10000x8": lambda r: table(r, 10000, 8),
    "tables_small_1m": lambda r: small_tables(r, 1_000_000),
    "code_1m": lambda r: code(r, 1_000_000),
    "code_10m": lambda r: code(r, 10_000_000),
    "cjk_1m": lambda r: cjk(r, 1_000_000),
    "longline_100k": lambda r: long_line(r, 100_000),
    "longline_1m": lambda r: long_line(r, 1_000_000),
    "longline_10m": lambda r: long_line(r, 10_000_000),
    "longword_1m": lambda r: long_word(r, 1_000_000),
    "longword_10m": lambda r: long_word(r, 10_000_000),
    "tiny_1m": lambda r: tiny_lines(r, 1_000_000),
    "tiny_10m": lambda r: tiny_lines(r, 10_000_000),
    "links_1m": lambda r: links(r, 1_000_000),
    "small_prose": lambda r: prose(r, 60_000),
    "small_mixed": lambda r: mixed(r, 60_000),
    "small_lists": lambda r: lists(r, 60_000),
    "small_table": lambda r: table(r, 100, 8),
    "small_code": lambda r: code(r, 60_000),
    "small_cjk": lambda r: cjk(r, 60_000),
    "small_longline": lambda r: long_line(r, 60_000),
    "small_tiny": lambda r: tiny_lines(r, 60_000),
}


MARKDOWN_100K = {"prose": prose, "lists": lists, "links": links, "tables": small_tables, "code": code, "cjk": cjk, "mixed": mixed}
for _name, _make in MARKDOWN_100K.items():
    CORPORA[f"{_name}_100k"] = lambda r, make=_make: make(r, 100_000)


# Texts that repeat one piece, for reading alone; the first part is once in front.
REPEATED = {
    "words_in_a_line": ("", "a word and **two** more "),
    "words_in_lines": ("", "some words and more of them\n"),
    "bars": ("", "|"),
    "backquotes": ("", "`"),
    "bars_and_backquotes": ("", "|`"),
    "newlines": ("", "\n"),
    "fences": ("", "```\n"),
    "blank_cells": ("", "|** "),
    "blanks_in_a_cell": ("|", "** "),
    "rows_and_rules": ("", "|a|b\n|-|-\n"),
    "rule_cells": ("", "|:-:"),
    "stars": ("", "* "),
    "hyphens": ("", "-"),
}


def repeated(name, size):
    front, piece = REPEATED[name]
    return front + piece * ((size - len(front)) // len(piece.encode()))


# Style tokens, over and over.
TOKENS = {
    "tokens_words": "red bold left ",
    "tokens_open": "a(1 ",
    "tokens_letters": "a ",
    "tokens_rgb": "rgb(255, 0, 100) ",
    "tokens_long": "darkmagenta rapid-blink ",
    "tokens_accents": "é ",
    "tokens_digits": "12345 ",
}
REPEATED.update((name, ("", piece)) for name, piece in TOKENS.items())


def skin(name, size):
    if name == "skin_text":
        return '{"bold":"' + "red bold left " * (size // 14) + '"}'
    if name == "skin_list":
        return '{"headers":[' + '"red bold",' * (size // 11) + '"red bold"]}'
    if name == "skin_keys":
        return "{" + ",".join(f'"k{n:08}":1' for n in range(size // 14)) + "}"
    if name == "skin_keys_back":
        return "{" + ",".join(f'"k{n:08}":1' for n in range(size // 14, 0, -1)) + "}"
    if name == "skin_lists":
        return '{"k":[' + "[1]," * (size // 4) + "[1]]}"
    return "[" * size


for _name in ("skin_text", "skin_list", "skin_keys", "skin_keys_back", "skin_lists", "skin_open"):
    CORPORA[f"{_name}_1m"] = lambda r, name=_name: skin(name, 1_000_000)
    CORPORA[f"{_name}_10m"] = lambda r, name=_name: skin(name, 10_000_000)


for _name in REPEATED:
    CORPORA[f"{_name}_1m"] = lambda r, name=_name: repeated(name, 1_000_000)
    CORPORA[f"{_name}_10m"] = lambda r, name=_name: repeated(name, 10_000_000)


def main():
    if len(sys.argv) < 2:
        sys.exit(__doc__)
    out = sys.argv[1]
    os.makedirs(out, exist_ok=True)
    manifest = []
    for name in sys.argv[2:] or CORPORA:
        # a corpus of another size begins with the same bytes
        data = CORPORA[name](Rng(name.replace("small_", "").split("_")[0])).encode()
        with open(os.path.join(out, name + ".md"), "wb") as f:
            f.write(data)
        digest = hashlib.sha256(data).hexdigest()
        manifest.append(f"{name} {len(data)} bytes {data.count(10)} lines sha256 {digest}\n")
        sys.stdout.write(manifest[-1])
    with open(os.path.join(out, "MANIFEST.txt"), "w") as f:
        f.writelines(manifest)


main()
