#!/usr/bin/env python3
"""Runs the program on texts that are made to be bad for it, one and ten megabytes of each: hostile.py PROGRAM FOLDER [KIND ..]

The texts are made in FOLDER, one after the other, and taken away again. A cell of the table has the best wall time of some runs, and the
peak memory that GNU time says, at one megabyte and at ten. In brackets are the ratios of processor time and of memory; one over eleven is
in bold. A skin is one argument: its sizes are the greatest that Linux takes, and a tenth of that. A second table has the texts of
`markdown_texts.py`, and of tables, read as people write Markdown. A third has texts of code, 40 kB of each, and the best processor time of some
runs. The script fails at another status than the one beside a kind, where a table takes more memory than it may, and where code takes more time.
"""
import random
import resource
import subprocess
import sys
import time
from pathlib import Path

from markdown_texts import TEXTS as MARKDOWN

COMMANDS = ["area 0 0 80 24", "text 80", "text 3", "inline"]
MARKDOWN_COMMANDS = ["markdown 80"]
SIZES = (1_000_000, 10_000_000)
SKIN_SIZES = (13_000, 130_000)
TURNS = 3
GREATEST_RATIO = 11


def repeated(piece, front=""):
    return lambda size: front + piece * ((size - len(front)) // len(piece.encode()))


def of_characters(characters):
    return lambda size: "".join(random.Random(size).choices(characters, k=size))


def random_bytes(size):
    """Random bytes, without those that make no character."""
    return random.Random(size).randbytes(2 * size).decode(errors="ignore").encode()[:size].decode(errors="ignore")


def random_characters(size):
    pick = random.Random(size).randrange
    return "".join(chr(code) for code in (pick(0x110000) for _ in range(size // 4)) if not 0xD800 <= code < 0xE000)


TEXTS = {
    "one line": repeated("some words and **more** of them "),
    "one word": repeated("abcdefghij"),
    "spaces": repeated(" "),
    "empty lines": repeated("\n"),
    "lines of one letter": repeated("a\n"),
    "bars": repeated("|"),
    "backquotes": repeated("`"),
    "stars": repeated("*"),
    "stars and spaces": repeated("* "),
    "marks round letters": repeated("*a**b~~c`d`"),
    "fences": repeated("```\n"),
    "a fence that stays open": repeated("code\n", "```\n"),
    "`> ` in one line": repeated("> "),
    "`> ` in many lines": repeated("> \n"),
    "headers": repeated("######## a\n"),
    "items": repeated("   999999999. a b\n"),
    "combining characters": repeated("\u0301"),
    "letters with ten accents": repeated("e" + "\u0301" * 10),
    "wide characters": repeated("概"),
    "control characters": repeated("\x1b[2J\t\r"),
    "rows of one column": repeated("|a b c\n"),
    "rows of a thousand columns": repeated("|a" * 1000 + "\n"),
    "one row of many columns": repeated("|a"),
    "rules": repeated("|-|-\n"),
    "rows of which one is long": lambda size: "|" + "a b " * (size // 8) + "\n" + "|c\n" * (size // 6),
    "random bytes that are UTF-8": random_bytes,
    "random characters": random_characters,
    "random marks": of_characters("*`~|>#-\n\n  1.a:"),
}


def brackets(size):
    return "[" * size


def filled(front, piece, end):
    return lambda size: front + piece * ((size - len(front) - len(end)) // len(piece)) + end


# Each skin with its status.
SKINS = {
    "a skin of one long text": (filled('{"bold":"', "red bold left ", '"}'), 0),
    "a skin of brackets that never close": (filled('{"bold":"', "a(1 ", '"}'), 0),
    "a skin of a list": (filled('{"headers":[', '"red bold",', '"red"]}'), 0),
    "a skin of one key, over and over": (filled("{", '"bold":"red",', '"bold":"red"}'), 0),
    "a skin of unknown keys": (lambda size: "{" + ",".join(f'"k{n:07}":1' for n in range(size // 13)) + "}", 0),
    "a skin that nests 126 deep": (filled('{"k":[', "[" * 125 + "]" * 125 + ",", "1]}"), 0),
    "a skin of brackets without end": (brackets, 4),
    "a skin whose one text is brackets": (filled('{"k":"', '[{\\"', '"}'), 0),
    "a skin of escapes": (filled('{"k":"', "\\ud83d\\ude00", '"}'), 0),
}


def short_rows(columns):
    """A table whose rows have one cell, and no bar."""
    return repeated("a\n", "|a" * columns + "|\n" + "|-" * columns + "|\n")


# Tables that are read as people write Markdown, and how many bytes of memory a byte of each may take at most.
TABLES = {"a table of 19 columns, with rows of one letter": short_rows(19)}
MOST_MEMORY = {"a table of 19 columns, with rows of one letter": 200}

# Texts of code, each with its language: what opens and never closes, what nests, and what has to be looked at twice.
CODE = {
    "templates in templates": ("javascript", repeated("`${")),
    "templates beside each other": ("typescript", repeated("`a ${b} ")),
    "patterns that stay open": ("javascript", repeated("=/[")),
    "commands in texts": ("sh", repeated('"$(')),
    "texts up to labels": ("sh", repeated("<<a\n")),
    "a text up to a label that never comes": ("perl", repeated("words\n", "<<A;\n")),
    "a comment that stays open": ("c", repeated("words ", "/* ")),
    "comments in comments": ("rust", repeated("/*")),
    "apostrophes": ("rust", repeated("'")),
    "texts with signs in front": ("rust", repeated('r##"')),
    "quotes": ("python", repeated('"')),
    "texts of three quotes": ("python", repeated("'\'\'a ")),
    "keys without colons": ("json", repeated('"a" ')),
    "words before colons": ("yaml", repeated("a b: ")),
    "selectors": ("css", repeated("a{b{")),
    "tags that stay open": ("html", repeated("<a ")),
    "scripts": ("html", repeated("<script>")),
    "parts of substitutions": ("perl", repeated("s/a/")),
    "calls in calls": ("make", repeated("$(a ")),
    "sections": ("toml", repeated("[a")),
    "one word": ("sql", repeated("abcdefghij")),
    "spaces": ("ini", repeated(" ")),
    "continued lines": ("dockerfile", repeated("RUN a \\\n")),
    "prompts": ("console", repeated("$ ")),
    "lines of a diff": ("diff", repeated("+ words\n- words\n")),
    "random signs": ("cpp", of_characters("\"'`/*\\<>(){}[]#$@=:;-+ \nab1")),
}
CODE_SIZE = 40_000
MOST_SECONDS = 0.05


def processor_seconds():
    used = resource.getrusage(resource.RUSAGE_CHILDREN)
    return used.ru_utime + used.ru_stime


class Run:
    """Some runs of one command: the status, the least seconds, and the peak memory in MiB."""

    def __init__(self, command, path):
        self.wall = self.processor = float("inf")
        for _ in range(TURNS):
            before, begin = processor_seconds(), time.perf_counter()
            with open(path, "rb") as given:
                child = subprocess.run(["/usr/bin/time", "-q", "-f", "%M", *command], stdin=given, stdout=subprocess.DEVNULL, stderr=subprocess.PIPE)
            self.wall = min(self.wall, time.perf_counter() - begin)
            self.processor = min(self.processor, processor_seconds() - before)
            self.status = child.returncode
            self.mebibytes = int(child.stderr.split()[-1]) / 1024


def ratio(small, great):
    grown = great / small
    return f"(**{grown:.1f}**)" if grown > GREATEST_RATIO else f"({grown:.1f})"


def cell(small, great):
    times = f"{small.wall * 1000:.0f} {great.wall * 1000:.0f} ms " + ratio(small.processor, great.processor)
    return times + f", {small.mebibytes:.0f} {great.mebibytes:.0f} MiB " + ratio(small.mebibytes, great.mebibytes)


def row(kind, runs, status):
    """One row of the table; the runs are pairs, each of one command."""
    print(f"| {kind} | {status} | " + " | ".join(cell(*pair) for pair in runs) + " |", flush=True)
    for run in (run for pair in runs for run in pair):
        if run.status != status:
            sys.exit(f"hostile.py: {kind}: status {run.status}")


def table(commands):
    print("| text | status | " + " | ".join(f"`{command}`" for command in commands) + " |")
    print("|---" * (2 + len(commands)) + "|")


def rows(texts, commands, program, path, kinds):
    """A row for each text of these kinds."""
    for kind, make in texts.items():
        if not kinds or kind in kinds:
            runs = [[] for _ in commands]
            for size in SIZES:
                path.write_text(make(size), encoding="utf8", newline="")
                for command, pairs in zip(commands, runs):
                    pairs.append(Run([program, *command.split()], path))
            row(kind, runs, 0)
            check_memory(kind, runs)


def check_memory(kind, runs):
    """Fails where a byte of a text takes more memory than it may."""
    for run, size in (of_size for pair in runs for of_size in zip(pair, SIZES)):
        taken = run.mebibytes * 2**20 / size
        if taken > MOST_MEMORY.get(kind, taken):
            sys.exit(f"hostile.py: {kind}: {taken:.0f} bytes of memory for each of the text's")


def code_rows(program, path, kinds):
    """A row for each text of code of these kinds."""
    print("| text | language | ms |\n|---|---|---|")
    for kind, (language, make) in CODE.items():
        if kinds and kind not in kinds:
            continue
        path.write_text(make(CODE_SIZE), encoding="utf8", newline="")
        run = Run([program, "code", language, "80", "dark"], path)
        print(f"| {kind} | `{language}` | {run.processor * 1000:.0f} |", flush=True)
        if run.status or run.processor > MOST_SECONDS:
            sys.exit(f"hostile.py: {kind}: status {run.status} after {run.processor:.3f} s of a processor")


def main():
    if len(sys.argv) < 3:
        sys.exit(__doc__)
    program, path, kinds = sys.argv[1], Path(sys.argv[2]) / "hostile.md", sys.argv[3:]
    path.parent.mkdir(parents=True, exist_ok=True)
    table(COMMANDS)
    rows(TEXTS, COMMANDS, program, path, kinds)
    path.write_text("a **b** c\n")
    for kind, (make, status) in SKINS.items():
        if not kinds or kind in kinds:
            row(kind, [[Run([program, *command.split(), make(size)], path) for size in SKIN_SIZES] for command in COMMANDS], status)
    print()
    table(MARKDOWN_COMMANDS)
    rows(MARKDOWN | TABLES, MARKDOWN_COMMANDS, program, path, kinds)
    print()
    code_rows(program, path, kinds)
    path.unlink()


main()
