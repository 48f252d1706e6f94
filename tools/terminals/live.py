"""Texts that grow in tmux: what `termimad-view live` leaves there, in the history and on the screen."""
from __future__ import annotations

import os
import random
import re
import shlex
import subprocess
import sys
import time
from pathlib import Path

from windows import ROOT, Tmux, tmux

sys.path.insert(0, str(ROOT / "tools"))

from markdown_model.steady import steady

# The terminal's columns and rows; the text has one column less.
SIZES = [(80, 24), (60, 10), (20, 5)]
LOOKS = 40
SECONDS = 6.0
# Emoji with selectors, skin tones and joiners, as language models write them, and words with soft hyphens, in rows that are full.
EMOJI = ["\u26a0\ufe0f", "1\ufe0f\u20e3", "\u2764\ufe0f", "\u2705", "\U0001f44d\U0001f3fd", "\U0001f468\u200d\U0001f469\u200d\U0001f467", "\U0001f1e9\U0001f1ea", "co\u00ado\u00adper\u00adate"]
# Vowel signs that tmux counts, and we don't: their rows are too wide for it.
BENGALI = "\u09ac\u09be\u0982\u09b2\u09be \u09ad\u09be\u09b7\u09be "


def growing_text() -> str:
    """A text of every kind of line, with a table and a block of code that are higher than most screens."""
    rows = "".join(f"|{n}|row *{n}* of a table{' with more words' * (n % 3)}|{n * n}|\n" for n in range(30))
    code = "".join(f"let line_{n} = {'very ' * (n % 4)}long({n});\n" for n in range(30))
    return ("# A text that grows\n\nIt has **words** that come one after another, and it is laid out as they come.\n\n* an item of a list, with enough words for two rows\n"
        f"  * and one below\n1. the first\n> a quote of some words\n|n|what|square|\n|:-:|:-|-:|\n{rows}\nBelow the table, 日本語のテキスト and `code`.\n---\n"
        f"```\n{code}```\n\tcode by a tab\r\n{' '.join(EMOJI * 6)}\n* {BENGALI * 20}\n|{EMOJI[0]}|{EMOJI[1]}|\n|{BENGALI * 3}|{EMOJI[7]}|\n"
        "The last line, which has **no** newline")


def kind_of(line: str, fenced: bool) -> str:
    if line.startswith("```"):
        return "fence"
    return "code" if fenced or line.startswith(("    ", "\t")) else "table" if line.startswith("|") else "alone"


def complete(text: str) -> int:
    """How many characters of the text are complete parts."""
    at, end, fenced, last = 0, 0, False, None
    for line in text.splitlines(keepends=True):
        if not line.endswith("\n"):
            break
        kind = kind_of(line, fenced)
        if last not in ("code", "table") or kind not in (last, "fence"):
            end, last = at, None
        fenced, last = (not fenced, last) if kind == "fence" else (fenced, kind)
        at += len(line)
    return end if last in ("code", "table") else at


def rows_of(program: str, text: str, width: int) -> list[str]:
    shown = steady(text.replace("\r\n", "\n").replace("\n\t", "\n    ").removesuffix("\r"))
    written = subprocess.run([program, "text", str(width)], input=shown.encode(), capture_output=True, check=True).stdout
    return [row.rstrip() for row in written.decode().split("\n")[:-1]]


def wanted(program: str, text: str, width: int, height: int, is_last: bool) -> list[str]:
    """All rows that a terminal has of the text so far: of the part that may go on, the last ones alone."""
    rows = rows_of(program, text, width)
    done = len(rows) if is_last else len(rows_of(program, text[: complete(text)], width))
    return rows[:done] + rows[done:][-height:]


def without_half(text: str) -> str:
    """A text so far without half of a flag: the next character tells what that is."""
    return text[:-1] if len(re.search("[\U0001f1e6-\U0001f1ff]*$", text)[0]) % 2 else text


def without_blanks(rows: list[str]) -> list[str]:
    while rows and not rows[-1]:
        rows.pop()
    return rows


def history(window: Tmux) -> list[str]:
    return without_blanks([row.rstrip() for row in tmux("capture-pane", "-t", window.name, "-p", "-S", "-").split("\n")])


def grow(program: str, folder: Path, columns: int, height: int, chance: random.Random) -> tuple[str | None, int]:
    """Feeds the text in random pieces, and looks now and then. What differs, or None, and how often it looked."""
    text, pipe = growing_text(), folder / f"pipe-{columns}"
    os.mkfifo(pipe)
    window = Tmux(columns, height, folder, f"{shlex.quote(program)} live {columns - 1} {height} <{pipe}; sleep 100")
    looks, at, data = 0, 0, text.encode()
    next_look = 0
    try:
        with open(pipe, "wb", buffering=0) as stream:
            while at < len(data):
                size = chance.choice([1, 2, 5, 9])
                stream.write(data[at : at + size])
                at += size
                time.sleep(0.001)
                if at >= next_look:
                    next_look = at + len(data) // LOOKS
                    looks += 1
                    if fault := differs(window, wanted(program, without_half(data[:at].decode(errors="ignore")), columns - 1, height, False), f"after {at} bytes"):
                        return fault, looks
        return differs(window, wanted(program, text, columns - 1, height, True), "at the end"), looks + 1
    finally:
        window.close()


def before_signs(row: str) -> str:
    """A row up to where tmux counts more columns: there its end stands elsewhere, or past the last column."""
    return re.split("[\u0980-\u09ff]", row)[0].rstrip()


def differs(window: Tmux, rows: list[str], when: str) -> str | None:
    rows = [before_signs(row) for row in without_blanks(rows)]
    end = time.monotonic() + SECONDS
    while (shown := [before_signs(row) for row in history(window)]) != rows:
        if time.monotonic() > end:
            first = next((n for n, (a, b) in enumerate(zip(rows, shown)) if a != b), min(len(rows), len(shown)))
            return f"{when}: {len(rows)} rows wanted and {len(shown)} shown; from row {first} on {rows[first : first + 2]} / {shown[first : first + 2]}"
        time.sleep(0.05)
    return None


def run_live(folder: Path, program: str) -> int:
    """Grows the text in a window of each size; how many of these differ."""
    wrong = 0
    for columns, height in SIZES:
        fault, looks = grow(program, folder, columns, height, random.Random(columns))
        wrong += fault is not None
        print(f"live at {columns}x{height}: {fault or f'the whole history is as wanted, {looks} times'}")
    return wrong
