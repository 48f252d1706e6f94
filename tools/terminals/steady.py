"""Steady texts in a real terminal: whether each takes the columns that are counted, and its row shows its characters.

The texts are the answers of the rows `$ steady`, cut at blanks. This file is also what runs in the window, as `steady.py TEXTS COLUMNS GO`: it writes
each text on a row of its own, asks the terminal for the column behind it, and waits for the file GO.
"""
from __future__ import annotations

import re
import shlex
import sys
import termios
import time
import tty
import unicodedata
from collections.abc import Callable
from pathlib import Path
from typing import TYPE_CHECKING

if TYPE_CHECKING:
    from windows import Terminal

ROWS = Path(__file__).resolve().parent.parent.parent / "crates/test_texts/data/steady.txt"
SCREEN = 20


def texts() -> tuple[list[list[str]], int]:
    """The texts, and how many columns a row of the file says that those of emoji have in all, with a blank between each two."""
    answers, told = [], 0
    for call, answer in re.findall(r"^\$ (\w+)\n(?:<.*\n)+> (.*)$", ROWS.read_text(), re.M):
        if call == "steady":
            characters = "".join(chr(int(number, 16)) for number in answer.split()[1:] if number != "·")
            answers.append(re.split("[ \n]", characters))
        else:
            told = int(answer)
    return answers, told


def columns_of(text: str) -> int:
    """The columns of a steady text by the tables of Python: no character of it joins another."""
    return sum(0 if is_widthless(c) else 2 if unicodedata.east_asian_width(c) in "WF" else 1 for c in text)


def is_widthless(c: str) -> bool:
    return unicodedata.category(c) in ("Mn", "Me") or c in "\u200b\u200c\u2060"


def run_steady(kind: Callable[[int, int, Path], Terminal], folder: Path) -> int:
    """Shows the texts, and lists those that differ. How many of the emoji do."""
    answers, told = texts()
    emoji = [text for answer in answers if len(answer) > 5 for text in answer]
    counted = sum(map(columns_of, emoji)) + len(emoji) - 1
    if counted != told:
        sys.exit(f"the {len(emoji)} texts of emoji have {counted} columns by the tables of Python, and {told} by ours")
    others = [text for answer in answers if len(answer) <= 5 for text in answer if text.strip()]
    terminal = kind(60, SCREEN + 4, folder)
    try:
        differ = [sum(show(terminal, folder, shown[at : at + SCREEN]) for at in range(0, len(shown), SCREEN)) for shown in (emoji, others)]
    finally:
        terminal.close()
    print(f"{len(emoji)} steady texts of emoji shown, {differ[0]} differ; {len(others)} other steady texts, {differ[1]} differ")
    return differ[0]


def show(terminal: Terminal, folder: Path, chunk: list[str]) -> int:
    """Shows some texts, a row each. How many of them differ."""
    files = [folder / name for name in ("texts", "columns", "go")]
    for file in files:
        file.unlink(missing_ok=True)
    files[0].write_text("\n".join(chunk))
    terminal.run(" ".join(shlex.quote(str(word)) for word in (sys.executable, __file__, *files)))
    end = time.monotonic() + 10
    while not files[1].exists() and time.monotonic() < end:
        time.sleep(0.03)
    told = [int(word) for word in files[1].read_text().split()]
    rows = terminal.until(lambda lines: lines[: len(chunk)] == chunk, 1.0)
    files[2].touch()
    terminal.ended()
    differ = 0
    for text, column, row in zip(chunk, told, rows):
        if column != columns_of(text) or row != text:
            differ += 1
            numbers = " ".join(f"{ord(c):X}" for c in text)
            print(f"  {numbers}: {column} columns, counted {columns_of(text)}; shown as {' '.join(f'{ord(c):X}' for c in row)}")
    return differ


def probe(given: Path, columns: Path, go: Path) -> None:
    """Runs in the window."""
    told, saved = [], termios.tcgetattr(0)
    tty.setraw(0)
    try:
        sys.stdout.write("\x1b[H\x1b[2J")
        for number, text in enumerate(given.read_text().split("\n"), 1):
            sys.stdout.write(f"\x1b[{number};1H{text}\x1b[6n")
            sys.stdout.flush()
            answer = ""
            while not answer.endswith("R"):
                answer += sys.stdin.read(1)
            told.append(int(re.search(r";(\d+)R", answer)[1]) - 1)
        part = columns.with_suffix(".part")
        part.write_text(" ".join(map(str, told)))
        part.rename(columns)
        while not go.exists():
            time.sleep(0.03)
    finally:
        termios.tcsetattr(0, termios.TCSADRAIN, saved)


if __name__ == "__main__":
    probe(*map(Path, sys.argv[1:]))
