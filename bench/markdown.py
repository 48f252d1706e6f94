#!/usr/bin/env python3
"""Counts what a program takes for Markdown that is made to be bad for it: markdown.py PROGRAM FOLDER [KIND ..]

PROGRAM reads a text from its input. A text is given at 100 kB and at 1 MB. The table has the instructions a byte at both, by callgrind, without those
of an empty text, and their ratio, in bold where it is over 1.1. The texts are made in FOLDER and taken away again.
"""
import re
import subprocess
import sys
from pathlib import Path

from markdown_texts import TEXTS

SIZES = (100_000, 1_000_000)
GREATEST_RATIO = 1.1


def instructions(program, path, folder):
    with open(path, "rb") as given:
        out = folder / f"callgrind.{path.name}"
        said = subprocess.run(["valgrind", "--tool=callgrind", f"--callgrind-out-file={out}", program], stdin=given, stdout=subprocess.DEVNULL, stderr=subprocess.PIPE, check=True)
        out.unlink()
    return int(re.search(rb"Collected : (\d+)", said.stderr).group(1))


def main():
    program, folder, kinds = sys.argv[1], Path(sys.argv[2]), sys.argv[3:] or list(TEXTS)
    path = folder / "text"
    path.write_text("")
    nothing = instructions(program, path, folder)
    print("| text | instructions a byte, 100 kB and 1 MB | ratio |\n|---|---|---|")
    for kind in kinds:
        each = []
        for size in SIZES:
            text = TEXTS[kind](size)
            path.write_text(text)
            each.append((instructions(program, path, folder) - nothing) / len(text.encode()))
        ratio = each[1] / each[0]
        shown = f"**{ratio:.2f}**" if ratio > GREATEST_RATIO else f"{ratio:.2f}"
        print(f"| {kind} | {each[0]:.0f} {each[1]:.0f} | {shown} |", flush=True)
    path.unlink()


main()
