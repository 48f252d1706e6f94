#!/usr/bin/env python3
"""Counts what programs take for Markdown, beside each other: beside.py VIEW MD4C PULLDOWN TEXT ..

VIEW is a build of termimad_view, MD4C of `md4c.c`, and PULLDOWN of the folder `pulldown`. The others are Debian's: cmark, cmark-gfm and lowdown. A cell has the
instructions a byte, by callgrind, without those of an empty text. VIEW and lowdown write rows of 80 columns for a terminal, the others html. A second table has
the peak memory in MB that GNU time says.
"""
import os
import re
import subprocess
import sys
from pathlib import Path

GFM = "cmark-gfm -e table -e strikethrough -e autolink -e tasklist"


def instructions(command, text):
    words = ["valgrind", "--tool=callgrind", "--callgrind-out-file=/dev/null", *command.split()]
    said = subprocess.run(words, input=text, stdout=subprocess.DEVNULL, stderr=subprocess.PIPE, env={**os.environ, "LC_ALL": "C.UTF-8"}, check=True)
    return int(re.findall(rb"Collected : (\d+)", said.stderr)[-1])


def memory(command, text):
    words = ["/usr/bin/time", "-f", "%M", *command.split()]
    said = subprocess.run(words, input=text, stdout=subprocess.DEVNULL, stderr=subprocess.PIPE, env={**os.environ, "LC_ALL": "C.UTF-8"}, check=True)
    return int(said.stderr.split()[-1]) / 1024


def main():
    if len(sys.argv) < 5:
        sys.exit(__doc__)
    view, md4c, pulldown = sys.argv[1:4]
    programs = {
        "`markdown 80`": f"{view} markdown 80",
        "`lowdown -tterm`": "lowdown -tterm --term-columns=80 --term-width=80",
        "`cmark`": "cmark",
        "`cmark-gfm`": GFM,
        "md4c": md4c,
        "pulldown-cmark": pulldown,
    }
    texts = {path.stem: path.read_bytes() for path in map(Path, sys.argv[4:])}
    head = f"| text | bytes | {' | '.join(programs)} |\n{'|---' * (2 + len(programs))}|"
    print(head)
    nothing = {name: instructions(command, b"") for name, command in programs.items()}
    for name, text in texts.items():
        cells = (f"{(instructions(command, text) - nothing[program]) / len(text):.0f}" for program, command in programs.items())
        print(f"| {name} | {len(text):,} | {' | '.join(cells)} |", flush=True)
    print(f"\n{head}")
    for name, text in texts.items():
        print(f"| {name} | {len(text):,} | {' | '.join(f'{memory(command, text):.1f}' for command in programs.values())} |", flush=True)


main()
