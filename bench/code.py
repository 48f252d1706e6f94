#!/usr/bin/env python3
"""Counts what cutting code into tokens takes: code.py PROGRAM TEXT ..

PROGRAM is built of `code.txt`. The name of a TEXT, without its ending, is the word of its language, as `python.txt`. The table has the instructions a
byte, by callgrind, without those of the same text in no language, and how many bytes a token has.
"""
import re
import subprocess
import sys
from pathlib import Path


def counted(program, word, text):
    command = ["valgrind", "--tool=callgrind", "--callgrind-out-file=/dev/null", program, word]
    said = subprocess.run(command, input=text, capture_output=True, check=True)
    return int(re.findall(rb"Collected : (\d+)", said.stderr)[-1]), int(said.stdout.split()[0])


def main():
    if len(sys.argv) < 3:
        sys.exit(__doc__)
    print("| language | instructions a byte | bytes a token |\n|---|---|---|")
    for path in map(Path, sys.argv[2:]):
        text = path.read_bytes().decode(errors="replace").encode()
        plain, _ = counted(sys.argv[1], "-", text)
        taken, tokens = counted(sys.argv[1], path.stem, text)
        print(f"| {path.stem} | {(taken - plain) / len(text):.0f} | {len(text) / tokens:.1f} |", flush=True)


main()
