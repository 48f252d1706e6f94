#!/usr/bin/env python3
"""Runs one program on texts and prints, for each, its instructions a byte and the best of seven times: alone.py PROGRAM TEXT ..

PROGRAM may have words after it, as in alone.py "PROGRAM tokens" TEXT ..; its status doesn't matter.
"""
import re
import subprocess
import sys
import time
from pathlib import Path

TURNS = 7


def instructions(program, text):
    command = ["valgrind", "--tool=callgrind", "--callgrind-out-file=/dev/null", *program]
    with open(text, "rb") as given:
        said = subprocess.run(command, stdin=given, stdout=subprocess.DEVNULL, stderr=subprocess.PIPE).stderr
    return int(re.findall(r"Collected : (\d+)", said.decode())[-1])


def seconds(program, text):
    with open(text, "rb") as given:
        begin = time.perf_counter()
        subprocess.run(program, stdin=given, stdout=subprocess.DEVNULL)
        return time.perf_counter() - begin


def main():
    if len(sys.argv) < 3:
        sys.exit(__doc__)
    program = sys.argv[1].split()
    print("| text | instructions a byte | best of seven |\n|---|---|---|")
    for text in sys.argv[2:]:
        best = min(seconds(program, text) for _ in range(TURNS))
        print(f"| {Path(text).stem} | {instructions(program, text) / Path(text).stat().st_size:.1f} | {best * 1000:.1f} ms |", flush=True)


main()
