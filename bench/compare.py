#!/usr/bin/env python3
"""Runs two programs side by side on texts and prints their instructions, times and memory, each with the ratio.

    compare.py [--cpu N] [--turns N] [--widths W,..] [--height H | --whole] BASELINE PORT TEXT ..

Each program is run as `PROGRAM area 0 0 W H`, or with --whole as `PROGRAM text W`, the text as standard input. A ratio under 1 says that
the port needs less.

- Instructions are counted by valgrind's callgrind, where it is installed: the same in each run, whatever else the machine does.
- Times are medians. Within a row the programs take turns, so that a slow moment of the machine falls on both.
- Memory is the peak resident set, measured by GNU time, where it is installed.
"""
import argparse
import os
import re
import shutil
import statistics
import subprocess
import sys
import time
from pathlib import Path

GNU_TIME = "/usr/bin/time"


def fail(message):
    sys.exit(f"compare.py: {message}")


def seconds(command, text):
    """The seconds and the output of one run."""
    with open(text, "rb") as given:
        begin = time.perf_counter()
        child = subprocess.run(command, stdin=given, stdout=subprocess.PIPE, check=False)
        taken = time.perf_counter() - begin
    if child.returncode != 0:
        fail(f"{command[0]} ended with {child.returncode} on {text}")
    return taken, child.stdout


def measured(prefix, command, text, pattern):
    """The number that a measuring command says of one run, or None where it isn't installed."""
    if shutil.which(prefix[0]) is None:
        return None
    with open(text, "rb") as given:
        child = subprocess.run(prefix + command, stdin=given, stdout=subprocess.DEVNULL, stderr=subprocess.PIPE, check=False)
    found = re.findall(pattern, child.stderr.decode(errors="replace"))
    return int(found[-1]) if found else None


def instructions(command, text):
    return measured(["valgrind", "--tool=callgrind", "--callgrind-out-file=/dev/null"], command, text, r"Collected : (\d+)")


def peak_kib(command, text):
    return measured([GNU_TIME, "-f", "%M"], command, text, r"(\d+)\s*$")


def pair(numbers, unit, scale):
    """Two numbers and their ratio as a cell of the table."""
    if None in numbers:
        return "not measured"
    return f"{numbers[0] / scale:.1f} {numbers[1] / scale:.1f} {unit} ({numbers[1] / numbers[0]:.2f})"


def row(programs, text, width, given):
    words = ["text", str(width)] if given.whole else ["area", "0", "0", str(width), str(given.height)]
    commands = [[program, *words] for program in programs]
    times, outputs = ([], []), [None, None]
    for turn in range(given.turns):
        for which in ((0, 1) if turn % 2 == 0 else (1, 0)):
            taken, outputs[which] = seconds(commands[which], text)
            times[which].append(taken)
    cells = [
        Path(text).stem,
        str(width),
        pair([instructions(c, text) for c in commands], "M", 1e6),
        pair([statistics.median(t) for t in times], "ms", 1e-3),
        pair([peak_kib(c, text) for c in commands], "MiB", 1024),
        "same" if outputs[0] == outputs[1] else "differs",
    ]
    print("| " + " | ".join(cells) + " |", flush=True)


def main():
    ask = argparse.ArgumentParser(description=__doc__, formatter_class=argparse.RawDescriptionHelpFormatter)
    ask.add_argument("--cpu", type=int, help="run all on this processor")
    ask.add_argument("--turns", type=int, default=9)
    ask.add_argument("--widths", default="80,20")
    ask.add_argument("--height", type=int, default=24)
    ask.add_argument("--whole", action="store_true", help="write the whole text, and not one area of it")
    ask.add_argument("baseline")
    ask.add_argument("port")
    ask.add_argument("texts", nargs="+")
    given = ask.parse_args()
    if given.cpu is not None:
        os.sched_setaffinity(0, {given.cpu})
    print("| text | width | instructions | time | peak memory | output |")
    print("|---|---|---|---|---|---|")
    for text in given.texts:
        for width in map(int, given.widths.split(",")):
            row([given.baseline, given.port], text, width, given)


if __name__ == "__main__":
    main()
