#!/usr/bin/env python3
"""Runs the program of editor.txt on texts of one and of ten megabytes and prints what each call takes: editor.py PROGRAM FOLDER

The texts are made in FOLDER. Times are processor times, the best of four runs, less that of a run without calls.
"""
import resource
import subprocess
import sys
from pathlib import Path

PIECE = "the quick brown fox jumps over the lazy dog again and "
MOVES = [("move_left", 400_000), ("move_word_right", 40_000), ("move_to_line_ends", 1_000_000)]

IN_MANY_LINES = [("move_down", 8_000), ("insert_char", 20_000), ("insert_new_line", 40), ("del_word_left", 20_000), ("del_word_right", 20_000)]


def text(size, ending):
    piece = PIECE + "again" + ending
    return (piece * (size // len(piece) + 1))[:size]


def seconds(program, path, call, count):
    before = resource.getrusage(resource.RUSAGE_CHILDREN)
    with open(path, "rb") as given:
        subprocess.run([program, call, str(count)], stdin=given, stdout=subprocess.DEVNULL, check=True)
    after = resource.getrusage(resource.RUSAGE_CHILDREN)
    return after.ru_utime - before.ru_utime + after.ru_stime - before.ru_stime


def show(program, path, calls):
    base = min(seconds(program, path, "none", 0) for _ in range(7))
    print(f"{path.stem}: insert_str {base * 1e3:.1f} ms", flush=True)
    for call, count in calls:
        best = min(seconds(program, path, call, count) for _ in range(4))
        print(f"    {call}: {(best - base) / count * 1e6:.3f} µs", flush=True)


def main():
    if len(sys.argv) != 3:
        sys.exit(__doc__)
    program, folder = sys.argv[1], Path(sys.argv[2])
    for millions in (1, 10):
        size = millions * 1_000_000
        one = text(size, " ")
        half = text(size // 2, " ")
        cases = {
            "one_line": (one, MOVES + [("insert_char", 20), ("del_word_left", 20), ("del_word_right", 20)]),
            "two_lines": (half + "\n" + half, [("move_up_and_down", 20)]),
            "many_lines": (text(size, "\n"), MOVES + IN_MANY_LINES),
        }
        for name, (content, calls) in cases.items():
            path = folder / f"{name}_{millions}m.txt"
            path.write_text(content)
            show(program, path, calls)


main()
