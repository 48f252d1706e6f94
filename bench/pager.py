#!/usr/bin/env python3
"""Counts what the pager sends and takes for a key, beside less: pager.py PROGRAM TEXT ..

PROGRAM is termimad_page. Both run on a screen of 80 columns and 24 rows; less gets a pseudo-terminal. Bytes are those that come after a key, and
instructions those that callgrind counts for a run with that key more.
"""
import fcntl
import os
import pty
import re
import select
import struct
import subprocess
import sys
import tempfile
import termios
from pathlib import Path

KEYS = {"opening": [], "`j`": [b"j"], "space": [b" "], "`G`": [b"G"], "`k` at the top": [b"k"]}
FIRST, QUIET = 60, 2  # the seconds until the first byte of a picture at most, and those without a byte after which it is whole
GRIND = ["valgrind", "--tool=callgrind", "--callgrind-out-file=/dev/null"]


def taken(source):
    """What comes until nothing has come for a while."""
    found = b""
    while select.select([source], [], [], QUIET if found else FIRST)[0]:
        try:
            block = os.read(source, 1 << 16)
        except OSError:
            break
        if not block:
            break
        found += block
    return found


def measured(command, keys, has_terminal):
    """The bytes that come of the last key, or at the start without one, and the instructions of the run."""
    log = tempfile.NamedTemporaryFile()
    command = [*GRIND, f"--log-file={log.name}", *command]
    if has_terminal:
        here, there = pty.openpty()
        fcntl.ioctl(there, termios.TIOCSWINSZ, struct.pack("HHHH", 24, 80, 0, 0))
        keys_in, shown = here, here
        ran = subprocess.Popen(command, stdin=there, stdout=there, stderr=there, start_new_session=True, preexec_fn=lambda: fcntl.ioctl(0, termios.TIOCSCTTY, 0))
    else:
        ran = subprocess.Popen(command, stdin=subprocess.PIPE, stdout=subprocess.PIPE, stderr=subprocess.DEVNULL)
        keys_in, shown = ran.stdin.fileno(), ran.stdout.fileno()
    sent = len(taken(shown))
    for key in keys:
        os.write(keys_in, key)
        sent = len(taken(shown))
    os.write(keys_in, b"q")
    ran.wait()
    return sent, int(re.findall(r"Collected : (\d+)", Path(log.name).read_text())[-1])


def main():
    if len(sys.argv) < 3:
        sys.exit(__doc__)
    program, texts = sys.argv[1], sys.argv[2:]
    print("| text | key | the pager | `less` |\n|---|---|---|---|")
    for text in texts:
        pager = [program, "--lines", "page", text, "80", "24", "default", Path(text).name]
        opened = {}
        for name, keys in KEYS.items():
            cells = []
            for title, command, has_terminal in (("pager", pager, False), ("less", ["less", text], True)):
                sent, took = measured(command, keys, has_terminal)
                cells.append(f"{sent:,} bytes, {(took - opened.get(title, 0)) / 1e6:.2f} M")
                opened.setdefault(title, took)
            print(f"| {Path(text).stem} | {name} | {' | '.join(cells)} |", flush=True)


main()
