"""A program whose reads get one piece each, and a model of a terminal that scrolls, which reads what live texts write."""
from __future__ import annotations

import re
import socket
import subprocess
import threading
from collections.abc import Iterable

COMMANDS = re.compile(rb"\r\x1b\[K|\x1b\[1A\x1b\[K|\n")
SWITCHES = re.compile(rb"\x1b\[\?7[lh]")
STYLES = re.compile(rb"(\x1b\[[0-9;]*m)|(.)", re.S)
DEFAULTS = {b"39": b"38", b"49": b"48", b"59": b"58"}


def run_on_pieces(words: list[str], pieces: Iterable[bytes]) -> tuple[bytes, int]:
    """What a command writes and its status, each of whose reads gets one piece."""
    ours, theirs = socket.socketpair(socket.AF_UNIX, socket.SOCK_SEQPACKET)
    with ours, subprocess.Popen(words, stdin=theirs, stdout=subprocess.PIPE, stderr=subprocess.DEVNULL) as process:
        theirs.close()
        sender = threading.Thread(target=send_all, args=(ours, pieces))
        sender.start()
        written = process.stdout.read()
        sender.join()
    return written, process.returncode


def send_all(connection: socket.socket, pieces: Iterable[bytes]) -> None:
    try:
        for piece in pieces:
            connection.sendall(piece)
        connection.shutdown(socket.SHUT_WR)
    except OSError:
        pass


def rows_at_the_end(written: bytes, height: int) -> bytes:
    """All rows of a terminal of this height that scrolls, once it has read this: those that scrolled off and those of the screen."""
    written = SWITCHES.sub(b"", written)
    rows, top, y, at = [b""], 0, 0, 0
    for command in COMMANDS.finditer(written):
        rows[y] += written[at : command.start()]
        at = command.end()
        if command[0] == b"\n":
            y += 1
            if y == len(rows):
                rows.append(b"")
            top = max(top, y - height + 1)
        else:
            y -= len(command[0]) == 7
            if y < top:
                raise ValueError("it moves above the screen")
            rows[y] = b""
    rows[y] += written[at:]
    return b"\n".join(rows).rstrip(b"\n")


def cells(rows: bytes) -> list[tuple[tuple, bytes]]:
    """Rows as what they show: each byte with its style. A style may be set again within a row."""
    pen, shown = {}, []
    for command, byte in STYLES.findall(rows):
        if command:
            pen = pen_after(pen, command)
        else:
            shown.append((tuple(sorted(pen.items())), byte))
    return shown


def pen_after(pen: dict[bytes, tuple], command: bytes) -> dict[bytes, tuple]:
    """The pen after a command: its colors by what they color, and its attributes."""
    number, *color = command[2:-1].split(b";")
    if number == b"0":
        return {}
    if number in DEFAULTS:
        return {kind: value for kind, value in pen.items() if kind != DEFAULTS[number]}
    return pen | {number: tuple(color)}
