"""Shows Markdown: `python -m termimad [FILE ..]`."""
import argparse
import os
import sys

from . import Markdown, Refused, __version__

STATUS_OF_A_CLOSED_PIPE = 141  # as a shell says it of a program that SIGPIPE ended


def main() -> int:
    words = argparse.ArgumentParser(prog="python -m termimad", description="Shows Markdown as it reads on a terminal.")
    words.add_argument("files", nargs="*", metavar="FILE", default=["-"], help="a file of Markdown; - is the standard input")
    words.add_argument("-w", "--width", type=int, help="columns; by default those of the terminal")
    words.add_argument("--skin", default="auto", help="auto, dark, light, sixteen, none, or JSON text")
    words.add_argument("--version", action="version", version=__version__)
    given = words.parse_args()
    for name in given.files:
        try:
            Markdown(text_of(name)).show(given.width, given.skin)
        except BrokenPipeError:
            os.dup2(os.open(os.devnull, os.O_WRONLY), sys.stdout.fileno())
            return STATUS_OF_A_CLOSED_PIPE
        except OSError as fault:
            words.exit(1, f"termimad: {name}: {fault.strerror}\n")
        except Refused as fault:
            words.exit(1, f"termimad: {name}: {fault}\n")
    return 0


def text_of(name: str) -> bytes:
    """The text of a file."""
    if name == "-":
        return sys.stdin.buffer.read()
    with open(name, "rb") as file:
        return file.read()


if __name__ == "__main__":
    sys.exit(main())
