"""A table of a folder's files: `report.py FOLDER [WIDTH [SKIN]]`.

File names are words that others wrote. The cells of a table are texts as they are: no mark is read in them.
"""
import os
import sys

import termimad

KIB = 1024


def rows_of(files):
    """The rows of the table, below its headers."""
    return [["file", "kind", "size"], *([name_of(it), kind_of(it), size_of(it)] for it in files)]


def files_of(folder):
    """The files of a folder, the largest first."""
    files = [it for it in os.scandir(folder) if it.is_file(follow_symlinks=False)]
    return sorted(files, key=lambda it: (-it.stat().st_size, it.name))


def name_of(file):
    return os.fsencode(file.name).decode("utf-8", "replace")


def kind_of(file):
    return os.path.splitext(file.name)[1].lstrip(".") or "-"


def size_of(file):
    size = file.stat().st_size
    return f"{size} B" if size < KIB else f"{size / KIB:.1f} KiB"


def main():
    folder, width, skin = [*sys.argv[1:], *[".", "60", ""][len(sys.argv) - 1 :]]
    files = files_of(folder)
    total = sum(it.stat().st_size for it in files)
    aligns = [termimad.Align.LEFT, termimad.Align.CENTER, termimad.Align.RIGHT]
    try:
        print(termimad.text(f"# {len(files)} files, {total} bytes", int(width), skin))
        print(termimad.table(rows_of(files), int(width), aligns, skin), end="")
    except termimad.Refused as refusal:
        sys.exit(f"report: {refusal}")


if __name__ == "__main__":
    main()
