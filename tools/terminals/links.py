"""Links in real terminals: whether each cell belongs to the link that was written there, and whether terminals without links show the same characters.

Documents are written by `./termimad --links=always`, and what it writes is read here, cell by cell. kitty tells the links of its cells, and so does VTE. Of tmux,
GNU screen, xterm and `less -R` the characters are compared.
"""
from __future__ import annotations

import base64
import json
import re
import shlex
import shutil
import subprocess
import unicodedata
from collections.abc import Iterator
from pathlib import Path

from steady import is_widthless
from windows import ENVIRONMENT, ROOT, Kitty, Screen, Tmux, until

# A cell: the character, with those that take no column behind it, and the id and the address of its link. The second cell of a wide one has no character.
Cell = tuple[str, "tuple[str, str] | None"]
ROWS, COLUMNS = 24, 80
DOCUMENTS = [ROOT / "README.md", *sorted((ROOT / "docs").glob("*.md"))]
LINK = re.compile(r"\x1b\]8;([^;]*);(.*?)\x1b\\", re.S)
OTHER = re.compile(r"\x1b\[[0-9;:]*[A-Za-z]|\x1b\]133;[^\x1b]*\x1b\\|\r")
# What xterm prints for the second column of a wide character.
SECOND = "\uffff"
CLEAR = "\x1b[m\x1b[H\x1b[2J"
# Wide characters, signs above letters, tables, links at a right border, and addresses with bytes that have to be escaped.
MADE = """[漢字漢字 wide](https://a.example/漢字) and [e\u0301te\u0301](https://b.example/x%20y;z=1) and <https://c.example/é?a=1&b=[2]>.

| [a](https://a.example/1) | two [b](https://b.example/2 "t") c |
|---|--:|
| `x` [漢](https://a.example/3)字 | right [border](https://b.example/4) |

""" + "".join(f"{'word ' * (n % 17)}[a link of some words {n}](https://long.example/{n}/{'q' * n}) after it. " for n in range(40)) + "\n\n[![picture](p.png)](mailto:c@d.example) [one][r]\n\n[r]: HTTP://R.example/\\]\n"


def read_rows(text: str) -> list[list[Cell]]:
    """The cells of written rows, without blanks at their ends."""
    rows: list[list[Cell]] = [[]]
    link, at = None, 0
    while at < len(text):
        if found := LINK.match(text, at):
            link, at = (found[1], found[2]) if found[2] else None, found.end()
        elif found := OTHER.match(text, at):
            at = found.end()
        else:
            add(rows, text[at], link)
            at += 1
    for row in rows:
        while row and row[-1] == (" ", None):
            row.pop()
    return rows


def add(rows: list[list[Cell]], c: str, link: tuple[str, str] | None) -> None:
    """Adds a character to the last row, or begins another."""
    row = rows[-1]
    if c == "\n":
        rows.append([])
    elif is_widthless(c) and row:
        last = max(n for n, cell in enumerate(row) if cell[0])
        row[last] = (row[last][0] + c, row[last][1])
    else:
        row.append((c, link))
        row.extend([("", link)] * (unicodedata.east_asian_width(c) in "WF"))


def written_by(program: str, document: Path) -> list[str]:
    """The rows of a document, as the program writes them with links."""
    ran = subprocess.run([program, "--links=always", "--skin=dark", f"--width={COLUMNS}", str(document)], capture_output=True, env=ENVIRONMENT, check=True)
    return ran.stdout.decode().split("\n")[:-1]


def chunks(program: str, folder: Path) -> list[str]:
    """Screens of rows: those of a text that is made, and of the documents of this repository."""
    made = folder / "made.md"
    made.write_text(MADE)
    rows = [row for document in (made, *DOCUMENTS) for row in written_by(program, document)]
    return ["\n".join(rows[at : at + ROWS]) for at in range(0, len(rows), ROWS)]


def said(row: list[Cell], ids: bool) -> tuple[str, list[str | None]]:
    """The text of a row, and of each of its columns the address of the link, with its id or without."""
    links = [link and (" ".join(link) if ids else link[1]) for _, link in row]
    return "".join(c for c, _ in row).rstrip(), (links + [None] * COLUMNS)[:COLUMNS]


def compare(where: str, wanted: list, shown: list, counts: list[int]) -> None:
    """Counts the columns and those in links, and lists rows that differ, the first of them whole."""
    for number, row in enumerate(wanted):
        other = shown[number] if number < len(shown) else ("", [None] * COLUMNS)
        counts[0] += COLUMNS
        counts[1] += sum(link is not None for link in row[1])
        if row != other:
            counts[2] += 1
            if counts[2] < 6:
                print(f"{where} row {number} differs\n  wanted {row}\n  shown  {other}")


def kitty_shows(chunk: str, folder: Path, kitty: Kitty) -> list:
    """What kitty shows of rows that it gets, with the ids of links."""
    show_in(kitty, chunk, folder)
    rows = read_rows(kitty.tell("get-text", extent="screen", ansi=True))
    kitty.type("\r")
    return [said(row, True) for row in rows]


def show_in(terminal: Kitty | Tmux, chunk: str, folder: Path) -> list[str]:
    """Writes rows into a terminal, and waits until they are there. What it shows."""
    file = folder / "chunk"
    file.write_text(CLEAR + chunk)
    wanted = [said(row, False)[0] for row in read_rows(chunk)]
    terminal.type(f"cat {shlex.quote(str(file))}; read -s x\r")
    return terminal.until(lambda lines: lines[: len(wanted)] == wanted, 2.0)


def vte_shows(screens: list[str]) -> list[list]:
    """What a window of VTE shows of each screen, without the ids of links."""
    given = json.dumps([base64.b64encode((CLEAR + screen.replace("\n", "\r\n")).encode()).decode() for screen in screens])
    ran = subprocess.run(["/usr/bin/python3", str(Path(__file__).with_name("vte.py")), str(COLUMNS), str(ROWS)], input=given, capture_output=True, text=True, env=ENVIRONMENT, check=True)
    return [[(text, links) for text, links in screen] for screen in json.loads(ran.stdout)]


def told(name: str, counts: list[int]) -> int:
    print(f"{name}: {counts[0]} cells, {counts[1]} of them in links; {counts[2]} rows differ")
    return counts[2]


def run_links_in_windows(program: str, folder: Path) -> int:
    """Shows the screens in kitty and in VTE. How many rows differ."""
    screens = chunks(program, folder)
    kitty, counts = Kitty(COLUMNS, ROWS, folder), [0, 0, 0]
    try:
        for number, screen in enumerate(screens):
            wanted = [said(row, True) for row in read_rows(screen)]
            compare(f"kitty, screen {number}", wanted, kitty_shows(screen, folder, kitty), counts)
    finally:
        kitty.close()
    differ = told("kitty", counts)
    counts = [0, 0, 0]
    for number, (screen, shown) in enumerate(zip(screens, vte_shows(screens))):
        compare(f"VTE, screen {number}", [said(row, False) for row in read_rows(screen)], shown, counts)
    return differ + told("VTE", counts)


def run_links_elsewhere(program: str, folder: Path) -> int:
    """Shows the characters of screens in tmux, in GNU screen and in `less -R`, both in tmux, and in xterm. How many rows differ."""
    screens = chunks(program, folder)
    shown_by = {"tmux": in_tmux, "less": in_less}
    if shutil.which("screen"):
        shown_by["screen"] = in_screen
    if shutil.which("xterm") and shutil.which("Xvfb"):
        shown_by["xterm"] = in_xterm
    differ = 0
    for name, show in shown_by.items():
        counts = [0, 0, 0]
        for number, (screen, lines) in enumerate(zip(screens, show(screens, folder))):
            wanted = [(said(row, False)[0], []) for row in read_rows(screen)]
            compare(f"{name}, screen {number}", wanted, [(line.rstrip(), []) for line in lines], counts)
        differ += told(name, counts)
    return differ


def in_tmux(screens: list[str], folder: Path) -> Iterator[list[str]]:
    yield from in_shell(screens, folder, None)


def in_screen(screens: list[str], folder: Path) -> Iterator[list[str]]:
    yield from in_shell(screens, folder, "screen -q -c /dev/null env PS1='ready ' bash --norc --noprofile")


def in_shell(screens: list[str], folder: Path, command: str | None) -> Iterator[list[str]]:
    """What a shell's window shows of each screen."""
    terminal = Tmux(COLUMNS, ROWS, folder, command)
    try:
        for screen in screens:
            yield show_in(terminal, screen, folder)
            terminal.type("\r")
    finally:
        terminal.close()


def in_less(screens: list[str], folder: Path) -> Iterator[list[str]]:
    """What `less -R` shows of each screen, in a window with a row more for its prompt."""
    for screen in screens:
        file = folder / "less"
        file.write_text(screen + "\n")
        wanted = [said(row, False)[0] for row in read_rows(screen)]
        terminal = Tmux(COLUMNS, ROWS + 1, folder, f"less -R {shlex.quote(str(file))}")
        yield terminal.until(lambda lines: lines[: len(wanted)] == wanted, 2.0)
        terminal.close()


def in_xterm(screens: list[str], folder: Path) -> Iterator[list[str]]:
    """What xterm prints of each screen, by its own command for that."""
    with Screen():
        for number, screen in enumerate(screens):
            file, printed, go = (folder / f"xterm{number}{end}" for end in ("", ".printed", ".sh"))
            file.write_text(CLEAR + screen)
            go.write_text(f"cat {shlex.quote(str(file))}; printf '\\033[i'; sleep 0.5\n")
            words = ["-u8", "-xrm", f"XTerm*printerCommand: cat > {printed}", "-xrm", "XTerm*printAttributes: 0", "-geometry", f"{COLUMNS}x{ROWS}"]
            subprocess.run(["xterm", *words, "-e", "sh", str(go)], env=ENVIRONMENT, stderr=subprocess.DEVNULL, check=True)
            until(lambda: printed.exists() and printed.read_bytes().count(b"\n") >= ROWS, 1.0)
            text = printed.read_text() if printed.exists() else ""
            yield [line.strip("\r\f") for line in text.replace(SECOND, "").split("\n")]
