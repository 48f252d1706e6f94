"""Tries of ./page in tmux, each by a function. A try gets a window of 80 columns and 24 rows, in a folder with texts; it answers None, or a text
that is shown beside its name."""
from __future__ import annotations

import os
import random
import shutil
import signal
import subprocess
import time
from collections.abc import Callable
from pathlib import Path

from windows import AT_REST, ENVIRONMENT, PAGE, PAGING, ROOT, Screen, Tmux, processes, until

Try = Callable[[Tmux], "str | None"]
TRIES: list[Try] = []


def tried(f: Try) -> Try:
    TRIES.append(f)
    return f


def same(a: object, b: object, what: str = "") -> None:
    if a != b:
        rows = "".join(f"\n      row {i}: {x!r} / {y!r}" for i, (x, y) in enumerate(zip(a, b)) if x != y) if isinstance(a, list) and isinstance(b, list) else ""
        raise AssertionError(what + (rows or f": {a!r} is not {b!r}"))


def fresh(w: Tmux, columns: int, rows: int, words: str = "text.md", keys: str = "") -> list[str]:
    """The picture of a new run at that size."""
    other = Tmux(columns, rows, w.folder)
    other.run(f"{PAGE} {words}")
    assert other.paging(), "a new run"
    other.type(keys)
    shown = other.still()
    other.close()
    return shown


def begin(w: Tmux, words: str = "text.md", before: str = "") -> None:
    w.run(f"{before}{PAGE} {words}")
    assert w.paging(), (words, w.shown(), w.flags())


def end(w: Tmux, status: int = 0, what: str = "", seconds: float = 8.0) -> None:
    w.type("q")
    same(w.ended(seconds), status, what)


def stop(w: Tmux) -> None:
    w.type("\x1a")
    assert w.stopped(), (w.shown(), w.flags(), w.children())


def go_on(w: Tmux) -> None:
    w.type("clear; fg\r")
    assert w.paging(), (w.shown(), w.flags(), w.children())


def quit_stopped(w: Tmux) -> None:
    """Ends a run that was stopped before: the rest of its command line is lost, so only the modes are looked at."""
    w.type("q")
    assert w.at_rest(), w.flags()
    w.type("clear\r")


@tried
def resize_once(w: Tmux) -> None:
    begin(w)
    w.resize(50, 15)
    assert w.paging()
    same(w.still(), fresh(w, 50, 15))
    end(w)


@tried
def resize_with_keys(w: Tmux) -> None:
    for seed in range(4):
        chance = random.Random(seed)
        begin(w)
        for _ in range(50):
            w.resize(chance.randrange(20, 120), chance.randrange(5, 40))
            w.type(chance.choice(["j", "k", " ", "d", "\x1b[B", "\x1b[5~"]))
        w.resize(60 + seed, 20)
        w.type("g")
        w.still()
        same(w.still(), fresh(w, 60 + seed, 20), f"seed {seed}")
        end(w)
        w.resize(80, 24)


@tried
def resize_of_a_long_text(w: Tmux) -> str:
    """As a mouse that drags the window's edge: 120 signals in two seconds, a text of 10 MB."""
    wanted = fresh(w, 61, 21, "long.md")
    begin(w, "long.md")
    script = w.script()
    for _ in range(120):
        os.kill(script, signal.SIGWINCH)
        time.sleep(1 / 60)
    began = time.monotonic()
    w.resize(61, 21)
    until(lambda: w.shown() == wanted, 60)
    took = time.monotonic() - began
    same(w.still(), wanted)
    end(w, seconds=60)
    return f"{took:.1f} s until it stands"


@tried
def resize_of_which_none_is_lost(w: Tmux) -> None:
    begin(w)
    for i in range(40):
        w.resize(80, 10 + i % 17)
        assert w.paging(3), f"resize {i} was lost"
        time.sleep((i % 13) * 0.02)
    end(w)


@tried
def resize_in_search(w: Tmux) -> None:
    begin(w)
    w.type("/seven")
    assert until(lambda: "seven" in w.shown()[23])
    w.resize(50, 15)
    assert until(lambda: "seven" in w.shown()[14]), w.shown()
    w.type("\r")
    assert until(lambda: "seven" in "".join(w.shown()[:14]), 3), w.shown()
    end(w)


@tried
def resize_to_one_cell(w: Tmux) -> None:
    begin(w)
    for size in ((3, 3), (1, 1), (200, 2), (2, 60)):
        w.resize(*size)
        time.sleep(0.3)
    w.resize(80, 24)
    assert w.paging()
    w.still()
    same(w.still(), fresh(w, 80, 24))
    end(w)


@tried
def resize_and_quit(w: Tmux) -> None:
    """The answer to a question isn't typed at the shell."""
    for i in range(20):
        w.resize(80, 24)
        begin(w)
        if i % 2:
            w.resize(80, 20 + i % 3)
            time.sleep(i * 0.012)
        else:
            os.kill(w.script(), signal.SIGWINCH)
        end(w, what=f"round {i}")
        time.sleep(0.15)
        assert not any("R" in row for row in w.shown()), w.shown()
        w.type("\x03")


@tried
def joined_emoji(w: Tmux) -> None:
    begin(w, "emoji.md")
    w.type("j" * 5)
    assert "%" in w.still()[23]
    end(w)


@tried
def from_pipe(w: Tmux) -> None:
    wanted = fresh(w, 80, 24, keys="j j")[:23]
    os.mkfifo(w.folder / "fifo")
    for line in (f"cat text.md | {PAGE}", f"cat text.md | {PAGE} -", f"{PAGE} <(cat text.md)", f"{PAGE} - <text.md", f"{PAGE} /dev/stdin <text.md",
                 f"cat text.md | {PAGE} /dev/stdin", f"cat text.md >fifo & {PAGE} fifo"):
        w.run(line)
        assert w.paging(), (line, w.shown())
        w.type("j j")
        same(w.still()[:23], wanted, line)
        end(w, what=line)


def reading(w: Tmux) -> bool:
    """Waits until the script says that it reads a text, which it does after a second."""
    return until(lambda: any("Control-C shows" in row for row in w.shown()))


@tried
def from_slow_pipe(w: Tmux) -> None:
    os.mkfifo(w.folder / "more")
    w.run(f"(echo '# begun'; cat more) | {PAGE}")
    assert reading(w), w.shown()
    (w.folder / "more").write_text("\nlater\n")
    assert w.paging()
    assert any("later" in row for row in w.still())
    end(w)
    assert not any("Control-C shows" in row for row in w.shown())


@tried
def from_endless_pipe(w: Tmux) -> None:
    """Control-C also ends the command before the pipe, and the shell then drops the rest of its own line."""
    for line in (f"(echo '# begun'; sleep 1000) | {PAGE}", f"{PAGE} <(echo '# begun'; exec sleep 1000)"):
        w.type(f"clear; {line}\r")
        assert reading(w), w.shown()
        w.type("\x03")
        assert w.paging(), w.shown()
        assert "begun" in "".join(w.shown()) and "its beginning" in w.shown()[23], w.shown()
        w.type("q")
        assert w.at_rest(), w.flags()
    w.run(f"yes 'a é' | PAGE_MOST=1001 {PAGE}")
    assert w.paging(), w.shown()
    w.type("G")
    assert "100%" in w.still()[23], w.shown()
    assert until(lambda: not any(command.startswith("yes") for *_, command in w.children())), "yes still runs"
    end(w)


@tried
def from_pipe_cut_in_a_character(w: Tmux) -> None:
    for before in range(1012, 1025):
        w.run(f"(printf '%0{before}d' 7; printf 'aé€😀b\\n') | PAGE_MOST=1 {PAGE}")
        assert w.paging(), (before, w.shown())
        assert "its beginning" in w.shown()[23]
        end(w, what=str(before))


@tried
def from_empty_pipe(w: Tmux) -> None:
    """Alone it is no page. Among others it is one."""
    for line in (f"true | {PAGE}", f"false | {PAGE} -", f"{PAGE} /dev/null", f"{PAGE} <(exit 3)"):
        w.run(line)
        same(w.ended(8.0), 0, line)
    w.run(f"true | {PAGE} - text.md")
    assert w.paging(), w.shown()
    end(w)


@tried
def long_names(w: Tmux) -> None:
    """The last row leaves out a name's first folders, and not its end."""
    folders = "/".join(["a long folder"] * 8)
    (w.folder / folders).mkdir(parents=True)
    (w.folder / folders / "text.md").write_text("# A text\n")
    w.run(f"{PAGE} '{folders}/text.md'")
    assert w.paging(), w.shown()
    assert until(lambda: w.shown()[23].endswith("%  …/a long folder/a long folder/a long folder/text.md")), w.shown()
    end(w)


@tried
def named_by_man(w: Tmux) -> None:
    w.run(f"cat text.md | MAN_PN='ls(1)' {PAGE}")
    assert w.paging(), w.shown()
    assert until(lambda: "%  ls(1)" in w.shown()[23]), w.shown()
    end(w)


@tried
def refusals(w: Tmux) -> None:
    (w.folder / "latin.txt").write_bytes(b"caf\xe9\n")
    for words, status, said in (
        ("nothing.md", 2, "page: there is no file nothing.md"), ("text.md dark", 2, "page: there is no file dark"), (".", 2, "page: . is a folder"),
        ("", 2, "page: usage:"), ("-", 2, "page: usage:"), ("--skin", 2, "page: usage"), ("--skim x", 2, "page: usage"), ("+ text.md", 2, "page: usage"), ("+/ text.md", 2, "page: usage"), ("$'+/a\\tb' text.md", 2, "page: usage"),
        ("latin.txt", 3, "not UTF-8"), ("<(cat latin.txt)", 3, "not UTF-8"), ("--skin '{' text.md", 4, "page: SKIN is"),
    ):
        w.run(f"{PAGE} {words}")
        same(w.ended(), status, words)
        assert until(lambda: any(said in row for row in w.shown()), 2), (words, w.shown())


@tried
def several_files(w: Tmux) -> None:
    (w.folder / "other.md").write_text("# The other\n\nIts text.\n")
    begin(w, "text.md other.md")
    assert "text.md (1 of 2)" in w.shown()[23], w.shown()
    first = w.still()
    w.type(":")
    assert until(lambda: w.shown()[23] == ":"), w.shown()
    w.type("n")
    assert until(lambda: "other.md (2 of 2)" in w.shown()[23]), w.shown()
    w.type(":n")
    assert "The other" in w.still()[0] and "(2 of 2)" in w.shown()[23], w.shown()
    w.resize(60, 20)
    assert until(lambda: "(2 of 2)" in w.shown()[19]), w.shown()
    w.resize(80, 24)
    w.type(":p")
    same(w.still(), first)
    end(w)


@tried
def keys_first(w: Tmux) -> None:
    """A word with a plus sign begins the first file as if its keys were typed, also a text that still comes, of which a search reads on."""
    (w.folder / "numbered.md").write_text("".join(f"Row {n}.\n\n" for n in range(1, 9001)))
    for word, keys in (("'+/row 17\\.'", "/row 17\\.\r"), ("'+?row 2'", "?row 2\r"), ("+/none", "/none\r"), ("+G", "G"), ("+12", "12g")):
        wanted = fresh(w, 80, 24, "numbered.md", keys)
        begin(w, f"{word} numbered.md")
        assert until(lambda: w.shown() == wanted), (word, w.shown())
        end(w, what=word)
    begin(w, "'+/row 17\\.' numbered.md text.md")
    for keys, row in (("", "Row 17."), (":n", fresh(w, 80, 24)[0]), (":p", "Row 1.")):
        w.type(keys)
        assert until(lambda: row in w.shown()[0]), (keys, w.shown())
    end(w)
    for word, row, said in (("'+/row 8999\\.'", "Row 8999.", "row 8999"), ("+F", "Row 9000.", "100%")):
        w.run(f"cat numbered.md | {PAGE} {word}")
        assert until(lambda: any(row in shown for shown in w.shown()) and said in w.shown()[23]), (word, w.shown())
        end(w, what=word)


@tried
def several_pipes(w: Tmux) -> None:
    """Each is read once, when it is first shown."""
    w.run(f"cat other.md | {PAGE} - <(cat text.md) - other.md")
    for keys, name, row in (("", "standard input (1 of 4)", "The other"), (":n", "(2 of 4)", "A text"), (":n", "standard input (3 of 4)", "The other"),
                            (":n", "other.md (4 of 4)", "The other"), (":p", "(3 of 4)", "The other"), (":p", "(2 of 4)", "A text")):
        w.type(keys)
        assert until(lambda: name in w.shown()[23] and row in w.shown()[0]), (name, w.shown())
    stop(w)
    go_on(w)
    w.type(":n")
    assert until(lambda: "(3 of 4)" in w.shown()[23]), w.shown()
    quit_stopped(w)
    same(in_shell(w, f"cat other.md | {PAGE} other.md - text.md"), (in_shell(w, f"{PAGE} other.md; {PAGE} other.md; {PAGE} text.md")[0], b""))


@tried
def files_that_fail(w: Tmux) -> None:
    """They are passed over, the way of the last key, and the last row names them. Where none can be shown, the last one is named at the end."""
    (w.folder / "latin.txt").write_bytes(b"caf\xe9\n")
    (w.folder / "gone.md").write_text("It is taken away before it is shown.\n")
    (w.folder / "other.md").write_text("# The other\n\nIts text.\n")
    begin(w, "latin.txt text.md latin.txt gone.md other.md latin.txt")
    (w.folder / "gone.md").unlink()
    for keys, text, row in (("", "A text", "text.md (2 of 6); latin.txt isn't UTF-8"),
                            (":n", "The other", "other.md (5 of 6); latin.txt isn't UTF-8; gone.md can't be read"),
                            (":n", "The other", "other.md (5 of 6); latin.txt isn't UTF-8"),
                            (":p", "A text", "text.md (2 of 6); gone.md can't be read; latin.txt isn't UTF-8"),
                            (":p", "A text", "text.md (2 of 6); latin.txt isn't UTF-8")):
        w.type(keys)
        assert until(lambda: text in w.shown()[0] and w.shown()[23].endswith("%  " + row)), (row, w.shown())
    end(w)
    same([row for row in w.shown() if "UTF-8" in row], [], "said")
    begin(w, "<(cat latin.txt) text.md")
    assert until(lambda: "text.md (2 of 2); /dev/fd/" in w.shown()[23]), w.shown()
    end(w)
    w.run(f"{PAGE} latin.txt latin.txt")
    same(w.ended(), 3)
    assert until(lambda: "page: that is latin.txt" in w.shown()), w.shown()
    same([row for row in w.shown() if "not UTF-8" in row][1:], [], "said once")


@tried
def links(w: Tmux) -> None:
    """An address is opened as one word, which no shell reads. A file is shown next, and `:p` goes back to the row that was on top. Others are named."""
    notes = w.folder / "notes"
    notes.mkdir()
    (notes / "README.md").write_text("# Notes\n")
    (notes / "other page.md").write_text("# The other\n")
    (notes / "code.rs").write_text("// *one*\n")
    opener = w.folder / "opener"
    opener.write_text("#!/bin/sh\nprintf '<%s>' \"$@\" >opened\n")
    opener.chmod(0o755)
    (w.folder / "linked.md").write_text(
        "# Linked\n\nOne row.\n\n[address](<https://a.example/$(touch made);b c>), [page](notes/other%20page.md), [code](notes/code.rs#L1), [folder](notes),"
        " [gone](gone.md), [scheme](ftp://a.example/), [name](#the-end)\n" + "\nA row.\n" * 40 + "\n## The end\n"
    )
    begin(w, "linked.md", "TERMIMAD_OPEN=./opener ")
    w.type("2j")
    assert until(lambda: "One row." in w.shown()[0]), w.shown()
    first = w.still()
    w.type("l")
    assert until(lambda: w.shown()[2].startswith("  1ddress, 2age, 3ode, 4older, 5one, 6cheme, 7ame")), w.shown()
    w.type("l")
    assert until(lambda: "links" in w.shown()[23] and "1. address" in w.shown()[0]), w.shown()
    w.type("q")
    same(w.still(), first)
    w.type("l1\r")
    assert until(lambda: (w.folder / "opened").exists()) and w.paging(), w.shown()
    same((w.folder / "opened").read_text(), "<https://a.example/$(touch made);b c>")
    same((w.folder / "made").exists(), False)
    same(w.still()[:23], first[:23])
    for keys, text, row in (("l2\r", "The other", "notes/other page.md (2 of 2)"), (":p", "One row.", "linked.md (1 of 2)"),
                            ("l3\r", "// *one*", "notes/code.rs (2 of 3)"), (":p", "One row.", "linked.md (1 of 3)"),
                            ("l4\r", "Notes", "notes/README.md (2 of 4)"), (":p", "One row.", "linked.md (1 of 4)"),
                            ("l5\r", "One row.", "linked.md (1 of 4); there is no file gone.md"),
                            ("l6\r", "One row.", "linked.md (1 of 4); ftp://a.example/ isn't opened"),
                            ("l8\r", "One row.", "linked.md (1 of 4); ftp://a.example/ isn't opened"), ("l7\r", "The end", "100%")):
        w.type(keys)
        assert until(lambda: text in w.shown()[0] and row in w.shown()[23]), (row, w.shown())
    end(w)


@tried
def link_to_a_place(w: Tmux) -> None:
    """A file is shown from the place on that a link to it names, and else from its start."""
    (w.folder / "other.md").write_text("# Other\n" + "\nA row.\n" * 40 + "\n## Ä place\n" + "\nA row.\n" * 40)
    (w.folder / "here.md").write_text("Links: [there](other.md#%C3%A4-place), [nowhere](other.md#gone).\n")
    begin(w, "here.md")
    for keys, text, row in (("l1\r", "Ä place", "other.md (2 of 2)"), (":p", "Links", "here.md (1 of 2)"), ("l2\r", "Other", "other.md (2 of 2)")):
        w.type(keys)
        assert until(lambda: text in w.shown()[0] and row in w.shown()[23]), (row, w.shown())
    end(w)


def in_shell(w: Tmux, line: str) -> tuple[bytes, bytes]:
    ran = subprocess.run(["bash", "-c", line], cwd=w.folder, capture_output=True, env=ENVIRONMENT, stdin=subprocess.DEVNULL)
    return ran.stdout, ran.stderr


@tried
def broken_pipe(w: Tmux) -> None:
    for line in (f"{PAGE} long.md", f"{PAGE} --lines long.md", f"cat long.md | {PAGE}", f"{PAGE} <(cat long.md)", f"{PAGE} --skin dark long.md"):
        same(in_shell(w, f"{line} | head -1 >/dev/null; echo ${{PIPESTATUS[-2]}}"), (b"141\n", b""), line)
    out, err = in_shell(w, f"{PAGE} long.md >/dev/full; echo $?")
    same((out, len(err.splitlines())), (b"1\n", 1))


@tried
def first_look(w: Tmux) -> None:
    """Where no program is built, ./page asks ./termimad, which says what builds it."""
    clone = w.folder / "clone"
    (clone / "crates").mkdir(parents=True)
    (clone / "crates.txt").touch()
    for script in (PAGE, ROOT / "termimad"):
        shutil.copy(script, clone)
    shutil.copytree(ROOT / "tools/package", clone / "tools/package")
    for words in ("text.md", "--lines text.md", "<text.md"):
        out, err = in_shell(w, f"env -u TERMIMAD_PAGE {clone}/page {words}")
        assert not out and b"./termimad --build" in err, err


@tried
def no_styles(w: Tmux) -> None:
    same(b"\x1b" in in_shell(w, f"{PAGE} text.md")[0], False)
    same(b"\x1b" in in_shell(w, f"{PAGE} --skin default text.md")[0], True)
    same(in_shell(w, f"{PAGE} text.md")[0], in_shell(w, f"cat text.md | {PAGE}")[0])
    for before, options, styled in (("", "", True), ("NO_COLOR=1 ", "", False), ("NO_COLOR= ", "", True), ("NO_COLOR=1 ", "--skin default ", True), ("", "--skin none ", False)):
        begin(w, f"{options}text.md", before)
        same("\x1b[1" in w.shown("-e")[0], styled, before + options)
        same("\x1b[7m" in w.shown("-e")[23], not styled, "the status row: reversed where no style is shown")
        end(w)


@tried
def stop_and_go_on(w: Tmux) -> None:
    begin(w)
    w.type("   ")
    shown = w.still()
    for i in range(20):
        stop(w)
        if i == 0:
            w.type("stty -g >stopped\r")
            assert w.says("looked")
            same((w.folder / "stopped").read_text(), w.file("before").read_text(), "settings while stopped")
        go_on(w)
        same(w.still(), shown, f"round {i}")
    quit_stopped(w)
    w.type("stty -g >ended; jobs\r")
    assert w.says("looked")
    same((w.folder / "ended").read_text(), (w.folder / "stopped").read_text(), "settings at the end")
    same([row for row in w.shown() if "Stopped" in row or "Running" in row], [], "jobs")


@tried
def stop_in_search(w: Tmux) -> None:
    begin(w)
    w.type("/seven")
    assert until(lambda: "seven" in w.shown()[23])
    stop(w)
    w.type("clear; fg\r")
    assert until(lambda: "seven" in w.shown()[23]), w.shown()
    w.type(" nine")
    assert until(lambda: "seven nine" in w.shown()[23]), w.shown()
    w.type("\x1b")
    assert until(lambda: "%" in w.shown()[23]), w.shown()
    quit_stopped(w)


@tried
def stop_and_resize(w: Tmux) -> None:
    begin(w)
    stop(w)
    for size in ((40, 10), (100, 30), (55, 17)):
        w.resize(*size)
        time.sleep(0.1)
    go_on(w)
    w.still()
    same(w.still(), fresh(w, 55, 17))
    quit_stopped(w)


@tried
def stop_right_after_resize(w: Tmux) -> None:
    for i in range(12):
        begin(w)
        w.resize(70 + i % 2, 20)
        assert w.paging()
        w.resize(60, 24)
        time.sleep(i * 0.016)
        stop(w)
        go_on(w)
        quit_stopped(w)
        w.resize(80, 24)


@tried
def stop_right_after_continuing(w: Tmux) -> None:
    """The shell's line that it is stopped may be lost then, so the processes are looked at."""
    begin(w)
    stop(w)
    for i in range(12):
        w.type("clear; fg\r")
        for _ in range(3):
            time.sleep(i * 0.003)
            w.type("\x1a")
        w.still()
        if w.flags() == PAGING:
            w.type("\x1a")
        assert until(lambda: w.flags() == AT_REST and all(state[0] == "T" for _, state, _ in w.children())), (i, w.shown(), w.flags(), w.children())
    go_on(w)
    quit_stopped(w)


@tried
def stop_twice_at_once(w: Tmux) -> None:
    for i in range(8):
        begin(w)
        w.type("j\x1a\x1aj" if i % 2 else "\x1a\x1a\x1a")
        assert w.stopped(), (i, w.shown(), w.flags())
        for again in range(4):
            w.still()
            w.type(f"clear; echo again {again}; fg\r")
            assert until(lambda: w.flags() == PAGING or f"again {again}" in w.shown() and "Stopped" in "".join(w.shown()))
            w.still()
            if w.flags() == PAGING:
                break
        assert w.paging(), (i, w.shown(), w.flags())
        quit_stopped(w)


def left_of_picture(w: Tmux) -> list[str]:
    return [row for row in w.still() if "aragraph" in row or "█" in row or "%" in row]


@tried
def stop_while_drawing(w: Tmux) -> None:
    """In a large window a picture is longer than the terminal's buffer, so the program is mostly stopped in the middle of one."""
    w.resize(300, 100)
    for _ in range(10):
        begin(w, "--skin dark text.md")
        w.type(" b" * 200)
        stop(w)
        same(left_of_picture(w), [], "while stopped")
        go_on(w)
        w.still()
        w.type("q")
        assert w.at_rest()
        same(left_of_picture(w), [], "at the end")
        w.type("clear\r")


@tried
def keys_before_a_signal(w: Tmux) -> None:
    """Keys that the program hasn't read before Control-Z or Control-C aren't typed at the shell."""
    for i in range(6):
        begin(w)
        program = w.program()
        os.kill(program, signal.SIGSTOP)
        assert until(lambda: (program, "T") in [(pid, state[0]) for pid, state, _ in w.children()])
        w.type("jk#here")
        w.type("\x03" if i % 2 else "\x1a")
        assert w.at_rest(), (i, w.flags())
        assert w.says("looked"), w.shown()
        same([row for row in w.still() if "#here" in row], [], f"round {i}")
        if i % 2 == 0:
            go_on(w)
            quit_stopped(w)


@tried
def stop_and_background(w: Tmux) -> None:
    begin(w)
    stop(w)
    w.type("clear; bg\r")
    time.sleep(0.7)
    assert w.says("still here"), w.shown()
    same(w.flags(), AT_REST, "modes in the background")
    go_on(w)
    w.still()
    same(w.still(), fresh(w, 80, 24))
    quit_stopped(w)


@tried
def stop_by_signal(w: Tmux) -> None:
    begin(w)
    os.kill(w.script(), signal.SIGTSTP)
    assert w.stopped()
    assert all("T" in state for _, state, command in w.children() if "text.md" in command), w.children()
    go_on(w)
    quit_stopped(w)


@tried
def stop_in_pipe(w: Tmux) -> None:
    w.run(f"(cat text.md; exec sleep 0.1) | {PAGE}")
    assert w.paging()
    stop(w)
    go_on(w)
    quit_stopped(w)
    w.run(f"(cat text.md; sleep 3) | {PAGE}")
    time.sleep(0.5)
    stop(w)
    go_on(w)
    quit_stopped(w)


@tried
def stop_below_another_program(w: Tmux) -> None:
    """A program starts the pager by a shell, as git does. The shell in the window may have the terminal before the script has put it back."""
    for _ in range(8):
        w.type("clear; stty -g >below1\r")
        w.type(f"sh -c '{PAGE} text.md; true'\r")
        assert w.paging()
        w.type("\x1a")
        assert until(lambda: w.flags() == AT_REST and all(state[0] == "T" for _, state, _ in w.children()), 3), (w.shown(), w.children())
        w.type("clear; stty -g >below2\r")
        assert w.says("looked"), w.shown()
        same((w.folder / "below1").read_text(), (w.folder / "below2").read_text(), "settings while stopped")
        go_on(w)
        quit_stopped(w)
        w.type("stty -g >below2\r")
        assert w.says("again"), w.shown()
        same((w.folder / "below1").read_text(), (w.folder / "below2").read_text(), "settings at the end")


@tried
def stop_alone_in_tmux(w: Tmux) -> None:
    """tmux continues what stops."""
    alone = Tmux(80, 24, w.folder, f"{PAGE} {w.folder}/text.md")
    assert alone.paging()
    first = alone.still()[0]
    alone.type("\x1a")
    time.sleep(0.5)
    alone.type(" ")  # (a Control-Z right behind it would have the terminal drop it)
    assert until(lambda: alone.shown()[0] != first, 3), alone.shown()
    alone.type("\x1a\x1a")
    time.sleep(0.5)
    assert alone.paging()
    alone.close()


@tried
def stop_alone_in_xterm(w: Tmux) -> str | None:
    """Nobody could continue it there: Control-Z does nothing that lasts, and `q` ends it and the window."""
    if not all(shutil.which(name) for name in ("Xvfb", "xterm", "xdotool")):
        return "Xvfb, xterm or xdotool isn't there: not tried"
    with Screen():
        xterm = subprocess.Popen(["xterm", "-e", str(PAGE), "text.md"], cwd=w.folder, env=ENVIRONMENT, stderr=subprocess.DEVNULL)
        keys = lambda *names: [subprocess.run(["xdotool", "key", "--delay", "60", name], env=ENVIRONMENT, check=True) for name in names]
        runs = lambda: [state for _, _, state, command in processes() if command.startswith(ENVIRONMENT["TERMIMAD_PAGE"]) and "text.md" in command]
        try:
            assert until(runs), "it doesn't start"
            focus = ["xdotool", "search", "--sync", "--class", "xterm", "windowfocus"]
            assert until(lambda: subprocess.run(focus, env=ENVIRONMENT, capture_output=True).returncode == 0), "no window"
            keys("space", "ctrl+z")
            time.sleep(0.5)
            keys("space", "ctrl+z", "ctrl+z", "space")
            assert until(lambda: runs() and all("T" not in state for state in runs()), 3), runs()
            keys("q")
            assert until(lambda: xterm.poll() is not None, 5), "it hangs"
        finally:
            xterm.terminate()
            xterm.wait()
            ENVIRONMENT.pop("DISPLAY")


@tried
def signals_to_script(w: Tmux) -> None:
    for number, status in ((signal.SIGTERM, 143), (signal.SIGINT, 130), (signal.SIGHUP, 129)):
        begin(w)
        os.kill(w.script(), number)
        same(w.ended(), status)
        same(w.children(), [], "left")
    begin(w)
    w.type("\x03")
    assert until(lambda: w.flags() == AT_REST and not w.children())


@tried
def signals_at_once(w: Tmux) -> None:
    """bash's `wait` forgets one of two signals that come at once. (The shell has the terminal by then: it saw the script stopped.)"""
    for number in (signal.SIGTERM, signal.SIGINT, signal.SIGHUP):
        begin(w)
        script = w.script()
        os.kill(script, signal.SIGSTOP)
        assert until(lambda: (script, "T") in [(pid, state[0]) for pid, state, _ in w.children()])
        for each in (signal.SIGWINCH, number, signal.SIGCONT):
            os.kill(script, each)
        assert until(lambda: not w.children()), w.children()
        assert w.at_rest(), w.flags()
        w.type("clear\r")


@tried
def signals_to_stopped_script(w: Tmux) -> None:
    for number in (signal.SIGTERM, signal.SIGHUP):
        begin(w)
        script = w.script()
        stop(w)
        os.kill(script, number)
        os.kill(script, signal.SIGCONT)
        assert until(lambda: not w.children()), w.children()
        same(w.flags(), AT_REST)
        w.type("clear\r")


@tried
def signals_to_program(w: Tmux) -> None:
    for number in (signal.SIGTERM, signal.SIGKILL, signal.SIGSEGV):
        begin(w)
        os.kill(w.program(), number)
        same(w.ended(), 128 + number)
        assert f"page: the program was ended by signal {int(number)}" in w.shown(), w.shown()


@tried
def window_closes(w: Tmux) -> None:
    for how in ("running", "stopped", "reading"):
        other = Tmux(80, 24, w.folder)
        if how == "reading":
            other.run(f"sleep 1000 | {PAGE}")
            assert reading(other), other.shown()
        else:
            begin(other)
        if how == "stopped":
            stop(other)
        started = [pid for pid, *_ in other.children()]
        assert started
        other.close()
        assert until(lambda: not [pid for pid, _, state, _ in processes() if pid in started and "Z" not in state], 5), how


@tried
def nothing_is_left(w: Tmux) -> None:
    same([path.name for path in (w.folder / "tmp").iterdir()], [])


def run_tries(folder: Path, word: str) -> int:
    """Runs the tries whose names have the word. How many failed."""
    chance = random.Random(1)
    words = "one two three four five six seven eight nine ten eleven twelve".split()
    lines = "\n\n".join(f"Paragraph {i:03}: " + " ".join(chance.choices(words, k=20)) for i in range(200)) + "\n"
    (folder / "text.md").write_text("# A text\n\n" + lines)
    (folder / "long.md").write_text(lines * 400)
    (folder / "emoji.md").write_text("\n".join("* " + "\U0001F468\u200d\U0001F469\u200d\U0001F467 \u2764\ufe0f " * 30 for _ in range(60)))
    (folder / "tmp").mkdir()
    ENVIRONMENT["TMPDIR"] = str(folder / "tmp")
    failed = 0
    for f in TRIES:
        if word not in f.__name__:
            continue
        w = Tmux(80, 24, folder)
        began = time.monotonic()
        try:
            said = f(w)
            print(f"pass {f.__name__} ({time.monotonic() - began:.1f} s){': ' + said if said else ''}", flush=True)
        except (AssertionError, RuntimeError, StopIteration, subprocess.SubprocessError) as e:
            failed += 1
            print(f"FAIL {f.__name__}: {type(e).__name__} {e}", flush=True)
        w.close()
    return failed
