"""Windows of real terminals: what is typed into them, and what they show. Only what was started here is ended."""
from __future__ import annotations

import base64
import json
import os
import shlex
import socket
import subprocess
import time
from collections.abc import Callable
from pathlib import Path

ROOT = Path(__file__).resolve().parent.parent.parent
PAGE = ROOT / "page"
SERVER = f"page-{os.getpid()}"
SHELL = ["env", "PS1=ready ", "bash", "--norc", "--noprofile"]
# Which modes are on: the other screen, the cursor, the mouse in three ways, autowrap.
FLAGS = "#{alternate_on} #{cursor_flag} #{mouse_any_flag} #{mouse_button_flag} #{mouse_sgr_flag} #{wrap_flag}"
AT_REST, PAGING = "0 1 0 0 0 1", "1 0 1 1 1 0"
# What is waited for may take this many times longer than on a machine that does nothing else.
PATIENCE = 10
ENVIRONMENT = {**os.environ, "LC_ALL": "C.UTF-8", "HISTFILE": "/dev/null"}


def tmux(*words: str) -> str:
    ran = subprocess.run(["tmux", "-L", SERVER, "-f", "/dev/null", *words], capture_output=True, text=True, env=ENVIRONMENT)
    if ran.returncode:
        raise RuntimeError(f"tmux {words[0]}: {ran.stderr.strip()}")
    return ran.stdout


def processes() -> list[tuple[int, int, str, str]]:
    """All processes, as (pid, session, state, command)."""
    listed = subprocess.run(["ps", "-e", "-o", "pid=,sid=,stat=,args="], capture_output=True, text=True).stdout
    return [(int(pid), int(session), state, command) for pid, session, state, command in (line.split(None, 3) for line in listed.splitlines() if len(line.split(None, 3)) == 4)]


def until(test: Callable[[], object], seconds: float = 8.0) -> bool:
    """Whether a test holds before so many seconds have passed, or many more where the machine does other work too."""
    end = time.monotonic() + seconds * PATIENCE
    while not test():
        if time.monotonic() > end:
            return False
        time.sleep(0.03)
    return True


class Terminal:
    """A terminal with a shell in it. Its files lie in `folder`."""

    count = 0

    def __init__(self, columns: int = 80, rows: int = 24, folder: Path = ROOT, command: str | None = None) -> None:
        Terminal.count += 1
        self.name, self.folder, self.rows = f"w{Terminal.count}", folder, rows
        self.start(columns, rows, command)
        if not command:
            assert until(lambda: self.shown()[0].startswith("ready")), "no shell"

    def until(self, test: Callable[[list[str]], object], seconds: float = 10.0) -> list[str]:
        """What is shown once a test holds of it, or after so many seconds."""
        until(lambda: test(self.shown()), seconds)
        return self.shown()

    def still(self) -> list[str]:
        """What is shown once it hasn't changed for a while, in which nothing in the terminal had work to do."""
        before = None
        for _ in range(100 * PATIENCE):
            shown, idle = self.shown(), self.idle()
            if idle and shown == before:
                return shown
            before = shown if idle else None
            time.sleep(0.2)
        return self.shown()

    def idle(self) -> bool:
        return True

    def run(self, line: str) -> None:
        """Types a command line that also writes its status, and the terminal's settings before and after it, into files."""
        for end in ("before", "after", "status"):
            self.file(end).unlink(missing_ok=True)
        before, after, status = (shlex.quote(str(self.file(end))) for end in ("before", "after", "status"))
        self.type(f"clear; stty -g >{before}; {line}; echo $? >{status}; stty -g >{after}; echo done >>{after}\r")

    def file(self, end: str) -> Path:
        return self.folder / f"{self.name}.{end}"

    def ended(self, seconds: float = 8.0) -> int | str | None:
        """The status of the line that was run; None, where it hasn't ended, or a text that says what of the terminal differs."""
        after = self.file("after")
        if not until(lambda: after.exists() and after.read_text().endswith("done\n"), seconds):
            return None
        if self.file("before").read_text() + "done\n" != after.read_text():
            return "the settings differ"
        return int(self.file("status").read_text())


class Tmux(Terminal):
    """A window of tmux."""

    def start(self, columns: int, rows: int, command: str | None) -> None:
        tmux("new-session", "-d", "-s", self.name, "-x", str(columns), "-y", str(rows), "-c", str(self.folder), *([command] if command else [shlex.join(SHELL)]))
        self.pid = int(self.ask("#{pane_pid}"))

    def ask(self, form: str) -> str:
        return tmux("display-message", "-p", "-t", self.name, form).strip()

    def type(self, text: str) -> None:
        """Sends the bytes of a text, as one block if there are at most 500."""
        data = text.encode()
        for at in range(0, len(data), 500):
            tmux("send-keys", "-t", self.name, "-H", *[f"{b:02x}" for b in data[at : at + 500]])

    def resize(self, columns: int, rows: int) -> None:
        tmux("resize-window", "-t", self.name, "-x", str(columns), "-y", str(rows))
        self.rows = rows

    def shown(self, *how: str) -> list[str]:
        return [line.rstrip() for line in tmux("capture-pane", "-t", self.name, "-p", "-N", *how).split("\n")[: self.rows]]

    def flags(self) -> str:
        return self.ask(FLAGS)

    def paging(self, seconds: float = 8.0) -> bool:
        """Waits for the pager's status row in the last row."""
        return until(lambda: self.flags() == PAGING and "%" in self.shown()[self.rows - 1], seconds)

    def at_rest(self) -> bool:
        """Waits until all modes are as at the start."""
        return until(lambda: self.flags() == AT_REST, 3)

    def stopped(self) -> bool:
        """Waits until the shell says that its command is stopped."""
        return until(lambda: self.flags() == AT_REST and any("Stopped" in row for row in self.shown()))

    def says(self, text: str) -> bool:
        """Types a command that prints a text, and waits for that."""
        self.type(f"echo {text[0]}''{text[1:]}\r")
        return until(lambda: text in self.shown(), 3)

    def ended(self, seconds: float = 8.0) -> int | str | None:
        status = super().ended(seconds)
        return status if self.at_rest() else f"the modes differ: {self.flags()}"

    def idle(self) -> bool:
        """Whether no process of this window waits for a processor or a disk."""
        return not any(state[0] in "RD" for _, state, _ in self.children())

    def children(self) -> list[tuple[int, str, str]]:
        """The processes of this window below its own."""
        return [(pid, state, command) for pid, session, state, command in processes() if session == self.pid != pid]

    def script(self) -> int:
        return next(pid for pid, _, command in self.children() if f"bash {PAGE}" in command)

    def program(self) -> int:
        return next(pid for pid, _, command in self.children() if command.startswith(ENVIRONMENT["TERMIMAD_PAGE"]))

    def close(self) -> None:
        tmux("kill-session", "-t", self.name)


class Kitty(Terminal):
    """A window of kitty, on the screen that DISPLAY names. It is told what to do by the protocol of its remote control."""

    def start(self, columns: int, rows: int, command: str | None) -> None:
        self.socket = f"{self.folder}/{self.name}.socket"
        options = ["allow_remote_control=socket-only", "remember_window_size=no", f"initial_window_width={columns}c", f"initial_window_height={rows}c",
                   "shell_integration=disabled", "confirm_os_window_close=0", "window_padding_width=0", "placement_strategy=top-left"]
        words = [word for option in options for word in ("-o", option)]
        self.process = subprocess.Popen(["kitty", "--config", "NONE", *words, "--listen-on", f"unix:{self.socket}", *SHELL],
                                        cwd=self.folder, env=ENVIRONMENT, stderr=subprocess.DEVNULL)
        assert until(lambda: Path(self.socket).exists(), 30), "kitty doesn't start"

    def tell(self, command: str, **payload: object) -> str:
        """What kitty answers to a command; an empty text, where it answers nothing."""
        asked = json.dumps({"cmd": command, "version": [0, 26, 0], "payload": payload})
        with socket.socket(socket.AF_UNIX) as line:
            line.connect(self.socket)
            line.sendall(b"\x1bP@kitty-cmd" + asked.encode() + b"\x1b\\")
            line.shutdown(socket.SHUT_WR)
            told = b"".join(iter(lambda: line.recv(1 << 16), b""))
        return (json.loads(told[len("\x1bP@kitty-cmd") : -2]).get("data") if told else None) or ""

    def type(self, text: str) -> None:
        self.tell("send-text", data="base64:" + base64.b64encode(text.encode()).decode())

    def resize(self, columns: int, rows: int) -> None:
        self.tell("resize-os-window", action="resize", unit="cells", width=columns, height=rows)
        self.rows = rows

    def shown(self) -> list[str]:
        # A row that kitty takes for the rest of the one above, as after a resize, stands behind a carriage return.
        text = self.tell("get-text", extent="screen", wrap_markers=True).replace("\r\n", "\n").replace("\r", "\n")
        lines = [line.rstrip() for line in text.split("\n")]
        return (lines + [""] * self.rows)[: self.rows]

    def close(self) -> None:
        self.process.terminate()
        self.process.wait()


class Screen:
    """A screen without a monitor, by Xvfb. Its programs find it by DISPLAY."""

    def __enter__(self) -> Screen:
        read, write = os.pipe()
        self.process = subprocess.Popen(["Xvfb", "-displayfd", str(write), "-screen", "0", "1600x1200x24"], pass_fds=[write], stderr=subprocess.DEVNULL)
        os.close(write)
        ENVIRONMENT["DISPLAY"] = ":" + os.read(read, 20).decode().strip()
        ENVIRONMENT["LIBGL_ALWAYS_SOFTWARE"] = "1"
        return self

    def __exit__(self, *_: object) -> None:
        self.process.terminate()
        self.process.wait()
