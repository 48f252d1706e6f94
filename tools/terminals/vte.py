"""Runs beside `links.py`: screens of rows in a window of VTE, and what it knows of links there.

`vte.py COLUMNS ROWS` reads a list of screens as JSON, each its bytes in base64, and writes of each row of each its text and its links. It wants the system's Python, with the
packages gir1.2-vte-2.91 and python3-gi.
"""
import base64
import json
import sys

import gi

gi.require_version("Vte", "2.91")
gi.require_version("Gtk", "3.0")
gi.require_version("Gdk", "3.0")
from gi.repository import Gdk, GLib, Gtk, Vte  # noqa: E402

COLUMNS, ROWS = int(sys.argv[1]), int(sys.argv[2])
SCREENS = [base64.b64decode(screen) for screen in json.load(sys.stdin)]
WAIT = 300


class Window:
    """A window of the terminal, into which each screen is fed."""

    def __init__(self) -> None:
        self.window, self.terminal, self.told = Gtk.Window(), Vte.Terminal(), []
        self.terminal.set_size(COLUMNS, ROWS)
        self.terminal.set_allow_hyperlink(True)
        self.terminal.set_scrollback_lines(0)
        self.window.add(self.terminal)
        self.window.show_all()
        GLib.timeout_add(WAIT, self.feed)

    def feed(self) -> bool:
        if len(self.told) == len(SCREENS):
            json.dump(self.told, sys.stdout)
            Gtk.main_quit()
        else:
            self.terminal.feed(SCREENS[len(self.told)])
            GLib.timeout_add(WAIT, self.look)
        return False

    def look(self) -> bool:
        lines = self.terminal.get_text(None, None)[0].split("\n")
        texts = [line.rstrip() for line in lines + [""] * ROWS][:ROWS]
        self.told.append([(text, [self.link(number, column) for column in range(COLUMNS)]) for number, text in enumerate(texts)])
        GLib.idle_add(self.feed)
        return False

    def link(self, row: int, column: int) -> "str | None":
        event = Gdk.Event.new(Gdk.EventType.BUTTON_PRESS)
        event.button.window = self.terminal.get_window().get_children()[0]
        event.button.x = (column + 0.5) * self.terminal.get_char_width() + 1
        event.button.y = (row + 0.5) * self.terminal.get_char_height() + 1
        return self.terminal.hyperlink_check_event(event)


Window()
Gtk.main()
