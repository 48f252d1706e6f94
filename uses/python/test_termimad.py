"""What the module's calls do, by its own examples and by 1,000 random calls: `TERMIMAD_LIBRARY=.. python3 -m unittest` in this folder."""
import doctest
import fcntl
import io
import os
import pathlib
import pty
import random
import re
import struct
import tempfile
import termios
import unittest
import unittest.mock

import termimad

PIECES = ["# head\n", "* item **of** words\n", "|a|b|\n|-|-|\n", "```\ncode\n```\n", "> quote\n", "words ", "日本語 ", "é😀 ", "*", "`", "|", "\n", "\t", "\x1b[2J", "\0"]
RANDOM_CALLS = 1000


def load_tests(_loader, tests, _pattern):
    """The examples of the module, of its classes and of its functions, too."""
    for module in (termimad, termimad._pages):
        tests.addTests(doctest.DocTestSuite(module))
    return tests


def rows_on_a_terminal(written):
    """The rows of a terminal that has room for all, once it has read this."""
    rows = [""]
    for part in re.findall(r"\x1b\[\?7[lh]|\x1b\[0?m|\r\x1b\[K|\x1b\[1A\x1b\[K|\n|[^\x1b\r\n]+", written):
        if part == "\n":
            rows.append("")
        elif part == "\r\x1b[K":
            rows[-1] = ""
        elif part == "\x1b[1A\x1b[K":
            rows[-2:] = [""]
        elif part[0] != "\x1b":
            rows[-1] += part
    return rows[:-1]


def said(device, count):
    """What a terminal was told, at least `count` bytes: it may come in several parts."""
    told = b""
    while len(told) < count:
        told += os.read(device, 4096)
    return told


def resize(terminal, rows, columns):
    fcntl.ioctl(terminal, termios.TIOCSWINSZ, struct.pack("HHHH", rows, columns, 0, 0))


class Tables(unittest.TestCase):
    """Tables of data: each cell is a text as it is."""

    def test_marks_are_text(self):
        shown = termimad.table([["name", "size"], ["*a|b*", "1"]], 40)
        self.assertIn("*a|b*", shown)
        self.assertEqual(shown.count("\n"), 5)

    def test_short_rows_are_filled(self):
        self.assertEqual(termimad.table([["a", "b"], ["1"]], 40), termimad.table([["a", "b"], ["1", ""]], 40))
        self.assertEqual([termimad.table(rows, 40) for rows in ([], [[]], [{}])], ["", "", ""])

    def test_nothing_reaches_the_terminal_that_it_obeys(self):
        self.assertNotIn("\x1b", termimad.table([["\x1b[2J", "a\nb"]], 40))

    def test_plain_words_are_a_table_of_markdown(self):
        draw, sides = random.Random(3), {termimad.Align.INSIDE: "-", termimad.Align.LEFT: ":-", termimad.Align.CENTER: ":-:", termimad.Align.RIGHT: "-:"}
        for _ in range(200):
            columns = draw.randrange(1, 5)
            rows = [[draw.choice(["a", "two words", "日本語", "a long word-and-more", "42"]) for _ in range(columns)] for _ in range(draw.randrange(1, 6))]
            aligns = draw.choices(list(sides), k=columns)
            rule = "".join(f"|{sides[align]}" for align in aligns) + "|"
            lines = [rule, "".join(f"|**{word}**" for word in rows[0]) + "|", rule, *("".join(f"|{word}" for word in row) + "|" for row in rows[1:]), rule]
            width, skin = draw.choice([5, 12, 20, 40, 80]), draw.choice(["", "dark"])
            self.assertEqual(termimad.table(rows, width, aligns, skin), termimad.text("\n".join(lines), width, skin))

    def test_no_alignment_of_that_number(self):
        with self.assertRaises(termimad.WrongNumber):
            termimad.table([["a"]], 40, aligns=[4])

    def test_dicts_and_files_of_csv(self):
        wanted = termimad.table([["a", "b"], ["1", "x|y"], ["2", ""]], 40)
        self.assertEqual(termimad.table([{"a": 1, "b": "x|y"}, {"a": 2}], 40), wanted)
        with tempfile.TemporaryDirectory() as folder:
            path = pathlib.Path(folder) / "a.csv"
            for mark in ("", "\ufeff"):  # some programs put a mark at a file's front
                path.write_text(mark + 'a,b\n1,"x|y"\n2,\n', encoding="utf-8")
                self.assertEqual(termimad.table(path, 40), wanted)
            path.write_bytes(b"a\n\xff\n")
            with self.assertRaisesRegex(termimad.NotUtf8, "a.csv is not UTF-8"):
                termimad.table(path, 40)


class Texts(unittest.TestCase):
    """Texts and their rows."""

    def test_rows_are_what_is_written(self):
        page = termimad.Markdown("# head\n\na *b*\nc")
        self.assertEqual("\n".join(page.rows(20)) + "\n", termimad.markdown("# head\n\na *b*\nc", 20))

    def test_links_and_headings_are_told(self):
        page = termimad.Markdown("# Disks\n\n## Disks\n\nsee [there](#disks-1) and ![this](a.png)")
        self.assertEqual([heading.name for heading in page.headings], ["disks", "disks-1"])
        self.assertEqual([heading.level for heading in page.headings], [1, 2])
        self.assertEqual([link.address for link in page.links], ["#disks-1"])
        self.assertGreater(page.links[0].section, page.headings[1].section)
        self.assertEqual(termimad.Markdown("no heading").headings, [])
        with self.assertRaisesRegex(termimad.NotUtf8, "source is not UTF-8"):
            termimad.Markdown(b"# \xff").headings

    def test_a_name_leads_to_a_section(self):
        page = termimad.Markdown("# Disks\n\nwords\n\n## Disks\n\n<p id='Here'>a</p>\n\nsee [there](#disks-1), [that](#Disks) and [this](#Here)")
        first, second = (heading.section for heading in page.headings)
        self.assertEqual([page.find_section(link.address[1:]) for link in page.links[:2]], [second, first])
        self.assertGreater(page.find_section("Here"), second)
        for name in ("", "here", "#disks", "disks-2"):
            self.assertIsNone(page.find_section(name))
        with self.assertRaisesRegex(termimad.NotUtf8, "source is not UTF-8"):
            termimad.Markdown(b"# \xff").find_section("a")
        with self.assertRaisesRegex(termimad.NotUtf8, "name is not UTF-8"):
            page.find_section("\ud800")

    def test_lines_stand_for_themselves(self):
        self.assertEqual(termimad.Lines("a\nb").rows(20), ["a", "b"])
        self.assertEqual(termimad.Markdown("a\nb").rows(20), ["a b"])

    def test_a_path_stands_for_its_file(self):
        with tempfile.TemporaryDirectory() as folder:
            path = pathlib.Path(folder) / "a.md"
            path.write_text("é *b*")
            self.assertEqual(termimad.markdown(path, 20), termimad.markdown("é *b*", 20))
            self.assertEqual(termimad.Markdown(path).rows(20), ["é _b_"])

    def test_only_a_terminal_gets_styles(self):
        file = io.StringIO()
        termimad.Markdown("# head").show(20, file=file)
        self.assertNotIn("\x1b", file.getvalue())
        termimad.Markdown("# head").show(20, "dark", file)
        self.assertIn("\x1b", file.getvalue())

    def test_skins_by_dicts(self):
        self.assertEqual(termimad.markdown("**a**", 20, {"bold": "red"}), termimad.markdown("**a**", 20, '{"bold": "red"}'))

    def test_code_is_one_block(self):
        shown = termimad.code("```\n# no heading", "markdown").rows(40)
        self.assertEqual([row.strip() for row in shown], ["```", "# no heading"])
        self.assertEqual(termimad.code("a", "rust\n```\n# head").rows(40), termimad.code("a", "rust").rows(40))

    def test_code_has_the_colors_of_its_language(self):
        plain, colored = (termimad.code("let a = 1;", language).rows(40, "dark") for language in ("nothing", "rust"))
        self.assertNotEqual(plain, colored)
        self.assertEqual(termimad.code("let a = 1;", "main.rs").rows(40, "dark"), colored)
        self.assertEqual(termimad.markdown("```rust\nlet a = 1;\n```", 40, "dark").split("\n")[:-1], colored)
        with tempfile.TemporaryDirectory() as folder:
            path = pathlib.Path(folder) / "main.rs"
            path.write_text("let a = 1;")
            self.assertEqual(termimad.code(path).rows(40, "dark"), colored)
            self.assertEqual(termimad.code(path, "nothing").rows(40, "dark"), plain)

    def test_refusals_name_the_argument(self):
        refused = [
            (termimad.NotUtf8, "markdown is not", lambda: termimad.text(b"\xff", 20)),
            (termimad.NotUtf8, "source is not", lambda: termimad.Markdown(b"\xff").rows(20)),
            (termimad.NotUtf8, r"rows\[1\]\[0\] is not", lambda: termimad.table([["a"], [b"\xff"]], 20)),
            (termimad.WrongNumber, "width=65536 is over 65535", lambda: termimad.code("a", "c").rows(65536)),
            (termimad.WrongSkin, "skin='nothing' is no name of a skin, and no JSON text", lambda: termimad.text("a", 20, "nothing")),
            (termimad.WrongSkin, r"skin='\[\]' is JSON text, but no object", lambda: termimad.text("a", 20, "[]")),
            (termimad.WrongSkin, "says no skin: bold doesn't take 'rde'", lambda: termimad.text("a", 20, {"italic": "red", "bold": "rde"})),
            (termimad.WrongSkin, "says no skin: page.link doesn't take 'rde'", lambda: termimad.markdown("a", 20, {"bold": "red", "page": {"head": "red", "link": "rde"}})),
            (termimad.WrongSkin, "says no skin: page doesn't take 7", lambda: termimad.markdown("a", 20, {"page": 7})),
            (termimad.WrongNumber, "width=65536 is over 65535", lambda: termimad.text("a", 65536)),
            (termimad.WrongNumber, "width=-1 is under 0", lambda: termimad.text("a", -1)),
            (termimad.WrongNumber, f"width={2**70} is over", lambda: termimad.text("a", 2**70)),
            (termimad.WrongNumber, "width=3 is under 4", lambda: termimad.area("a", 0, 0, 3, 1)),
            (termimad.WrongNumber, "top=65535 and height=1", lambda: termimad.area("a", 0, 65535, 4, 1)),
            (termimad.WrongNumber, r"aligns\[1\]=4 is over 3", lambda: termimad.table([["a"]], 40, aligns=[0, 4])),
            (termimad.WrongNumber, "width=65536 is over 65535", lambda: list(termimad.pieces(["a"], 65536))),
            (termimad.WrongSkin, "skin='nothing'", lambda: termimad.live(20, "nothing")),
            (termimad.WrongNumber, "height=70000 is over 65535", lambda: termimad.live(20, "none", height=70000)),
            (termimad.NotUtf8, "a piece is not UTF-8", lambda: list(termimad.pieces([b"\xe6", b"a"], 20))),
            (termimad.NotUtf8, "a piece is not UTF-8", lambda: list(termimad.pieces([b"\xe6"], 20))),
            (TypeError, "a piece is of type int", lambda: list(termimad.pieces([7], 20))),
            (TypeError, "width is of type str", lambda: termimad.text("a", "20")),
            (TypeError, "skin is None", lambda: termimad.text("a", 20, None)),
            (TypeError, "source is of type int", lambda: termimad.Markdown(7)),
            (TypeError, r"rows\[1\] is of type str", lambda: termimad.table([["a"], "b"], 40)),
            (TypeError, r"rows\[1\] is of type dict, and rows\[0\] of type list", lambda: termimad.table([["a"], {"a": 1}], 40)),
        ]
        for kind, said, call in refused:
            with self.subTest(said), self.assertRaisesRegex(kind, said):
                call()

    def test_rows_of_rich_are_those_of_the_page(self):
        try:
            from rich.console import Console
        except ImportError:
            self.skipTest("no rich here")
        file = io.StringIO()
        Console(file=file, width=30).print(termimad.Markdown("# head\n\n- one *two*"))
        self.assertEqual([row.rstrip() for row in file.getvalue().splitlines()], [row.rstrip() for row in termimad.Markdown("# head\n\n- one *two*").rows(30)])

    @unittest.mock.patch.dict("os.environ", {"TERM": "xterm", "COLORFGBG": "15;0", "NO_COLOR": ""})
    def test_a_page_in_a_layout_of_rich_has_its_rows(self):
        try:
            from rich.console import Console
            from rich.panel import Panel
            from rich.table import Table
        except ImportError:
            self.skipTest("no rich here")
        page = termimad.Markdown("# head\n\n- one *two* three four five six 日本語\n\n|a|b|\n|-|-|\n|1|2|\n\n```rust\nlet x = 1;\n```")
        for is_terminal in (False, True):
            file = io.StringIO()
            console = Console(file=file, width=30, force_terminal=is_terminal, color_system="256", no_color=False)
            console.print(Panel(page))
            shown = [re.sub(r"\x1b\[[0-9;]*m", "", row) for row in file.getvalue().splitlines()]
            rows = [re.sub(r"\x1b\[[0-9;]*m", "", row).rstrip() for row in page.rows(26, "dark" if is_terminal else "none")]
            self.assertEqual([row[2:-2].rstrip() for row in shown[1:-1]], rows)
        table = Table("left", "right")
        table.add_row(page, termimad.Lines("one\n*two*"))
        console.print(table)
        self.assertIn("two", file.getvalue())

    def test_markdown_in_pieces_is_the_whole(self):
        text = "# head\n\n> - an item\n>   of a quote\n\n|a|b|\n|-|-:|\n|1|2|\n\nlast *words* 日本語 of a [link](b.md)"
        for size in (1, 3, 50):
            source = [text.encode()[at : at + size] for at in range(0, len(text.encode()), size)]
            self.assertEqual(list(termimad.pieces(source, 30, "dark")), termimad.Markdown(text).rows(30, "dark"))
            file = io.StringIO()
            with termimad.live(30, file=file) as out:
                for piece in source:
                    out.write(piece)
            self.assertEqual(file.getvalue(), termimad.markdown(text, 30))
        with self.assertRaisesRegex(ValueError, "behind the end"):
            out.write("more")

    def test_rows_come_as_soon_as_they_are_complete(self):
        taken = []

        def source():
            yield "# head\n"
            yield "- one\n"
            yield "- two\n"

        for row in termimad.pieces(source(), 20):
            taken.append(row)
            if "one" in row:
                break
        self.assertEqual(taken[0], "head")
        file = io.StringIO()
        with self.assertRaises(KeyError), termimad.live(20, file=file) as out:
            out.write("one\n\ntwo")
            raise KeyError
        self.assertEqual(file.getvalue(), "one\n")

    def test_what_grows_is_redrawn(self):
        text = "# head\n\n- an *item*\n- and one more\n\nlast words"
        file = io.StringIO()
        with termimad.live(30, "none", file, height=24) as out:
            for letter in text:
                out.write(letter)
        self.assertEqual(rows_on_a_terminal(file.getvalue()), termimad.Markdown(text).rows(30))
        file = io.StringIO()
        with self.assertRaises(KeyError), termimad.live(30, "none", file, height=24) as out:
            out.write("one")
            raise KeyError
        self.assertEqual(rows_on_a_terminal(file.getvalue()), ["one"])

    def test_a_terminal_shows_what_grows(self):
        ours, theirs = pty.openpty()
        with open(theirs, "w", encoding="utf-8") as file:
            resize(theirs, 24, 21)
            with termimad.live(skin="none", file=file) as out:
                out.write("one tw")
                self.assertEqual(said(ours, 16), b"\x1b[?7lone tw\x1b[?7h")
                resize(theirs, 24, 9)
                out.write("o three\n\n")
                self.assertEqual(said(ours, 32), b"\x1b[0m\r\n\x1b[?7lone two\r\nthree\r\n\x1b[?7h")
        os.close(ours)

    def test_random_calls(self):
        draw = random.Random(7)
        for _ in range(RANDOM_CALLS):
            source = "".join(draw.choices(PIECES, k=draw.randrange(20)))
            width = draw.choice([0, 3, 8, 20, 80, 400])
            shown = termimad.text(source, width)
            self.assertEqual("".join(termimad.text_of_pieces(source, width)), shown)
            self.assertEqual(termimad.rows(source, width), shown.count("\n"))
            safe = termimad.printable(source)
            self.assertEqual(termimad.printable(safe), safe)
            self.assertNotIn("\x1b", termimad.markdown(source, width))
            self.assertEqual(list(termimad.pieces(source, width)), list(termimad.pieces([source], width)))


if __name__ == "__main__":
    unittest.main()
