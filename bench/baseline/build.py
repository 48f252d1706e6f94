#!/usr/bin/env python3
"""Builds the baseline of the speed comparison from the published source of the Rust crate termimad 0.35.1.

    build.py SOURCE OUT [WORD OF CARGO ..]

SOURCE is the folder of the crate as it is published, with `src` in it, OUT a folder for the tree and the program, which is
OUT/termimad-rs-spec. Whole modules and functions are cut (input, lists, prompts, JSON skins, templates), so that few crates are needed.
Five places are changed to this project's rules, so that both programs do equal work: code blocks are capped at the width, a blank that
doesn't fit ends its line, a token's room ends at 0, and a rule of a table without columns is two wide, in its length and as drawn.
Words after OUT go to `cargo build`, as `--offline`.
"""
import re
import shutil
import subprocess
import sys
from pathlib import Path

HERE = Path(__file__).resolve().parent

DROPPED = (
    "ask.rs", "macros.rs", "lib.rs", "views/mod.rs", "views/input_field.rs", "views/input_field_content.rs", "views/list_view.rs",
    "events/", "serde/", "parse/",
)

DROPPED_FNS = {
    "skin.rs": [
        "blend_with", "print_expander", "write_expander", "print_owning_expander", "write_owning_expander", "print_owning_expander_md",
        "write_owning_expander_md",
    ],
    "compound_style.rs": ["blend_with"],
    "line_style.rs": ["blend_with"],
    "ordered_item_style.rs": ["blend_with"],
    "styled_char.rs": ["blend_with"],
    "views/mad_view.rs": ["apply_key_combination", "apply_key_event"],
    "views/text_view.rs": ["apply_key_combination", "apply_key_event"],
}

# A file, a pattern that has to match there, and what stands for it: names of what was cut, then this project's rules.
CHANGES = [
    ("skin.rs", r"(?m)^ *(OwningTemplateExpander|TextTemplate|TextTemplateExpander),\n", ""),
    ("views/mad_view.rs", r"(?m)^ *(crossterm::event::KeyEvent|crokey::KeyCombination),\n", ""),
    ("views/text_view.rs", r"(?ms)^ *event::\{.*?\},\n", ""),
    ("views/text_view.rs", r"(?ms)^ *crokey::\{.*?\},\n", ""),
    ("skin.rs", r"(let tbl_width = )(1 \+ rule\.widths\.iter\(\)\.fold\(0, \|sum, w\| sum \+ w \+ 1\));", r"\1(\2).max(2);"),
    ("line.rs", r"1 \+ rule\.widths\.iter\(\)\.fold\(0, \|s, w\| s \+ w \+ 1\)", r"(\g<0>).max(2)"),
    ("text.rs", r"code::justify_blocks\(&mut lines\);", """code::justify_blocks(&mut lines, width.filter(|w| *w >= 3).map(|w| {
            let (left, right) = skin.code_block.margins_in(Some(w));
            w - left - right
        }));"""),
    ("code.rs", r"(pub fn justify_blocks\(lines: &mut \[FmtLine<'_>\])(\) \{)", r"\1, room: Option<usize>\2"),
    ("code.rs", r"let blocks = find_blocks\(lines\);\n    for b in blocks \{", """let blocks = find_blocks(lines);
    for mut b in blocks {
        b.width = b.width.min(room.unwrap_or(usize::MAX));"""),
    ("fit/wrap.rs", r"width - first_width\)", "width.saturating_sub(first_width))"),
    ("fit/wrap.rs", r"(?m)^    for token in tokens\.drain\(\.\.\) \{\n", """    let mut full = false;
    for token in tokens.drain(..) {
        if full && token.blank {
            continue;
        }
"""),
    ("fit/wrap.rs", r"if dst_composite\.visible_length \+ token\.width > width \{\n", """if full || dst_composite.visible_length + token.width > width {
            full = token.blank;
"""),
]


def without_fn(path, text, name):
    """The text without a function, its attributes and its comments."""
    pattern = r"(?ms)^(?:    (?:#\[|///)[^\n]*\n)*    pub (?:const )?fn " + name + r"\b.*?^    \}\n"
    cut, count = re.subn(pattern, "", text, count=1)
    if count == 0:
        sys.exit(f"{path}: no function {name}")
    return cut


def changed(path, text):
    for name in DROPPED_FNS.get(path, ()):
        text = without_fn(path, text, name)
    for file, pattern, replacement in CHANGES:
        if file == path:
            text, count = re.subn(pattern, replacement, text)
            if count == 0:
                sys.exit(f"{path}: nothing matches {pattern}")
    return text


def main():
    if len(sys.argv) < 3:
        sys.exit(__doc__)
    source, out = Path(sys.argv[1]) / "src", Path(sys.argv[2]).resolve()
    tree = out / "tree"
    shutil.rmtree(tree, ignore_errors=True)
    shutil.copytree(HERE, tree, ignore=shutil.ignore_patterns("build.py", "target"))
    for path in sorted(source.rglob("*.rs")):
        name = path.relative_to(source).as_posix()
        if not name.startswith(DROPPED):
            target = tree / "src" / name
            target.parent.mkdir(parents=True, exist_ok=True)
            target.write_text(changed(name, path.read_text(encoding="utf8")), encoding="utf8")
    (tree / "src/views.rs").rename(tree / "src/views/mod.rs")
    subprocess.run(["cargo", "build", "--release", *sys.argv[3:]], cwd=tree, check=True)
    shutil.copy(tree / "target/release/termimad-rs", out / "termimad-rs-spec")
    print("built", out / "termimad-rs-spec")


main()
