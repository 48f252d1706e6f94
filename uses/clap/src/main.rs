//! A help page of Markdown beside clap: `count --help` shows it, and `-h` clap's own lines. Styles go to a terminal alone.

use std::env;
use std::io::{stdout, IsTerminal};

use clap::{value_parser, Arg, ArgAction, Command};
use termimad_proved::Page;

const HELP: &str = "\
**count** reads files and says how many *words* each has.

| option | what it does |
|:-|:-|
| `--lines` | counts lines, and not words |
| `--top N` | shows the **N** files that have most |

> Files that can't be read are named at the end.
";

/// The columns that the terminal said, or 60.
fn columns() -> usize {
    env::var("COLUMNS")
        .ok()
        .and_then(|it| it.parse().ok())
        .unwrap_or(60)
}

fn main() {
    let is_plain =
        !stdout().is_terminal() || env::var_os("NO_COLOR").is_some_and(|it| !it.is_empty());
    let page = Page {
        text: HELP,
        width: columns().min(65535),
        skin: if is_plain { "none" } else { "dark" },
    };
    let top = Arg::new("top")
        .long("top")
        .value_name("N")
        .value_parser(value_parser!(u32))
        .help("How many files are shown");
    let lines = Arg::new("lines")
        .long("lines")
        .action(ArgAction::SetTrue)
        .help("Counts lines");
    let command = Command::new("count")
        .about("Counts words")
        .before_long_help(page.to_string())
        .arg(lines)
        .arg(top);
    let given = command.get_matches();
    println!(
        "lines: {}, top: {:?}",
        given.get_flag("lines"),
        given.get_one::<u32>("top")
    );
}
