//! Writes the html of Markdown on standard input, by pulldown-cmark, with GFM's tables and strikeout.
use pulldown_cmark::{html, Options, Parser};
use std::io::{self, Read, Write};

fn main() -> io::Result<()> {
    let mut text = String::new();
    io::stdin().read_to_string(&mut text)?;
    let parser = Parser::new_ext(&text, Options::ENABLE_TABLES | Options::ENABLE_STRIKETHROUGH);
    let mut page = String::with_capacity(text.len() * 3 / 2);
    html::push_html(&mut page, parser);
    io::stdout().write_all(page.as_bytes())
}
