//! A page of Markdown in a paragraph of tui: its rows are spans with styles. What tui's buffer has then is written here, since there is no terminal.

use std::error::Error;

use termimad_proved::{markdown, Refused};
use tui::backend::TestBackend;
use tui::buffer::{Buffer, Cell};
use tui::layout::Rect;
use tui::style::{Color, Modifier, Style};
use tui::text::{Span, Spans};
use tui::widgets::{Block, Borders, Paragraph};
use tui::Terminal;

const PAGE: &str =
    "# Disks\n\n- *three* disks, and [a link](x)\n- **two** words\n\n|disk|used|\n|-|-:|\n|/|7|";

/// The rows of a page as tui's lines.
fn rows_of(text: &str, width: u16, skin: &str) -> Result<Vec<Spans<'static>>, Refused> {
    let shown = markdown(text, width.into(), skin)?;
    Ok(shown.lines().map(spans_of).collect())
}

/// The pieces of a row, each in the style of the codes in front of it. A row ends without a style.
fn spans_of(row: &str) -> Spans<'static> {
    let mut style = Style::default();
    let mut pieces = row.split("\u{1b}[");
    let mut spans = vec![Span::raw(pieces.next().unwrap_or("").to_owned())];
    for piece in pieces {
        let (codes, text) = piece.split_once('m').unwrap_or((piece, ""));
        style = styled(style, codes);
        spans.push(Span::styled(text.to_owned(), style));
    }
    Spans::from(spans)
}

/// The style after these codes.
fn styled(before: Style, codes: &str) -> Style {
    let numbers: Vec<u8> = codes
        .split(';')
        .map(|code| code.parse().unwrap_or(0))
        .collect();
    match numbers[..] {
        [38, 5, index] => before.fg(Color::Indexed(index)),
        [48, 5, index] => before.bg(Color::Indexed(index)),
        [38, 2, red, green, blue] => before.fg(Color::Rgb(red, green, blue)),
        [48, 2, red, green, blue] => before.bg(Color::Rgb(red, green, blue)),
        [39] => before.fg(Color::Reset),
        [49] => before.bg(Color::Reset),
        [1] => before.add_modifier(Modifier::BOLD),
        [2] => before.add_modifier(Modifier::DIM),
        [3] => before.add_modifier(Modifier::ITALIC),
        [4] => before.add_modifier(Modifier::UNDERLINED),
        [7] => before.add_modifier(Modifier::REVERSED),
        [9] => before.add_modifier(Modifier::CROSSED_OUT),
        _ => Style::default(),
    }
}

/// The texts of a buffer's row that have one style, each behind that style.
fn said(buffer: &Buffer, row: u16) -> String {
    let look = |cell: &Cell| (cell.fg, cell.bg, cell.modifier);
    let mut made = String::new();
    let mut last = look(&Cell::default());
    for column in 0..buffer.area.width {
        let cell = buffer.get(column, row);
        if look(cell) != last {
            last = look(cell);
            made += &format!("<{:?} {:?}>", last.0, last.2);
        }
        made += &cell.symbol;
    }
    made
}

fn main() -> Result<(), Box<dyn Error>> {
    let area = Rect::new(0, 0, 40, 13);
    let mut terminal = Terminal::new(TestBackend::new(area.width, area.height))?;
    let rows = rows_of(PAGE, area.width - 2, "dark")?;
    terminal.draw(|frame| {
        let block = Block::default().title("a page").borders(Borders::ALL);
        frame.render_widget(Paragraph::new(rows).block(block), area);
    })?;
    for row in 0..area.height {
        println!("{}", said(terminal.backend().buffer(), row));
    }
    Ok(())
}
