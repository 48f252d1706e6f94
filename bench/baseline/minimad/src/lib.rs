//! A stand-in for the markdown reader that the Rust crate uses, for the speed comparison alone.
//!
//! Written from docs/GRAMMAR.md, and not from the crate of the same name. It does the whole work of reading, and borrows each
//! compound from the source. It scans bytes, since all marks are ASCII. So it is at least as fast as a reader that walks characters.

/// The deepest header level that is read.
pub const MAX_HEADER_DEPTH: usize = 8;

/// termimad takes its lazy cells from here.
pub mod once_cell {
    pub mod sync {
        pub use std::sync::LazyLock as Lazy;
    }
}

#[derive(Debug, Clone, Copy, PartialEq, Eq, Default)]
pub enum Alignment {
    #[default]
    Unspecified,
    Left,
    Center,
    Right,
}

/// A run of text with its four flags.
#[derive(Debug, Clone, PartialEq, Eq, Hash)]
pub struct Compound<'s> {
    pub src: &'s str,
    pub bold: bool,
    pub italic: bool,
    pub code: bool,
    pub strikeout: bool,
}

impl<'s> Compound<'s> {
    #[inline]
    pub const fn raw_str(src: &'s str) -> Self {
        Self {
            src,
            bold: false,
            italic: false,
            code: false,
            strikeout: false,
        }
    }
    #[inline]
    pub fn set_str(&mut self, src: &'s str) {
        self.src = src;
    }
    #[inline]
    pub const fn as_str(&self) -> &'s str {
        self.src
    }
    /// The part between two byte positions, with the same flags.
    #[inline]
    pub fn sub(&self, start: usize, end: usize) -> Self {
        Self {
            src: &self.src[start..end],
            ..*self
        }
    }
    /// The part from a byte position on, with the same flags.
    #[inline]
    pub fn tail(&self, start: usize) -> Self {
        Self {
            src: &self.src[start..],
            ..*self
        }
    }
}

#[derive(Debug, Clone, Copy, PartialEq, Eq)]
pub enum CompositeStyle {
    Paragraph,
    Header(u8),
    ListItem(u8),
    OrderedListItem { level: u8, index: u32 },
    Code,
    Quote,
}

#[derive(Debug, Clone, PartialEq, Eq)]
pub struct Composite<'s> {
    pub style: CompositeStyle,
    pub compounds: Vec<Compound<'s>>,
}

impl<'s> Composite<'s> {
    pub fn from_inline(src: &'s str) -> Self {
        Self {
            style: CompositeStyle::Paragraph,
            compounds: parse_inline(src),
        }
    }
    pub fn raw_str(src: &'s str) -> Self {
        Self {
            style: CompositeStyle::Paragraph,
            compounds: if src.is_empty() {
                Vec::new()
            } else {
                vec![Compound::raw_str(src)]
            },
        }
    }
    /// Drops the whitespace without code at both ends of the compounds.
    fn trim(&mut self) {
        while let Some(c) = self.compounds.first_mut() {
            if c.code {
                break;
            }
            c.src = c.src.trim_start();
            if !c.src.is_empty() {
                break;
            }
            self.compounds.remove(0);
        }
        while let Some(c) = self.compounds.last_mut() {
            if c.code {
                break;
            }
            c.src = c.src.trim_end();
            if !c.src.is_empty() {
                break;
            }
            self.compounds.pop();
        }
    }
}

#[derive(Debug, Clone, PartialEq, Eq)]
pub struct TableRow<'s> {
    pub cells: Vec<Composite<'s>>,
}

#[derive(Debug, Clone, PartialEq, Eq)]
pub struct TableRule {
    pub cells: Vec<Alignment>,
}

#[derive(Debug, Clone, PartialEq, Eq)]
pub enum Line<'s> {
    Normal(Composite<'s>),
    TableRow(TableRow<'s>),
    TableRule(TableRule),
    HorizontalRule,
    CodeFence(Composite<'s>),
}

#[derive(Debug, Clone, Copy, Default)]
pub struct Options;

#[derive(Debug, Clone, PartialEq, Eq, Default)]
pub struct Text<'s> {
    pub lines: Vec<Line<'s>>,
}

impl<'s> Text<'s> {
    /// One paragraph per line, nothing interpreted.
    pub fn raw_str(src: &'s str) -> Self {
        Self {
            lines: src
                .lines()
                .map(|l| Line::Normal(Composite::raw_str(l)))
                .collect(),
        }
    }
}

pub fn parse_text(src: &str, _options: Options) -> Text<'_> {
    let mut lines = Vec::new();
    let mut in_code = false;
    for line in src.lines() {
        if line.starts_with("```") {
            in_code = !in_code;
        } else if in_code {
            lines.push(code_line(line));
        } else {
            lines.push(parse_line(line));
        }
    }
    Text { lines }
}

fn code_line(src: &str) -> Line<'_> {
    Line::Normal(Composite {
        style: CompositeStyle::Code,
        compounds: Composite::raw_str(src).compounds,
    })
}

fn styled(style: CompositeStyle, rest: &str) -> Line<'_> {
    Line::Normal(Composite {
        style,
        compounds: parse_inline(rest),
    })
}

fn parse_line(line: &str) -> Line<'_> {
    let bytes = line.as_bytes();
    match bytes.first() {
        Some(b'|') => return parse_table_part(&line[1..]),
        Some(b'\t') => return code_line(&line[1..]),
        Some(b'>') => {
            if let Some(rest) = line.strip_prefix("> ") {
                return styled(CompositeStyle::Quote, rest);
            }
        }
        Some(b'#') => {
            let level = bytes.iter().take_while(|b| **b == b'#').count();
            if level <= MAX_HEADER_DEPTH && bytes.get(level) == Some(&b' ') {
                return styled(CompositeStyle::Header(level as u8), &line[level + 1..]);
            }
        }
        Some(b'-') => {
            if bytes.len() >= 3 && bytes.iter().all(|b| *b == b'-') {
                return Line::HorizontalRule;
            }
        }
        Some(b' ' | b'*' | b'0'..=b'9') => {
            let spaces = bytes.iter().take_while(|b| **b == b' ').count();
            if spaces >= 4 {
                return code_line(&line[4..]);
            }
            let rest = &line[spaces..];
            if let Some(rest) = rest.strip_prefix("* ") {
                return styled(CompositeStyle::ListItem(spaces as u8), rest);
            }
            let digits = rest.bytes().take_while(u8::is_ascii_digit).count();
            if (1..=9).contains(&digits) {
                if let Some(item) = rest[digits..].strip_prefix(". ") {
                    let index = rest[..digits].parse().unwrap_or(0);
                    let level = spaces as u8;
                    return styled(CompositeStyle::OrderedListItem { level, index }, item);
                }
            }
        }
        _ => {}
    }
    styled(CompositeStyle::Paragraph, line)
}

/// Reads the inline marks of a text.
pub fn parse_inline(src: &str) -> Vec<Compound<'_>> {
    let bytes = src.as_bytes();
    let mut compounds = Vec::new();
    let mut flags = Compound::raw_str("");
    let mut start = 0;
    let mut idx = 0;
    while idx < bytes.len() {
        let len = match bytes[idx] {
            b'`' => 1,
            b'*' if !flags.code => {
                if bytes.get(idx + 1) == Some(&b'*') {
                    2
                } else if idx + 1 == bytes.len() && !flags.italic {
                    0
                } else {
                    1
                }
            }
            b'~' if !flags.code && bytes.get(idx + 1) == Some(&b'~') => 2,
            _ => 0,
        };
        if len == 0 {
            idx += 1;
            continue;
        }
        if start < idx {
            compounds.push(Compound {
                src: &src[start..idx],
                ..flags
            });
        }
        match (bytes[idx], len) {
            (b'`', _) => flags.code ^= true,
            (b'*', 2) => flags.bold ^= true,
            (b'*', _) => flags.italic ^= true,
            _ => flags.strikeout ^= true,
        }
        idx += len;
        start = idx;
    }
    if start < bytes.len() {
        compounds.push(Compound {
            src: &src[start..],
            ..flags
        });
    }
    compounds
}

fn parse_table_part(src: &str) -> Line<'_> {
    let mut cells = Vec::new();
    let bytes = src.as_bytes();
    let mut start = 0;
    let mut in_code = false;
    for (idx, byte) in bytes.iter().enumerate() {
        match byte {
            b'`' => in_code ^= true,
            b'|' if !in_code => {
                cells.push(&src[start..idx]);
                start = idx + 1;
            }
            _ => {}
        }
    }
    cells.push(&src[start..]);
    let mut row: Vec<Composite<'_>> = cells.iter().map(|cell| parse_cell(cell)).collect();
    if row.last().is_some_and(|c| c.compounds.is_empty()) {
        row.pop();
        cells.pop();
    }
    if !cells.is_empty() {
        let aligns: Option<Vec<Alignment>> = cells.iter().map(|cell| rule_align(cell)).collect();
        if let Some(cells) = aligns {
            return Line::TableRule(TableRule { cells });
        }
    }
    Line::TableRow(TableRow { cells: row })
}

fn parse_cell(cell: &str) -> Composite<'_> {
    let cell = cell.trim_start();
    let (style, rest) = if let Some(rest) = cell.strip_prefix("* ") {
        (CompositeStyle::ListItem(0), rest)
    } else if let Some(rest) = cell.strip_prefix("> ") {
        (CompositeStyle::Quote, rest)
    } else {
        (CompositeStyle::Paragraph, cell)
    };
    let mut composite = Composite {
        style,
        compounds: parse_inline(rest),
    };
    composite.trim();
    composite
}

fn rule_align(cell: &str) -> Option<Alignment> {
    let cell = cell.trim();
    let (cell, left) = match cell.strip_prefix(':') {
        Some(rest) => (rest, true),
        None => (cell, false),
    };
    let (cell, right) = match cell.strip_suffix(':') {
        Some(rest) => (rest, true),
        None => (cell, false),
    };
    if cell.is_empty() || cell.bytes().any(|b| b != b'-') {
        return None;
    }
    Some(match (left, right) {
        (false, false) => Alignment::Unspecified,
        (true, false) => Alignment::Left,
        (false, true) => Alignment::Right,
        (true, true) => Alignment::Center,
    })
}

#[cfg(test)]
mod tests {
    use super::*;

    fn srcs<'s>(c: &Composite<'s>) -> Vec<&'s str> {
        c.compounds.iter().map(|c| c.src).collect()
    }

    #[test]
    fn lines_by_kind() {
        let kinds = |md| match parse_line(md) {
            Line::Normal(c) => c.style,
            other => panic!("not a normal line: {other:?}"),
        };
        assert_eq!(kinds("## a"), CompositeStyle::Header(2));
        assert_eq!(kinds("######### a"), CompositeStyle::Paragraph);
        assert_eq!(kinds("  * a"), CompositeStyle::ListItem(2));
        assert_eq!(
            kinds(" 12. a"),
            CompositeStyle::OrderedListItem { level: 1, index: 12 }
        );
        assert_eq!(kinds("    a"), CompositeStyle::Code);
        assert_eq!(kinds("> a"), CompositeStyle::Quote);
        assert_eq!(parse_line("----"), Line::HorizontalRule);
    }

    #[test]
    fn inline_marks() {
        let c = Composite::from_inline("a **b *c*** `d*e` ~~f~~ 2 *");
        assert_eq!(srcs(&c), ["a ", "b ", "c", " ", "d*e", " ", "f", " 2 *"]);
        assert!(c.compounds[2].bold && c.compounds[2].italic);
        assert!(c.compounds[4].code && !c.compounds[4].bold);
    }

    #[test]
    fn table_parts() {
        match parse_line("| a | `b|c` |  |") {
            Line::TableRow(row) => {
                let cells: Vec<_> = row.cells.iter().map(srcs).collect();
                assert_eq!(cells, [vec!["a"], vec!["b|c"], vec![]]);
            }
            other => panic!("{other:?}"),
        }
        assert_eq!(
            parse_line("|:-|-:|:-:|--|"),
            Line::TableRule(TableRule {
                cells: vec![
                    Alignment::Left,
                    Alignment::Right,
                    Alignment::Center,
                    Alignment::Unspecified
                ]
            })
        );
    }
}
