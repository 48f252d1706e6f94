//! Answers calls that it reads, by the Rust crate: `answers <REQUESTS`. tools/same_rows/compare writes them, and says how they look.

use std::io::{self, BufRead, Read, Write};
use termimad_proved::{
    area, code, find_section, fit, headings, inline, links, markdown, markdown_as_read, printable, rows,
    rows_as_read, table, text, Align, Area, Heading, Link, LiveMarkdown, Page, Refused,
};

const NOT_UTF8: u32 = 3;

/// A call, its numbers and its texts.
struct Request {
    call: String,
    numbers: Vec<usize>,
    texts: Vec<Vec<u8>>,
}

/// A reader that gives a few bytes at a time.
struct Cut<'t>(&'t [u8], usize);

impl Read for Cut<'_> {
    fn read(&mut self, buffer: &mut [u8]) -> io::Result<usize> {
        let most = self.1.min(buffer.len());
        self.0.read(&mut buffer[..most])
    }
}

fn read_request(source: &mut impl BufRead) -> Option<Request> {
    let mut line = String::new();
    source.read_line(&mut line).expect("a line");
    let mut words = line.split_whitespace();
    let call = words.next()?.to_owned();
    let mut sizes = words.map(|word| word.parse().expect("a number"));
    let (number_count, text_count) = (sizes.next()?, sizes.next()?);
    let numbers = sizes.by_ref().take(number_count).collect();
    let lengths: Vec<usize> = sizes.take(text_count).collect();
    let texts = lengths.iter().map(|length| {
        let mut text = vec![0; *length];
        source.read_exact(&mut text).expect("a text");
        text
    });
    let texts = texts.collect();
    Some(Request {
        call,
        numbers,
        texts,
    })
}

fn status_of(refused: Refused) -> u32 {
    match refused {
        Refused::Number => 2,
        Refused::Skin => 4,
        Refused::Memory => 5,
    }
}

fn align_of(number: usize) -> Align {
    [Align::Inside, Align::Left, Align::Center, Align::Right][number]
}

/// The text in pieces; a text that isn't UTF-8 is an error of the reader there.
fn pieces(request: &Request, skin: &str) -> Result<String, u32> {
    let (source, width) = (Cut(&request.texts[0], request.numbers[1]), request.numbers[0]);
    let made: io::Result<String> = if request.call == "pieces" {
        rows_as_read(source, width, skin).collect()
    } else {
        markdown_as_read(source, width, skin).collect()
    };
    made.map_err(|error| status_of_error(&error))
}

fn status_of_error(error: &io::Error) -> u32 {
    let refused = error
        .get_ref()
        .and_then(|inner| inner.downcast_ref::<Refused>());
    refused.map_or(NOT_UTF8, |it| status_of(*it))
}

/// The text in pieces, as it grows on a terminal.
fn grown(request: &Request, skin: &str) -> Result<String, u32> {
    let [width, height, cut] = request.numbers[..] else {
        panic!("live takes three numbers")
    };
    let mut live = LiveMarkdown::new(width, height, skin).map_err(status_of)?;
    let mut made = String::new();
    for piece in request.texts[0].chunks(cut) {
        made += &live.take(piece).map_err(|error| status_of_error(&error))?;
    }
    made += &live.finish().map_err(|error| status_of_error(&error))?;
    Ok(made)
}

/// An area whose numbers fit its type, which knows no others.
fn in_area(words: &str, numbers: &[usize], skin: &str) -> Result<String, Refused> {
    let small: Option<Vec<u16>> = numbers.iter().map(|it| (*it).try_into().ok()).collect();
    match small.as_deref() {
        Some(&[left, top, width, height]) => area(
            words,
            Area {
                left,
                top,
                width,
                height,
            },
            skin,
        ),
        _ => Err(Refused::Number),
    }
}

/// Markdown by the call, which has to be what a page displays.
fn page(words: &str, width: usize, skin: &str) -> Result<String, Refused> {
    let made = markdown(words, width, skin)?;
    assert_eq!(
        Page {
            text: words,
            width,
            skin
        }
        .to_string(),
        made
    );
    Ok(made)
}

/// Links as the library writes them, each as a line.
fn lines_of_links(links: &[Link]) -> String {
    let lines = links
        .iter()
        .map(|it| format!("{}\t{}\n", it.section, it.address));
    lines.collect()
}

/// Headings as the library writes them, each as a line.
fn lines_of_headings(headings: &[Heading]) -> String {
    let lines = headings
        .iter()
        .map(|it| format!("{}\t{}\t{}\t{}\n", it.level, it.section, it.name, it.text));
    lines.collect()
}

fn made_by(request: &Request) -> Result<String, u32> {
    let texts: Result<Vec<&str>, _> = request
        .texts
        .iter()
        .map(|it| std::str::from_utf8(it))
        .collect();
    let numbers = &request.numbers;
    if request.call.ends_with("pieces") || request.call == "live" {
        let skin = std::str::from_utf8(&request.texts[1]).map_err(|_| NOT_UTF8)?;
        return match request.call.as_str() {
            "live" => grown(request, skin),
            _ => pieces(request, skin),
        };
    }
    // A `str` is UTF-8, so the type refuses all others.
    let texts = texts.map_err(|_| NOT_UTF8)?;
    let skin = texts.get(1).copied().unwrap_or("");
    let made = match request.call.as_str() {
        "area" => in_area(texts[0], numbers, skin),
        "text" => text(texts[0], numbers[0], skin),
        "markdown" => page(texts[0], numbers[0], skin),
        "code" => code(texts[0], texts[2], numbers[0], skin),
        "inline" => inline(texts[0], skin),
        "rows" => rows(texts[0], numbers[0], skin).map(|count| count.to_string()),
        "fit" => fit(texts[0], numbers[0], align_of(numbers[1]), skin),
        "printable" => printable(texts[0]),
        "links" => links(texts[0]).map(|found| lines_of_links(&found)),
        "headings" => headings(texts[0]).map(|found| lines_of_headings(&found)),
        "section" => find_section(texts[0], texts[1])
            .map(|found| found.map_or(String::new(), |it| it.to_string())),
        "table" => {
            let lines: Vec<Vec<&str>> = texts[1..]
                .chunks(numbers[1])
                .map(<[&str]>::to_vec)
                .collect();
            let aligns: Vec<Align> = numbers[2..].iter().map(|it| align_of(*it)).collect();
            table(&lines, &aligns, numbers[0], texts[0])
        }
        other => panic!("no call {other}"),
    };
    made.map_err(status_of)
}

fn main() {
    let (mut source, mut out) = (io::stdin().lock(), io::stdout().lock());
    while let Some(request) = read_request(&mut source) {
        let (status, made) = match made_by(&request) {
            Ok(made) => (0, made),
            Err(status) => (status, String::new()),
        };
        writeln!(out, "{status} {}", made.len()).expect("the output");
        out.write_all(made.as_bytes()).expect("the output");
    }
}
