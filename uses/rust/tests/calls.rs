//! What the calls answer, and how they refuse.

use termimad_proved::{
    code, find_section, fit, headings, links, markdown, markdown_as_read, printable, rows, rows_as_read,
    table, text, Align, LiveMarkdown, MarkdownStream, Page, Refused,
};

#[test]
fn marks_in_a_table_of_data_are_text() {
    let shown = table(&[vec!["name", "size"], vec!["*a|b*", "1"]], &[], 40, "").unwrap();
    assert!(shown.contains("*a|b*"));
    assert_eq!(shown.lines().count(), 5);
}

#[test]
fn short_rows_are_filled() {
    let short = table(&[vec!["a", "b"], vec!["1"]], &[], 40, "");
    assert_eq!(short, table(&[vec!["a", "b"], vec!["1", ""]], &[], 40, ""));
}

#[test]
fn nothing_reaches_the_terminal_that_it_obeys() {
    let shown = table(&[vec!["\u{1b}[2J", "a\nb"]], &[], 40, "").unwrap();
    assert!(!shown.contains('\u{1b}'));
    assert!(!markdown("&#27;[2J", 20, "").unwrap().contains('\u{1b}'));
    assert_eq!(printable("\u{1b}").unwrap(), "␛");
}

#[test]
fn calls_are_refused_by_name() {
    assert_eq!(text("a", 65536, ""), Err(Refused::Number));
    assert_eq!(text("a", 20, "nothing"), Err(Refused::Skin));
}

#[test]
fn pieces_make_the_whole() {
    let whole = "# head\n|a|b|\n|-|-|\n|1|2|\n\nlast *words*";
    let made: String = rows_as_read(whole.as_bytes(), 20, "")
        .map(Result::unwrap)
        .collect();
    assert_eq!(made, text(whole, 20, "").unwrap());
    assert_eq!(rows(whole, 20, ""), Ok(made.lines().count()));
}

#[test]
fn markdown_in_pieces_makes_the_whole() {
    let whole = "# head\n\n> - an item\n>   of a quote\n\n|a|b|\n|-|-|\n|1|2|\n\nlast *words* \u{65e5}";
    let wanted = markdown(whole, 20, "dark").unwrap();
    for size in [1, 3, 50] {
        let mut stream = MarkdownStream::new(20, "dark").unwrap();
        let mut made: String = whole
            .as_bytes()
            .chunks(size)
            .map(|piece| stream.take(piece).unwrap())
            .collect();
        made += &stream.finish().unwrap();
        assert_eq!(made, wanted);
    }
    let read: std::io::Result<String> = markdown_as_read(whole.as_bytes(), 20, "dark").collect();
    assert_eq!(read.unwrap(), wanted);
}

#[test]
fn markdown_in_pieces_is_refused() {
    assert_eq!(MarkdownStream::new(65536, "").err(), Some(Refused::Number));
    assert_eq!(MarkdownStream::new(20, "nothing").err(), Some(Refused::Skin));
    let mut stream = MarkdownStream::new(20, "none").unwrap();
    assert!(stream.take(b"a\xff").is_err());
    assert_eq!(stream.take(b"b\n\n").unwrap(), "b\n");
    let mut refused = markdown_as_read("a".as_bytes(), 20, "nothing");
    assert!(refused.next().is_some_and(|made| made.is_err()));
    assert!(refused.next().is_none());
}

#[test]
fn live_markdown_is_redrawn() {
    let mut live = LiveMarkdown::new(20, 24, "none").unwrap();
    assert_eq!(live.take(b"one tw").unwrap(), "\u{1b}[?7lone tw\u{1b}[?7h");
    assert_eq!(live.take(b"").unwrap(), "");
    assert_eq!(live.resize(9, 24).unwrap(), "\u{1b}[0m\n");
    let rest = live.take(b"o three\n\n").unwrap();
    assert_eq!(rest, "\u{1b}[?7lone two\nthree\n\u{1b}[?7h");
    assert_eq!(live.finish().unwrap(), "");
}

#[test]
fn live_markdown_is_refused() {
    assert_eq!(LiveMarkdown::new(20, 65536, "").err(), Some(Refused::Number));
    assert_eq!(LiveMarkdown::new(20, 24, "nothing").err(), Some(Refused::Skin));
    let mut live = LiveMarkdown::new(20, 24, "none").unwrap();
    assert!(live.take(b"a\xff").is_err());
    assert_eq!(live.resize(65536, 24), Err(Refused::Number));
    assert_eq!(live.take(b"b\n\n").unwrap(), "\u{1b}[?7lb\n\u{1b}[?7h");
}

#[test]
fn a_line_is_cut_where_it_is_asked() {
    assert_eq!(fit("a long line", 6, Align::Left, "").unwrap(), "a lon…");
}

#[test]
fn a_page_is_displayed() {
    let page = Page {
        text: "# head\n\n- *one*",
        width: 20,
        skin: "none",
    };
    assert_eq!(Ok(page.to_string()), markdown(page.text, 20, "none"));
}

#[test]
fn code_is_one_block() {
    let shown = code("```\n# no heading", "markdown", 40, "none").unwrap();
    let rows: Vec<&str> = shown.lines().map(str::trim).collect();
    assert_eq!(rows, ["```", "# no heading"]);
    let one = code("a", "rust", 40, "none");
    assert_eq!(code("a", "rust\n```\n# head", 40, "none"), one);
}

#[test]
fn code_has_the_colors_of_its_language() {
    let colored = code("let a = 1;", "rust", 40, "dark");
    assert_ne!(code("let a = 1;", "nothing", 40, "dark"), colored);
    assert_eq!(code("let a = 1;", "main.rs", 40, "dark"), colored);
    let fenced = markdown("```rust\nlet a = 1;\n```", 40, "dark");
    assert_eq!(fenced, colored);
}

#[test]
fn links_and_headings_are_told() {
    let text = "# Disks\n\n## Disks\n\nsee [there](#disks-1) and ![this](a.png)";
    let names: Vec<String> = headings(text)
        .unwrap()
        .into_iter()
        .map(|heading| heading.name)
        .collect();
    assert_eq!(names, ["disks", "disks-1"]);
    let found = links(text).unwrap();
    assert_eq!(found.len(), 1);
    assert_eq!(found[0].address, "#disks-1");
    assert_eq!(headings("no heading").unwrap(), []);
}

#[test]
fn a_name_leads_to_a_section() {
    let text = "# Disks\n\nwords\n\n## Disks\n\n<p id='Here'>a</p>";
    let sections: Vec<usize> = headings(text)
        .unwrap()
        .into_iter()
        .map(|heading| heading.section)
        .collect();
    assert_eq!(find_section(text, "disks"), Ok(Some(sections[0])));
    assert_eq!(find_section(text, "Disks-1"), Ok(Some(sections[1])));
    assert!(find_section(text, "Here").unwrap() > Some(sections[1]));
    for name in ["", "here", "#disks", "disks-2"] {
        assert_eq!(find_section(text, name), Ok(None));
    }
}
