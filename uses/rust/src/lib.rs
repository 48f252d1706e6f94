//! Markdown for terminals: a safe wrapper over `libtermimad.a`.
//!
//! A skin is `""` for no style, `default`, `dark` or `light`, or JSON text as `{"bold":"red"}`, which changes the default skin. For [`markdown`] and
//! [`code`] it is that of a page: `none`, `sixteen` and the key `page` too.

use std::ffi::c_void;
use std::{fmt, io, ptr};

#[repr(C)]
#[derive(Clone, Copy)]
struct Answer {
    count: usize,
    status: u32,
}

#[repr(C)]
#[derive(Clone, Copy)]
struct Progress {
    count: usize,
    used: usize,
    fenced: u32,
    status: u32,
}

#[repr(C)]
#[derive(Clone, Copy)]
struct Place {
    section: usize,
    found: u32,
    status: u32,
}

// A text in pieces or a live one, which the library keeps.
#[repr(C)]
struct Kept {
    text: *mut c_void,
}

const DONE: u32 = 0;
const SHORT: u32 = 1;

extern "C" {
    fn termimad_area(
        text: *const u8,
        text_length: usize,
        skin: *const u8,
        skin_length: usize,
        left: usize,
        top: usize,
        width: usize,
        height: usize,
        buffer: *mut u8,
        capacity: usize,
    ) -> Answer;
    fn termimad_text(
        text: *const u8,
        text_length: usize,
        skin: *const u8,
        skin_length: usize,
        width: usize,
        buffer: *mut u8,
        capacity: usize,
    ) -> Answer;
    fn termimad_markdown(
        text: *const u8,
        text_length: usize,
        skin: *const u8,
        skin_length: usize,
        width: usize,
        buffer: *mut u8,
        capacity: usize,
    ) -> Answer;
    fn termimad_code(
        text: *const u8,
        text_length: usize,
        language: *const u8,
        language_length: usize,
        skin: *const u8,
        skin_length: usize,
        width: usize,
        buffer: *mut u8,
        capacity: usize,
    ) -> Answer;
    fn termimad_links(
        text: *const u8,
        text_length: usize,
        buffer: *mut u8,
        capacity: usize,
    ) -> Answer;
    fn termimad_headings(
        text: *const u8,
        text_length: usize,
        buffer: *mut u8,
        capacity: usize,
    ) -> Answer;
    fn termimad_find_section(
        text: *const u8,
        text_length: usize,
        name: *const u8,
        name_length: usize,
    ) -> Place;
    fn termimad_parts(
        text: *const u8,
        text_length: usize,
        skin: *const u8,
        skin_length: usize,
        width: usize,
        fenced: usize,
        last: usize,
        buffer: *mut u8,
        capacity: usize,
    ) -> Progress;
    fn termimad_stream_begin(
        stream: *mut Kept,
        skin: *const u8,
        skin_length: usize,
        width: usize,
    ) -> Answer;
    fn termimad_stream_take(
        stream: *mut Kept,
        text: *const u8,
        text_length: usize,
        last: usize,
        buffer: *mut u8,
        capacity: usize,
    ) -> Answer;
    fn termimad_stream_end(stream: *mut Kept);
    fn termimad_live_begin(
        live: *mut Kept,
        skin: *const u8,
        skin_length: usize,
        width: usize,
        height: usize,
    ) -> Answer;
    fn termimad_live_take(
        live: *mut Kept,
        text: *const u8,
        text_length: usize,
        last: usize,
        buffer: *mut u8,
        capacity: usize,
    ) -> Answer;
    fn termimad_live_resize(
        live: *mut Kept,
        width: usize,
        height: usize,
        buffer: *mut u8,
        capacity: usize,
    ) -> Answer;
    fn termimad_live_end(live: *mut Kept);
    fn termimad_inline(
        text: *const u8,
        text_length: usize,
        skin: *const u8,
        skin_length: usize,
        buffer: *mut u8,
        capacity: usize,
    ) -> Answer;
    fn termimad_rows(
        text: *const u8,
        text_length: usize,
        skin: *const u8,
        skin_length: usize,
        width: usize,
    ) -> Answer;
    fn termimad_fit(
        text: *const u8,
        text_length: usize,
        skin: *const u8,
        skin_length: usize,
        width: usize,
        align: usize,
        buffer: *mut u8,
        capacity: usize,
    ) -> Answer;
    fn termimad_printable(
        text: *const u8,
        text_length: usize,
        buffer: *mut u8,
        capacity: usize,
    ) -> Answer;
    fn termimad_table(
        text: *const u8,
        text_length: usize,
        lengths: *const usize,
        count: usize,
        aligns: *const usize,
        align_count: usize,
        skin: *const u8,
        skin_length: usize,
        columns: usize,
        width: usize,
        buffer: *mut u8,
        capacity: usize,
    ) -> Answer;
}

/// Why a call was refused.
#[derive(Clone, Copy, PartialEq, Eq, Debug)]
pub enum Refused {
    /// A width or an area is none that the call takes.
    Number,
    /// The skin is no JSON text, or says no skin.
    Skin,
    /// Out of memory.
    Memory,
}

impl fmt::Display for Refused {
    fn fmt(&self, f: &mut fmt::Formatter<'_>) -> fmt::Result {
        f.write_str(match self {
            Refused::Number => "a number is none that the call takes",
            Refused::Skin => "the skin is no name of one, and no JSON text that says one",
            Refused::Memory => "out of memory",
        })
    }
}

impl std::error::Error for Refused {}

/// On which side a text is: in a column of [`table`], or where it is cut by [`fit`].
#[derive(Clone, Copy, PartialEq, Eq, Debug)]
pub enum Align {
    /// In no place of its own; [`fit`] cuts in the widest words.
    Inside = 0,
    /// [`fit`] cuts the end of the line.
    Left = 1,
    /// [`fit`] cuts both ends.
    Center = 2,
    /// [`fit`] cuts the front of the line.
    Right = 3,
}

/// An area of the screen; its left and top are counted from 0.
#[derive(Clone, Copy, Debug)]
pub struct Area {
    /// Its first column.
    pub left: u16,
    /// Its first row.
    pub top: u16,
    /// Its columns, at least four.
    pub width: u16,
    /// Its rows.
    pub height: u16,
}

/// A Markdown text in an area of the screen, with the commands that move the cursor there.
pub fn area(text: &str, area: Area, skin: &str) -> Result<String, Refused> {
    let (left, top) = (area.left.into(), area.top.into());
    let (width, height) = (area.width.into(), area.height.into());
    filled(|buffer| unsafe {
        termimad_area(
            text.as_ptr(),
            text.len(),
            skin.as_ptr(),
            skin.len(),
            left,
            top,
            width,
            height,
            buffer.as_mut_ptr(),
            buffer.len(),
        )
    })
}

/// A Markdown text, laid out at a width, in columns.
pub fn text(text: &str, width: usize, skin: &str) -> Result<String, Refused> {
    filled(|buffer| unsafe {
        termimad_text(
            text.as_ptr(),
            text.len(),
            skin.as_ptr(),
            skin.len(),
            width,
            buffer.as_mut_ptr(),
            buffer.len(),
        )
    })
}

/// A text of Markdown as people write it, laid out at a width, in columns.
///
/// ```
/// let rows = termimad_proved::markdown("Two lines\nof a [paragraph](x)", 20, "none");
/// assert_eq!(rows.as_deref(), Ok("Two lines of a\n[paragraph]\n"));
/// ```
pub fn markdown(text: &str, width: usize, skin: &str) -> Result<String, Refused> {
    filled(|buffer| unsafe {
        termimad_markdown(
            text.as_ptr(),
            text.len(),
            skin.as_ptr(),
            skin.len(),
            width,
            buffer.as_mut_ptr(),
            buffer.len(),
        )
    })
}

/// A page of Markdown as people write it, which `{}` and `to_string` lay out. Where it is refused, that is [`fmt::Error`]; [`markdown`] says why.
///
/// ```
/// # use termimad_proved::Page;
/// let page = Page { text: "> a quote\n\n- *one*", width: 80, skin: "none" };
/// assert_eq!(page.to_string(), "▌ a quote\n\n• _one_\n");
/// ```
#[derive(Clone, Copy, Debug)]
pub struct Page<'t> {
    /// The text.
    pub text: &'t str,
    /// Its columns, 65535 at most.
    pub width: usize,
    /// The skin of a page.
    pub skin: &'t str,
}

impl fmt::Display for Page<'_> {
    fn fmt(&self, f: &mut fmt::Formatter<'_>) -> fmt::Result {
        let rows = markdown(self.text, self.width, self.skin).map_err(|_| fmt::Error)?;
        f.write_str(&rows)
    }
}

/// A text of code, laid out at a width, in columns: what a fence around it shows. `language` is the word of a language, such as `rust`, or the name of a
/// file, such as `main.rs`.
///
/// ```
/// let rows = termimad_proved::code("let a = 1;", "rust", 40, "none");
/// assert_eq!(rows.as_deref(), Ok("  let a = 1;\n"));
/// ```
pub fn code(text: &str, language: &str, width: usize, skin: &str) -> Result<String, Refused> {
    filled(|buffer| unsafe {
        termimad_code(
            text.as_ptr(),
            text.len(),
            language.as_ptr(),
            language.len(),
            skin.as_ptr(),
            skin.len(),
            width,
            buffer.as_mut_ptr(),
            buffer.len(),
        )
    })
}

/// The rows of a text that a reader gives, as soon as they are complete: in all, what [`text`] makes of the whole.
///
/// Each item is the rows of one or more parts. After an error there is no other item.
pub fn rows_as_read<R: io::Read>(reader: R, width: usize, skin: &str) -> RowsAsRead<R> {
    RowsAsRead {
        reader: Some(reader),
        width,
        skin: skin.to_owned(),
        left: Vec::new(),
        fenced: 0,
    }
}

/// The iterator of [`rows_as_read`].
pub struct RowsAsRead<R> {
    // None, once it is at its end, or failed.
    reader: Option<R>,
    width: usize,
    skin: String,
    left: Vec<u8>,
    fenced: u32,
}

impl<R: io::Read> Iterator for RowsAsRead<R> {
    type Item = io::Result<String>;

    fn next(&mut self) -> Option<Self::Item> {
        while self.reader.is_some() {
            match self.read_rows() {
                Ok(rows) if rows.is_empty() => {}
                Ok(rows) => return Some(Ok(rows)),
                Err(error) => {
                    self.reader = None;
                    return Some(Err(error));
                }
            }
        }
        None
    }
}

impl<R: io::Read> RowsAsRead<R> {
    // The rows of the parts that the next block completes.
    fn read_rows(&mut self) -> io::Result<String> {
        let Some(reader) = &mut self.reader else {
            return Ok(String::new());
        };
        let is_last = read_block(reader, &mut self.left)? == 0;
        if is_last {
            self.reader = None;
        }
        self.complete(is_last)
    }

    // The rows of the complete parts of what is left, which goes; those of all of it at the text's end.
    fn complete(&mut self, is_last: bool) -> io::Result<String> {
        let mut buffer = vec![0; 4096];
        loop {
            let now = unsafe {
                termimad_parts(
                    self.left.as_ptr(),
                    self.left.len(),
                    self.skin.as_ptr(),
                    self.skin.len(),
                    self.width,
                    self.fenced as usize,
                    is_last.into(),
                    buffer.as_mut_ptr(),
                    buffer.len(),
                )
            };
            match now.status {
                DONE => {
                    self.left.drain(..now.used);
                    self.fenced = now.fenced;
                    buffer.truncate(now.count);
                    return Ok(String::from_utf8(buffer).expect("rows are UTF-8"));
                }
                SHORT => buffer.resize(now.count, 0),
                3 => return Err(io::ErrorKind::InvalidData.into()),
                status => return Err(io::Error::other(refusal(status))),
            }
        }
    }
}

// Reads what there is, a block of 4 KiB at most, behind what is left. 0 at the end.
fn read_block(reader: &mut impl io::Read, left: &mut Vec<u8>) -> io::Result<usize> {
    let mut block = [0; 4096];
    loop {
        match reader.read(&mut block) {
            Err(error) if error.kind() == io::ErrorKind::Interrupted => {}
            read => {
                let count = read?;
                left.extend_from_slice(&block[..count]);
                return Ok(count);
            }
        }
    }
}

/// Markdown as people write it that comes in pieces: the rows of each leaf, as a paragraph or a table, as soon as it ends.
///
/// A link is told by a definition that came before it or with it. For the rest the rows are those of [`markdown`].
///
/// ```
/// let mut stream = termimad_proved::MarkdownStream::new(20, "none").unwrap();
/// assert_eq!(stream.take(b"> a qu").unwrap(), "");
/// assert_eq!(stream.take(b"ote\n\n- an item").unwrap(), "\u{258c} a quote\n");
/// assert_eq!(stream.finish().unwrap(), "\n\u{2022} an item\n");
/// ```
pub struct MarkdownStream {
    kept: Kept,
}

impl MarkdownStream {
    /// A text of which nothing has come, to be laid out at a width, in columns.
    pub fn new(width: usize, skin: &str) -> Result<MarkdownStream, Refused> {
        let mut kept = Kept {
            text: ptr::null_mut(),
        };
        let answer =
            unsafe { termimad_stream_begin(&mut kept, skin.as_ptr(), skin.len(), width) };
        match answer.status {
            DONE => Ok(MarkdownStream { kept }),
            status => Err(refusal(status)),
        }
    }

    /// Takes the next piece, cut anywhere, also inside a character, and answers the rows that are complete with it.
    ///
    /// Bytes that aren't UTF-8 are an error of the kind `InvalidData`. Then nothing of the piece was taken.
    pub fn take(&mut self, piece: &[u8]) -> io::Result<String> {
        self.taken(piece, false)
    }

    /// The text is at its end: the rows that are left.
    pub fn finish(mut self) -> io::Result<String> {
        self.taken(b"", true)
    }

    fn taken(&mut self, piece: &[u8], is_last: bool) -> io::Result<String> {
        drained(piece, |piece, buffer| unsafe {
            termimad_stream_take(
                &mut self.kept,
                piece.as_ptr(),
                piece.len(),
                is_last.into(),
                buffer.as_mut_ptr(),
                buffer.len(),
            )
        })
    }
}

// All that waits after a piece, by further calls with an empty one where the buffer is too small.
fn drained(
    piece: &[u8],
    mut call: impl FnMut(&[u8], &mut [u8]) -> Answer,
) -> io::Result<String> {
    let (mut piece, mut found, mut buffer) = (piece, Vec::new(), vec![0; 4096]);
    loop {
        let answer = call(piece, &mut buffer);
        match answer.status {
            DONE => {
                found.extend_from_slice(&buffer[..answer.count]);
                return Ok(String::from_utf8(found).expect("rows are UTF-8"));
            }
            SHORT => {
                found.extend_from_slice(&buffer);
                buffer.resize(answer.count - buffer.len(), 0);
                piece = b"";
            }
            3 => return Err(io::ErrorKind::InvalidData.into()),
            status => return Err(io::Error::other(refusal(status))),
        }
    }
}

impl Drop for MarkdownStream {
    fn drop(&mut self) {
        unsafe { termimad_stream_end(&mut self.kept) }
    }
}

/// Markdown as people write it that comes in pieces and grows on a terminal that scrolls: what has come so far is shown, and what still changes is
/// redrawn in place.
///
/// All that is answered is written on the terminal, in its order, and until the end nothing else is. In the beginning the cursor stands in a blank row,
/// below which all is blank. At the end the terminal has the rows of [`MarkdownStream`].
///
/// ```
/// let mut live = termimad_proved::LiveMarkdown::new(79, 24, "none").unwrap();
/// print!("{}", live.take(b"one *tw").unwrap());
/// print!("{}", live.take(b"o*\n\nthree").unwrap());
/// print!("{}", live.finish().unwrap());
/// ```
pub struct LiveMarkdown {
    kept: Kept,
}

impl LiveMarkdown {
    /// A text of which nothing has come, to be laid out at a width, in columns, on a screen of so many rows. The width is at most the terminal's
    /// columns less one.
    pub fn new(width: usize, height: usize, skin: &str) -> Result<LiveMarkdown, Refused> {
        let mut kept = Kept {
            text: ptr::null_mut(),
        };
        let answer =
            unsafe { termimad_live_begin(&mut kept, skin.as_ptr(), skin.len(), width, height) };
        match answer.status {
            DONE => Ok(LiveMarkdown { kept }),
            status => Err(refusal(status)),
        }
    }

    /// Takes the next piece, cut anywhere, also inside a character, and answers what shows the text as far as it has come.
    ///
    /// Bytes that aren't UTF-8 are an error of the kind `InvalidData`. Then nothing of the piece was taken.
    pub fn take(&mut self, piece: &[u8]) -> io::Result<String> {
        self.taken(piece, false)
    }

    /// Goes on below whatever stands on the terminal, where its size has changed. The next piece, also an empty one, shows there what grows.
    pub fn resize(&mut self, width: usize, height: usize) -> Result<String, Refused> {
        filled(|buffer| unsafe {
            termimad_live_resize(
                &mut self.kept,
                width,
                height,
                buffer.as_mut_ptr(),
                buffer.len(),
            )
        })
    }

    /// The text is at its end: what shows all of it.
    pub fn finish(mut self) -> io::Result<String> {
        self.taken(b"", true)
    }

    fn taken(&mut self, piece: &[u8], is_last: bool) -> io::Result<String> {
        drained(piece, |piece, buffer| unsafe {
            termimad_live_take(
                &mut self.kept,
                piece.as_ptr(),
                piece.len(),
                is_last.into(),
                buffer.as_mut_ptr(),
                buffer.len(),
            )
        })
    }
}

impl Drop for LiveMarkdown {
    fn drop(&mut self) {
        unsafe { termimad_live_end(&mut self.kept) }
    }
}

/// The rows of Markdown as people write it that a reader gives, as soon as they are complete, as [`MarkdownStream`] has them.
///
/// Each item is the rows of one or more leaves. After an error there is no other item.
///
/// ```
/// let text = "# Head\n\nwords";
/// let rows: Result<String, _> = termimad_proved::markdown_as_read(text.as_bytes(), 20, "none").collect();
/// assert_eq!(rows.unwrap(), termimad_proved::markdown(text, 20, "none").unwrap());
/// ```
pub fn markdown_as_read<R: io::Read>(reader: R, width: usize, skin: &str) -> MarkdownAsRead<R> {
    MarkdownAsRead {
        reader: Some(reader),
        stream: MarkdownStream::new(width, skin),
    }
}

/// The iterator of [`markdown_as_read`].
pub struct MarkdownAsRead<R> {
    // None, once it is at its end, or failed.
    reader: Option<R>,
    stream: Result<MarkdownStream, Refused>,
}

impl<R: io::Read> Iterator for MarkdownAsRead<R> {
    type Item = io::Result<String>;

    fn next(&mut self) -> Option<Self::Item> {
        while self.reader.is_some() {
            match self.read_rows() {
                Ok(rows) if rows.is_empty() => {}
                Ok(rows) => return Some(Ok(rows)),
                Err(error) => {
                    self.reader = None;
                    return Some(Err(error));
                }
            }
        }
        None
    }
}

impl<R: io::Read> MarkdownAsRead<R> {
    // The rows that the next block completes.
    fn read_rows(&mut self) -> io::Result<String> {
        let stream = self.stream.as_mut().map_err(|it| io::Error::other(*it))?;
        let mut block = Vec::new();
        if let Some(reader) = &mut self.reader {
            read_block(reader, &mut block)?;
        }
        if block.is_empty() {
            self.reader = None;
        }
        stream.taken(&block, block.is_empty())
    }
}

/// A line with its inline marks, and a newline.
pub fn inline(line: &str, skin: &str) -> Result<String, Refused> {
    filled(|buffer| unsafe {
        termimad_inline(
            line.as_ptr(),
            line.len(),
            skin.as_ptr(),
            skin.len(),
            buffer.as_mut_ptr(),
            buffer.len(),
        )
    })
}

/// How many rows a Markdown text takes at a width, in columns.
pub fn rows(text: &str, width: usize, skin: &str) -> Result<usize, Refused> {
    let answer =
        unsafe { termimad_rows(text.as_ptr(), text.len(), skin.as_ptr(), skin.len(), width) };
    match answer.status {
        DONE => Ok(answer.count),
        status => Err(refusal(status)),
    }
}

/// A line with its inline marks, in at most `width` columns: an ellipsis is where something is left out.
///
/// ```
/// # use termimad_proved::{fit, Align};
/// assert_eq!(fit("a **very** long line", 10, Align::Left, "").as_deref(), Ok("a very lo…"));
/// ```
pub fn fit(line: &str, width: usize, align: Align, skin: &str) -> Result<String, Refused> {
    filled(|buffer| unsafe {
        termimad_fit(
            line.as_ptr(),
            line.len(),
            skin.as_ptr(),
            skin.len(),
            width,
            align as usize,
            buffer.as_mut_ptr(),
            buffer.len(),
        )
    })
}

/// A table of these rows, the first of which has its headers, laid out at a width, in columns.
///
/// A cell is a text as it is: no mark is read in it, and it is made printable here; a newline is a space. Short rows are filled up.
///
/// ```
/// # use termimad_proved::{table, Align};
/// let rows = [vec!["disk", "used"], vec!["a|b", "7"]];
/// print!("{}", table(&rows, &[Align::Left, Align::Right], 40, "").unwrap());
/// ```
pub fn table<C: AsRef<str>>(
    rows: &[Vec<C>],
    aligns: &[Align],
    width: usize,
    skin: &str,
) -> Result<String, Refused> {
    let columns = rows.iter().map(Vec::len).max().unwrap_or(1).max(1);
    let (mut text, mut lengths) = (String::new(), Vec::new());
    for row in rows {
        for column in 0..columns {
            let cell = row.get(column).map_or("", AsRef::as_ref);
            let shown = printable(cell)?.replace('\n', " ");
            lengths.push(shown.len());
            text.push_str(&shown);
        }
    }
    let aligns: Vec<usize> = aligns.iter().map(|align| *align as usize).collect();
    filled(|buffer| unsafe {
        termimad_table(
            text.as_ptr(),
            text.len(),
            lengths.as_ptr(),
            lengths.len(),
            aligns.as_ptr(),
            aligns.len(),
            skin.as_ptr(),
            skin.len(),
            columns,
            width,
            buffer.as_mut_ptr(),
            buffer.len(),
        )
    })
}

/// The text without what a terminal obeys.
///
/// ```
/// assert_eq!(termimad_proved::printable("an escape \u{1b}[2J").as_deref(), Ok("an escape ␛[2J"));
/// ```
pub fn printable(text: &str) -> Result<String, Refused> {
    filled(|buffer| unsafe {
        termimad_printable(text.as_ptr(), text.len(), buffer.as_mut_ptr(), buffer.len())
    })
}

/// A link of a text.
#[derive(Clone, PartialEq, Eq, Debug)]
pub struct Link {
    /// Where it leads: without escapes and entities, and without a character that a terminal obeys.
    pub address: String,
    /// The number of its section, from 0 on.
    pub section: usize,
}

/// A heading of a text.
#[derive(Clone, PartialEq, Eq, Debug)]
pub struct Heading {
    /// Its level, 1 to 6.
    pub level: u8,
    /// What it shows, without marks.
    pub text: String,
    /// The name that GitHub gives it, to which `#name` goes.
    pub name: String,
    /// The number of its section, as that of a link.
    pub section: usize,
}

/// The links of a text of Markdown as people write it, in the order of the text. Images aren't among them.
///
/// ```
/// let links = termimad_proved::links("see [the disks](disks.md)").unwrap();
/// assert_eq!(links[0].address, "disks.md");
/// ```
pub fn links(text: &str) -> Result<Vec<Link>, Refused> {
    let lines = filled(|buffer| unsafe {
        termimad_links(text.as_ptr(), text.len(), buffer.as_mut_ptr(), buffer.len())
    })?;
    Ok(lines.lines().map(link_of).collect())
}

/// The headings of a text of Markdown as people write it, in order.
///
/// ```
/// let headings = termimad_proved::headings("# Disks\n\n## `df` says").unwrap();
/// assert_eq!(headings[1].name, "df-says");
/// ```
pub fn headings(text: &str) -> Result<Vec<Heading>, Refused> {
    let lines = filled(|buffer| unsafe {
        termimad_headings(text.as_ptr(), text.len(), buffer.as_mut_ptr(), buffer.len())
    })?;
    Ok(lines.lines().map(heading_of).collect())
}

/// The number of the section of a text of Markdown as people write it to which `#name` goes, if there is one: that of the first tag of html that
/// has the name, or else of the heading.
///
/// ```
/// let text = "# Disks\n\nSee [there](#disks).";
/// assert_eq!(termimad_proved::find_section(text, "disks"), Ok(Some(0)));
/// assert_eq!(termimad_proved::find_section(text, "what"), Ok(None));
/// ```
pub fn find_section(text: &str, name: &str) -> Result<Option<usize>, Refused> {
    let place =
        unsafe { termimad_find_section(text.as_ptr(), text.len(), name.as_ptr(), name.len()) };
    match place.status {
        DONE => Ok((place.found == 1).then_some(place.section)),
        status => Err(refusal(status)),
    }
}

impl Page<'_> {
    /// Its [`links`].
    pub fn links(&self) -> Result<Vec<Link>, Refused> {
        links(self.text)
    }

    /// Its [`headings`].
    pub fn headings(&self) -> Result<Vec<Heading>, Refused> {
        headings(self.text)
    }

    /// The number of the section to which `#name` goes, by [`find_section`].
    pub fn find_section(&self, name: &str) -> Result<Option<usize>, Refused> {
        find_section(self.text, name)
    }
}

// The parts of a line between its tabs, of which there are so many.
fn parts<const N: usize>(line: &str) -> [&str; N] {
    let parts: Vec<&str> = line.split('\t').collect();
    parts.try_into().expect("a line has its parts")
}

fn link_of(line: &str) -> Link {
    let [section, address] = parts(line);
    Link {
        address: address.to_owned(),
        section: section.parse().expect("a number"),
    }
}

fn heading_of(line: &str) -> Heading {
    let [level, section, name, text] = parts(line);
    Heading {
        level: level.parse().expect("a number"),
        text: text.to_owned(),
        name: name.to_owned(),
        section: section.parse().expect("a number"),
    }
}

// What the call makes, by a second call where the first buffer is too small.
fn filled(mut call: impl FnMut(&mut [u8]) -> Answer) -> Result<String, Refused> {
    let mut buffer = vec![0; 4096];
    loop {
        let answer = call(&mut buffer);
        match answer.status {
            DONE => {
                buffer.truncate(answer.count);
                return Ok(String::from_utf8(buffer).expect("a whole result is UTF-8"));
            }
            SHORT => buffer.resize(answer.count, 0),
            status => return Err(refusal(status)),
        }
    }
}

fn refusal(status: u32) -> Refused {
    match status {
        2 => Refused::Number,
        4 => Refused::Skin,
        _ => Refused::Memory,
    }
}
