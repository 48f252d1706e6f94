//! The baseline program: the command line of `termimad-view` over the Rust crate, and a few extras for measuring.
//!
//! ```text
//! termimad-rs text W [SKIN]
//! termimad-rs area L T W H [SKIN]
//! termimad-rs inline [SKIN]
//! termimad-rs x-parse            parse only, writes the count of lines
//! termimad-rs x-layout W [SKIN]  parse and lay out, writes the count of lines
//! termimad-rs x-fit W ALIGN      each input line fitted (Fitter) to W; ALIGN l, c, r or u
//! ```
//!
//! SKIN is absent (`no_style`), `default`, `dark` or `light`. Output goes through a buffer of 64 KiB; with TERMIMAD_RS_PRINT set,
//! `text` uses `print!` instead, one write for each line.
use {
    std::{
        io::{BufWriter, Read, Write},
        process::exit,
    },
    termimad_rs::{minimad, Alignment, Area, FmtComposite, FmtInline, MadSkin},
};

const USAGE: &str =
    "usage: termimad-view area L T W H [SKIN] | text W [SKIN] | inline [SKIN]";

fn usage() -> ! {
    eprintln!("{USAGE}");
    exit(2)
}

fn number(s: &str) -> u16 {
    if s.is_empty() || !s.bytes().all(|b| b.is_ascii_digit()) {
        usage();
    }
    s.parse().unwrap_or_else(|_| usage())
}

fn skin(args: &[String], idx: usize) -> MadSkin {
    if args.len() > idx + 1 {
        usage();
    }
    match args.get(idx).map(|s| s.as_str()) {
        None => MadSkin::no_style(),
        Some("default") => MadSkin::default(),
        Some("dark") => MadSkin::default_dark(),
        Some("light") => MadSkin::default_light(),
        Some(_) => {
            eprintln!("termimad-view: skin");
            exit(4)
        }
    }
}

fn input() -> String {
    let mut bytes = Vec::new();
    if std::io::stdin().lock().read_to_end(&mut bytes).is_err() {
        eprintln!("termimad-view: io");
        exit(1);
    }
    String::from_utf8(bytes).unwrap_or_else(|_| {
        eprintln!("termimad-view: input is not UTF-8");
        exit(3)
    })
}

fn run(args: &[String]) -> Result<(), Box<dyn std::error::Error>> {
    let arg = |i: usize| number(args.get(i).map_or("", |s| s));
    let mut out = BufWriter::with_capacity(1 << 16, std::io::stdout().lock());
    match args.first().map(|s| s.as_str()) {
        Some("text") => {
            let width = arg(1) as usize;
            let skin = skin(args, 2);
            let src = input();
            let text = skin.text(&src, Some(width));
            if std::env::var_os("TERMIMAD_RS_PRINT").is_some() {
                drop(out);
                print!("{text}");
                return Ok(());
            }
            write!(out, "{text}")?;
        }
        Some("area") => {
            let (left, top, width, height) = (arg(1), arg(2), arg(3), arg(4));
            if width < 4 || left.checked_add(width).is_none() || top.checked_add(height).is_none() {
                usage();
            }
            let skin = skin(args, 5);
            let src = input();
            skin.write_in_area_on(&mut out, &src, &Area::new(left, top, width, height))?;
        }
        Some("inline") => {
            let skin = skin(args, 1);
            let src = input();
            let src = src.strip_suffix('\n').map_or(&*src, |s| s.strip_suffix('\r').unwrap_or(s));
            writeln!(out, "{}", skin.inline(src))?;
        }
        Some("x-parse") => {
            let src = input();
            let text = minimad::parse_text(&src, minimad::Options::default());
            writeln!(out, "{}", text.lines.len())?;
        }
        Some("x-layout") => {
            let width = arg(1) as usize;
            let skin = skin(args, 2);
            let src = input();
            writeln!(out, "{}", skin.text(&src, Some(width)).lines.len())?;
        }
        Some("x-fit") => {
            let width = arg(1) as usize;
            let align = match args.get(2).map(|s| s.as_str()) {
                Some("l") => Alignment::Left,
                Some("c") => Alignment::Center,
                Some("r") => Alignment::Right,
                Some("u") | None => Alignment::Unspecified,
                _ => usage(),
            };
            let skin = MadSkin::no_style();
            let src = input();
            for line in src.lines() {
                let composite = minimad::Composite::from_inline(line);
                let mut composite = FmtComposite::from(composite, &skin);
                composite.fit_width(width, align, &skin);
                writeln!(out, "{}", FmtInline { skin: &skin, composite })?;
            }
        }
        _ => usage(),
    }
    out.flush()?;
    Ok(())
}

fn main() {
    let args: Vec<String> = std::env::args().skip(1).collect();
    if run(&args).is_err() {
        eprintln!("termimad-view: io");
        exit(1);
    }
}
