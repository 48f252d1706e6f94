//! A note in the corner of the screen, its rows at a few widths, as it is read, a table, and a line that is fitted.

use std::error::Error;
use std::io::Read;

use termimad_proved::{
    area, fit, inline, printable, rows, rows_as_read, table, text, Align, Area,
};

const NOTE: &str = "# Done\n* **3** files were read\n* *none* was changed\n> see `report.txt`";

fn main() -> Result<(), Box<dyn Error>> {
    let corner = Area {
        left: 2,
        top: 1,
        width: 30,
        height: 5,
    };
    println!("{:?}", area(NOTE, corner, "")?);
    print!("{}", text(NOTE, 24, "")?);
    for width in [6, 12, 24] {
        println!("{width} columns: {} rows", rows(NOTE, width, "")?);
    }
    // A reader that gives the text in two pieces, cut in a row of the table.
    let pieces = "|file|size|\n|a.txt|1"
        .as_bytes()
        .chain("2|\n*total*: 12\n> that is all".as_bytes());
    for made in rows_as_read(pieces, 24, "") {
        println!("{}--", made?);
    }
    let rows = [vec!["file", "size"], vec!["a|b *.txt", "12"]];
    print!("{}", table(&rows, &[Align::Left, Align::Right], 24, "")?);
    print!("{}", inline("**done** in `3 s`", "")?);
    for align in [Align::Inside, Align::Left, Align::Center, Align::Right] {
        println!("{}", fit("a *very* long line of words", 14, align, "")?);
    }
    println!("{}", printable("an escape \u{1b}[2J and a tab\t.")?);
    println!("{}", text(NOTE, 24, "{\"bold\":").unwrap_err());
    Ok(())
}
