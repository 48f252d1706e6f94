//! The root of the baseline: the modules of the Rust crate that `build.py` leaves.
#![allow(unexpected_cfgs)]

mod area;
mod code;
mod color;
mod composite;
mod composite_kind;
mod compound_style;
mod displayable_line;
mod errors;
mod fit;
mod inline;
mod line;
mod line_style;
mod list_indentation;
mod ordered_item_style;
mod rect;
mod scrollbar_style;
mod skin;
mod spacing;
mod styled_char;
mod table_border_chars;
mod tbl;
mod text;
mod tokens;
mod views;

pub use {
    area::{compute_scrollbar, terminal_size, Area},
    color::*,
    composite::FmtComposite,
    composite_kind::*,
    compound_style::*,
    crossterm,
    displayable_line::DisplayableLine,
    errors::Error,
    fit::*,
    inline::FmtInline,
    line::FmtLine,
    line_style::LineStyle,
    list_indentation::*,
    minimad::{self, Alignment},
    ordered_item_style::*,
    rect::*,
    scrollbar_style::ScrollBarStyle,
    skin::MadSkin,
    spacing::Spacing,
    styled_char::StyledChar,
    table_border_chars::*,
    tbl::*,
    text::FmtText,
    views::{MadView, Pos, ProgressBar, Range, TextView},
};

use tokens::*;
