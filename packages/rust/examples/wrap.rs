//! Wraps a text to some columns, as a terminal counts them: `wrap COLUMNS < FILE`.

use std::io::{self, Read, Write};

use lbk::{Class, Segment};

/// How many columns a character takes, roughly: the crate unicode-width knows better.
fn width(c: char) -> usize {
    match Class::of(c) {
        Class::CM | Class::ZWJ | Class::ZW | Class::WJ => 0,
        _ if c.is_control() => 0,
        Class::ID
        | Class::EB
        | Class::EM
        | Class::H2
        | Class::H3
        | Class::JL
        | Class::CL
        | Class::NS => 1 + usize::from('\u{1100}' <= c),
        _ => 1,
    }
}

fn columns(text: &str) -> usize {
    text.chars().map(width).sum()
}

/// Calls `line` with each line, without the spaces and the line end behind it.
fn wrap<'a>(text: &'a str, most: usize, mut line: impl FnMut(&'a str)) {
    // A line from `start` on has these columns up to `end`, behind which only spaces are.
    let (mut start, mut end, mut taken) = (0, 0, 0);
    for segment in lbk::segments(text) {
        let (content, space) = segment.content_and_space();
        let more = columns(content);
        if start < segment.start && most < taken + more {
            line(&text[start..end]);
            (start, taken) = (segment.start, 0);
        }
        end = segment.start + content.len();
        taken += more + columns(space);
        let Segment { rule, .. } = segment;
        if segment.kind == lbk::Kind::Must {
            line(&text[start..end]);
            // (rule 3 is the end of the text, the others are line ends in it)
            (start, taken) = (segment.end(), 0);
            debug_assert!(rule != lbk::Rule::LB3 || start == text.len());
        }
    }
}

fn main() -> io::Result<()> {
    let most = std::env::args().nth(1).and_then(|number| number.parse().ok()).unwrap_or(72);
    let mut text = String::new();
    io::stdin().read_to_string(&mut text)?;
    let mut out = io::BufWriter::new(io::stdout().lock());
    let mut written = Ok(());
    wrap(&text, most, |line| {
        if written.is_ok() {
            written = writeln!(out, "{line}");
        }
    });
    written?;
    out.flush()
}
