//! Writes the segments of a text between its breaks, as `breaks` does, but finds them in parts of some 4 KB: each could
//! be found by another thread or machine.
//!
//!     parts [PROFILE] < TEXT

use std::env;
use std::io::{self, BufWriter, Read, Write};
use std::ops::Range;

use lbk::{Breaker, Profile};

/// A part has so many bytes, and what is left of its paragraph.
const LEAST: usize = 4096;

/// Writes the segments of a part.
fn write_part(
    out: &mut impl Write,
    breaker: Breaker<'_>,
    text: &str,
    part: Range<usize>,
) -> io::Result<()> {
    let found = if part.end < text.len() {
        breaker.breaks_of_part(&text[part.clone()])
    } else {
        breaker.breaks(&text[part.clone()])
    };
    let mut start = part.start;
    for one in found {
        let at = part.start + one.at;
        writeln!(out, "S {} {} {:?} {}", start, at, one.kind, one.rule)?;
        start = at;
    }
    Ok(())
}

fn main() -> io::Result<()> {
    let profile = match env::args().nth(1).as_deref() {
        Some("2") => Profile::Second,
        _ => Profile::First,
    };
    let mut text = String::new();
    io::stdin().read_to_string(&mut text)?;

    let mut out = BufWriter::new(io::stdout().lock());
    let breaker = Breaker::new().profile(profile);
    let mut from = 0;
    while from < text.len() {
        let to = breaker.next_paragraph(&text, from + LEAST);
        write_part(&mut out, breaker, &text, from..to)?;
        from = to;
    }
    out.flush()
}
