//! Writes the segments of a text between its breaks, as `lbk segment` does: `S start end kind rule` for each.
//!
//!     breaks [PROFILE] < TEXT

use std::env;
use std::io::{self, BufWriter, Read, Write};

use lbk::Profile;

fn main() -> io::Result<()> {
    let profile = match env::args().nth(1).as_deref() {
        Some("2") => Profile::Second,
        _ => Profile::First,
    };
    let mut text = Vec::new();
    io::stdin().read_to_end(&mut text)?;

    let mut out = BufWriter::new(io::stdout().lock());
    let mut start = 0;
    let breaker = lbk::Breaker::new().profile(profile);
    for found in breaker.breaks_utf8(&text) {
        writeln!(
            out,
            "S {} {} {:?} {}",
            start, found.at, found.kind, found.rule
        )?;
        start = found.at;
    }
    out.flush()
}
