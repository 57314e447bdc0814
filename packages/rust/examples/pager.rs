//! Wraps what arrives on standard input, line by line as soon as each is settled: `tail -f LOG | pager COLUMNS`. It keeps no
//! more text than one line.

use std::io::{self, Read, Write};

use lbk::{Break, Breaker, Kind, Stream};

/// What is wrapped.
struct Pager<'t, W> {
    stream: Stream<'t>,
    most: usize,
    /// The text that is not written yet, and the offset of its start.
    held: Vec<u8>,
    from: u64,
    /// The last break in it up to which it fits.
    fits: u64,
    out: W,
}

impl<W: Write> Pager<'_, W> {
    fn new(most: usize, out: W) -> Self {
        Pager { stream: Breaker::new().stream(), most, held: Vec::new(), from: 0, fits: 0, out }
    }

    /// The place of an offset in the held text.
    fn place(&self, at: u64) -> usize {
        usize::try_from(at - self.from).expect("the held text is in memory")
    }

    /// How many characters a part of the held text has, without spaces at its end.
    fn columns(&self, end: u64) -> usize {
        String::from_utf8_lossy(&self.held[..self.place(end)]).trim_end().chars().count()
    }

    /// Writes the held text up to an offset as a line.
    fn line(&mut self, end: u64) -> io::Result<()> {
        let rest = self.held.split_off(self.place(end));
        let line = std::mem::replace(&mut self.held, rest);
        (self.from, self.fits) = (end, end);
        writeln!(self.out, "{}", String::from_utf8_lossy(&line).trim_end())
    }

    fn take(&mut self, found: Break<u64>) -> io::Result<()> {
        if self.from < self.fits && self.most < self.columns(found.at) {
            self.line(self.fits)?;
        }
        self.fits = found.at;
        if found.kind == Kind::Must {
            self.line(found.at)?;
        }
        Ok(())
    }

    fn feed(&mut self, piece: &[u8]) -> io::Result<()> {
        self.held.extend_from_slice(piece);
        let settled: Vec<Break<u64>> = self.stream.feed(piece).collect();
        settled.into_iter().try_for_each(|found| self.take(found))?;
        self.out.flush()
    }

    fn finish(mut self) -> io::Result<()> {
        let settled: Vec<Break<u64>> = self.stream.clone().finish().collect();
        settled.into_iter().try_for_each(|found| self.take(found))?;
        self.out.flush()
    }
}

fn main() -> io::Result<()> {
    let most = std::env::args().nth(1).and_then(|number| number.parse().ok()).unwrap_or(72);
    let mut pager = Pager::new(most, io::stdout().lock());
    let mut piece = [0; 4096];
    loop {
        match io::stdin().lock().read(&mut piece)? {
            0 => return pager.finish(),
            size => pager.feed(&piece[..size])?,
        }
    }
}
