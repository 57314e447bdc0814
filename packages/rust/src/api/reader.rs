//! Breaks of what a reader gives.

use std::boxed::Box;
use std::collections::VecDeque;
use std::io::{ErrorKind, Read, Result};
use std::{fmt, vec};

use super::breaker::Breaker;
use super::breaks::Break;
use super::stream::Stream;

/// How many bytes are read at a time.
const PIECE: usize = 1 << 16;

/// The breaks of what a reader gives, in order. [`Breaker::breaks_of_reader`] makes it.
#[must_use = "iterators are lazy"]
pub struct ReaderBreaks<'t, R> {
    stream: Option<Stream<'t>>,
    reader: R,
    piece: Box<[u8]>,
    found: VecDeque<Break<u64>>,
}

impl<'t> Breaker<'t> {
    /// The breaks of what a reader gives, in order. After an error the next call reads again.
    ///
    /// ```
    /// let breaks = lbk::Breaker::new().breaks_of_reader("to be".as_bytes());
    /// let found: Result<Vec<u64>, _> = breaks.map(|found| found.map(|found| found.at)).collect();
    /// assert_eq!(found.unwrap(), [3, 5]);
    /// ```
    pub fn breaks_of_reader<R: Read>(self, reader: R) -> ReaderBreaks<'t, R> {
        ReaderBreaks {
            stream: Some(self.stream()),
            reader,
            piece: vec![0; PIECE].into_boxed_slice(),
            found: VecDeque::new(),
        }
    }
}

impl<R: Read> Iterator for ReaderBreaks<'_, R> {
    type Item = Result<Break<u64>>;

    fn next(&mut self) -> Option<Result<Break<u64>>> {
        loop {
            if let Some(found) = self.found.pop_front() {
                return Some(Ok(found));
            }
            let stream = self.stream.as_mut()?;
            match self.reader.read(&mut self.piece) {
                Err(error) if error.kind() == ErrorKind::Interrupted => {}
                Err(error) => return Some(Err(error)),
                Ok(0) => self.found.extend(self.stream.take()?.finish()),
                Ok(size) => self.found.extend(stream.feed(&self.piece[..size])),
            }
        }
    }
}

impl<R> fmt::Debug for ReaderBreaks<'_, R> {
    fn fmt(&self, f: &mut fmt::Formatter<'_>) -> fmt::Result {
        f.debug_struct("ReaderBreaks").finish_non_exhaustive()
    }
}
