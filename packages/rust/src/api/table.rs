//! Tables of other data.

use core::fmt;

use crate::engine::{self, RawFault, RawFiles};

/// The contents of four files of the Unicode Character Database.
#[derive(Clone, Copy, Debug)]
pub struct Files<'a> {
    /// `LineBreak.txt`
    pub line_break: &'a [u8],
    /// `EastAsianWidth.txt`
    pub east_asian: &'a [u8],
    /// `extracted/DerivedGeneralCategory.txt`
    pub category: &'a [u8],
    /// `emoji/emoji-data.txt`
    pub emoji: &'a [u8],
}

/// The properties of all characters by other files than those of Unicode 15.0. It takes 1.1 MB of memory.
///
/// ```
/// use lbk::{Breaker, Files, Table};
///
/// let files = Files { line_break: b"002F ; BK", east_asian: b"", category: b"", emoji: b"" };
/// let table = Table::read(files)?;
/// let ends: Vec<usize> = Breaker::new().table(&table).breaks("a/b").map(|found| found.at).collect();
/// assert_eq!(ends, [2, 3]);
/// # Ok::<(), lbk::Fault>(())
/// ```
#[derive(Clone)]
pub struct Table(pub(crate) engine::Table);

impl Table {
    /// The table of any four files. Characters that a file does not name have the property's default value.
    ///
    /// # Errors
    ///
    /// The first fault of the files, in their order.
    pub fn read(files: Files<'_>) -> Result<Table, Fault> {
        let Files { line_break, east_asian, category, emoji } = files;
        let read = engine::Table::read(RawFiles { line_break, east_asian, category, emoji });
        read.map(Table).map_err(Fault::from)
    }
}

impl fmt::Debug for Table {
    fn fmt(&self, f: &mut fmt::Formatter<'_>) -> fmt::Result {
        f.debug_struct("Table").finish_non_exhaustive()
    }
}

/// The first fault of four files.
#[derive(Clone, Copy, PartialEq, Eq, Debug)]
#[non_exhaustive]
pub struct Fault {
    /// The name of the file, or `None` after all files were read.
    pub file: Option<&'static str>,
    /// From 1; 0 if the fault is in no line.
    pub line: u32,
    /// What is wrong.
    pub cause: Cause,
}

/// What is wrong with a file, or with one of its lines.
#[derive(Clone, Copy, PartialEq, Eq, Debug)]
#[non_exhaustive]
pub enum Cause {
    /// The file has more than 8,388,608 bytes.
    FileTooLong,
    /// The line has more than 1,024 bytes.
    LineTooLong,
    /// The line is neither blank nor a comment nor a row.
    RowSyntax,
    /// The first code point is above the last, or one is above 10FFFF.
    Range,
    /// The name is not a value of the property.
    UnknownValue,
    /// The row shares a code point with an earlier row of the file.
    Overlap,
    /// The line would be the 65,537th row or default of the file.
    TooManyRows,
    /// An allocation failed.
    Memory,
}

/// All causes, in the order of their numbers, from 1.
const CAUSES: [Cause; 8] = [
    Cause::FileTooLong,
    Cause::LineTooLong,
    Cause::RowSyntax,
    Cause::Range,
    Cause::UnknownValue,
    Cause::Overlap,
    Cause::TooManyRows,
    Cause::Memory,
];

impl From<RawFault> for Fault {
    fn from(fault: RawFault) -> Fault {
        let file = match fault.file {
            1 => Some("LineBreak.txt"),
            2 => Some("EastAsianWidth.txt"),
            3 => Some("DerivedGeneralCategory.txt"),
            4 => Some("emoji-data.txt"),
            _ => None,
        };
        let known = CAUSES.iter().find(|cause| **cause as u32 + 1 == fault.cause);
        let cause = known.copied().unwrap_or(Cause::Memory);
        Fault { file, line: fault.line, cause }
    }
}

impl fmt::Display for Cause {
    fn fmt(&self, f: &mut fmt::Formatter<'_>) -> fmt::Result {
        f.pad(engine::cause(*self as u32 + 1))
    }
}

impl fmt::Display for Fault {
    fn fmt(&self, f: &mut fmt::Formatter<'_>) -> fmt::Result {
        match (self.file, self.line) {
            (None, _) => write!(f, "{}", self.cause),
            (Some(file), 0) => write!(f, "{file}: {}", self.cause),
            (Some(file), line) => write!(f, "{file}:{line}: {}", self.cause),
        }
    }
}

#[cfg(feature = "std")]
impl std::error::Error for Fault {}
