//! Tables in memory, over the erased sources.

use alloc::sync::Arc;

use super::{RawFault, RawFiles};
use crate::kit::Global;
use crate::rules::{CellPages, CellTable};
use crate::ucd::{cause_text, Files, Tables, UcdCause};

/// The number of a refused allocation.
const MEMORY: u32 = 8;

/// All causes, in the order of their numbers, from 1.
const CAUSES: [UcdCause; 8] = [
    UcdCause::FileTooLong,
    UcdCause::LineTooLong,
    UcdCause::RowSyntax,
    UcdCause::Range,
    UcdCause::UnknownValue,
    UcdCause::Overlap,
    UcdCause::TooManyRows,
    UcdCause::Memory,
];

/// What the cause of a number says; nothing for another number.
pub(crate) fn cause(number: u32) -> &'static str {
    CAUSES.iter().find(|cause| **cause as u32 + 1 == number).map_or("", |cause| cause_text(*cause))
}

/// The cells of all characters. Copies share them.
#[derive(Clone)]
pub(crate) struct Table(Arc<CellPages>);

impl Table {
    /// The table of four files, or their first fault.
    pub(crate) fn read(files: RawFiles<'_>) -> Result<Table, RawFault> {
        let RawFiles { line_break, east_asian, category, emoji } = files;
        let files = Files { line_break, east_asian, category, emoji };
        let tables = Tables::read(Global, files).map_err(|fault| RawFault {
            file: fault.file as u32 + 1,
            line: fault.line,
            cause: fault.cause as u32 + 1,
        })?;
        match CellPages::build(Global, &tables) {
            Ok(pages) => Ok(Table(Arc::new(pages))),
            Err(_) => Err(RawFault { file: 0, line: 0, cause: MEMORY }),
        }
    }

    /// What the loops ask for the kinds of characters.
    pub(crate) fn kinds(&self) -> CellTable<'_, CellPages> {
        CellTable::new(&self.0)
    }
}
