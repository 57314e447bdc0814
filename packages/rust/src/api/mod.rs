//! The public items, over the calls of [`engine`](crate::engine).

mod breaker;
mod breaks;
mod chunks;
mod found;
mod labels;
#[cfg(feature = "std")]
mod reader;
mod segments;
mod stream;
#[cfg(feature = "tables")]
mod table;
mod words;

pub use breaker::Breaker;
pub use breaks::{
    Break, Breaks, BreaksUtf16, BreaksUtf32, Position, Positions, PositionsUtf16, PositionsUtf32,
};
pub use chunks::{Chunk, Chunks, Limits};
pub use labels::{Class, Kind, Profile, Rule};
#[cfg(feature = "std")]
pub use reader::ReaderBreaks;
pub use segments::{Paragraph, Paragraphs, Segment, Segments};
pub use stream::{Feed, Finish, Stream};
#[cfg(feature = "tables")]
pub use table::{Cause, Fault, Files, Table};
pub use words::{WordRanges, Words};
