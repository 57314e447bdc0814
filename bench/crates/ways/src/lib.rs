//! Each function goes over a text in pieces of about so many bytes, and gives a sum of what it finds. `FOR` goes by
//! `next`, `COUNT` by what counts all, where that is another loop.

use std::{slice, str};

/// A text's pieces, each of whole characters.
fn pieces(text: &str, size: usize) -> impl Iterator<Item = &str> {
    let mut rest = text;
    std::iter::from_fn(move || {
        if rest.is_empty() {
            return None;
        }
        let mut end = size.min(rest.len());
        while !rest.is_char_boundary(end) {
            end += 1;
        }
        let (piece, behind) = rest.split_at(end);
        rest = behind;
        Some(piece)
    })
}

macro_rules! ways {
    ($($name:ident: $piece:ident, $sum:ident => $body:expr;)*) => { $(
        /// # Safety
        ///
        /// The text is UTF-8, and as long as is said.
        #[no_mangle]
        pub unsafe extern "C" fn $name(text: *const u8, size: usize, piece: usize) -> usize {
            // SAFETY: the caller says so.
            let text = unsafe { str::from_utf8_unchecked(slice::from_raw_parts(text, size)) };
            let mut $sum = 0_usize;
            for $piece in pieces(text, piece) {
                $body
            }
            $sum
        }
    )* };
}

ways! {
    breaks_for: piece, sum => for found in lbk::breaks(piece) {
        sum = sum.wrapping_add(found.at + found.kind as usize);
    };
    breaks_count: piece, sum => sum += lbk::breaks(piece).count();
    segments_for: piece, sum => for found in lbk::segments(piece) {
        sum = sum.wrapping_add(found.text.len() + found.kind as usize);
    };
    words_for: piece, sum => for (at, word) in lbk::words(piece) {
        sum = sum.wrapping_add(at + word.len());
    };
    chunks_for: piece, sum => for found in lbk::chunks(piece, lbk::Limits::new(500)) {
        sum = sum.wrapping_add(found.text.len());
    };
    positions_for: piece, sum => for found in lbk::positions(piece) {
        sum = sum.wrapping_add(found.at + usize::from(found.rule.number()));
    };
    utf16_for: piece, sum => {
        let mut units = [0_u16; 4096];
        let units = &mut units[..piece.len().min(4096)];
        units.iter_mut().zip(piece.encode_utf16()).for_each(|(to, unit)| *to = unit);
        for found in lbk::Breaker::new().breaks_utf16(units) {
            sum = sum.wrapping_add(found.at);
        }
    };
}

#[cfg(feature = "peers")]
mod peers {
    use super::*;
    use unicode_segmentation::UnicodeSegmentation;

    ways! {
        linebreak_for: piece, sum => for (at, kind) in unicode_linebreak::linebreaks(piece) {
            sum = sum.wrapping_add(at + kind as usize);
        };
        xi_for: piece, sum => for (at, is_hard) in xi_unicode::LineBreakIterator::new(piece) {
            sum = sum.wrapping_add(at + usize::from(is_hard));
        };
        segmentation_words_for: piece, sum => for (at, word) in piece.unicode_word_indices() {
            sum = sum.wrapping_add(at + word.len());
        };
    }
}
