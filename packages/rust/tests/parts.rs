//! Texts in pieces and in parts: the breaks are those of the whole text.

use lbk::{Break, Breaker, Kind, Profile, Rule};

const TEXTS: [&str; 6] = [
    "",
    "ab c\r\n一d\n\r\n a\r",
    "« Hé bien, » dit-il\u{2029}« non »  ",
    "🇫🇷🇩🇪 👩\u{200d}👩 x\u{301}\u{301}\u{85}y",
    "שלום-ב 1,500.75 (mm) a/b",
    "word \u{200b} \u{feff}x «\u{301}  \u{301}» ",
];

const PROFILES: [Profile; 2] = [Profile::First, Profile::Second];

fn wide(breaks: &[Break]) -> Vec<Break<u64>> {
    let wide = |one: &Break| Break { at: one.at as u64, kind: one.kind, rule: one.rule };
    breaks.iter().map(wide).collect()
}

#[test]
fn pieces_give_the_same() {
    for profile in PROFILES {
        let breaker = Breaker::new().profile(profile);
        for text in TEXTS.map(|text| text.repeat(3)) {
            let whole: Vec<Break> = breaker.breaks(&text).collect();
            for size in 1..=text.len() + 1 {
                let mut stream = breaker.stream();
                let mut given = Vec::new();
                for piece in text.as_bytes().chunks(size) {
                    given.extend(stream.feed(piece));
                }
                given.extend(stream.finish());
                assert_eq!(given, wide(&whole), "{text:?} {size}");
            }
        }
    }
}

#[test]
fn a_piece_is_taken_as_a_whole_though_its_breaks_are_not_asked_for() {
    let text = "a b ".repeat(100);
    let mut stream = Breaker::new().stream();
    assert_eq!(stream.feed(text.as_bytes()).next().map(|one| one.at), Some(2));
    let left: Vec<u64> = stream.finish().map(|one| one.at).collect();
    assert_eq!(left, [400]);
}

#[test]
fn a_copy_of_a_stream_goes_on_by_itself() {
    let mut stream = Breaker::new().stream();
    assert_eq!(stream.feed(b"one t").count(), 1);
    let copy = stream.clone();
    assert_eq!(stream.feed(b"wo three").map(|one| one.at).collect::<Vec<_>>(), [8]);
    assert_eq!(copy.finish().map(|one| one.at).collect::<Vec<_>>(), [5]);
}

#[cfg(feature = "std")]
mod readers {
    use std::io::Read;

    use super::*;

    /// Gives a byte at a time, and first an error that says to try again.
    struct Slow<'a>(&'a [u8], bool);

    impl Read for Slow<'_> {
        fn read(&mut self, to: &mut [u8]) -> std::io::Result<usize> {
            self.1 = !self.1;
            if self.1 {
                return Err(std::io::ErrorKind::Interrupted.into());
            }
            self.0.read(&mut to[..1])
        }
    }

    #[test]
    fn a_reader_gives_the_same() {
        for profile in PROFILES {
            let breaker = Breaker::new().profile(profile);
            for text in TEXTS {
                let whole: Vec<Break> = breaker.breaks(text).collect();
                let read = breaker.breaks_of_reader(Slow(text.as_bytes(), false));
                let given: Result<Vec<_>, _> = read.collect();
                assert_eq!(given.unwrap(), wide(&whole));
            }
        }
    }

    #[test]
    fn an_error_of_a_reader_is_given() {
        struct Broken;
        impl Read for Broken {
            fn read(&mut self, _: &mut [u8]) -> std::io::Result<usize> {
                Err(std::io::ErrorKind::BrokenPipe.into())
            }
        }
        let mut breaks = Breaker::new().breaks_of_reader(Broken);
        for _ in 0..2 {
            let error = breaks.next().map(|found| found.map_err(|error| error.kind()));
            assert_eq!(error, Some(Err(std::io::ErrorKind::BrokenPipe)));
        }
    }
}

#[test]
fn a_text_may_be_divided_between_paragraphs() {
    for profile in PROFILES {
        let breaker = Breaker::new().profile(profile);
        for text in TEXTS.map(|text| text.repeat(9)) {
            let whole: Vec<Break> = breaker.breaks(&text).collect();
            for size in 1..30 {
                let (mut joined, mut from) = (Vec::new(), 0);
                while from < text.len() {
                    let to = breaker.next_paragraph(&text, from + size);
                    let part = &text[from..to];
                    let found = if to < text.len() {
                        breaker.breaks_of_part(part)
                    } else {
                        breaker.breaks(part)
                    };
                    joined.extend(found.map(|one| Break { at: from + one.at, ..one }));
                    from = to;
                }
                assert_eq!(joined, whole, "{text:?} {size}");
            }
        }
    }
}

#[test]
fn paragraphs_begin_behind_line_ends() {
    let text = "ab\r\ncd\n\nef";
    let after: Vec<usize> = (0..=11).map(|at| lbk::next_paragraph(text, at)).collect();
    assert_eq!(after, [0, 4, 4, 4, 4, 7, 7, 7, 8, 10, 10, 10]);
    let before: Vec<usize> = (0..=11).map(|at| Breaker::new().paragraph_start(text, at)).collect();
    assert_eq!(before, [0, 0, 0, 0, 4, 4, 4, 7, 8, 8, 10, 10]);
}

#[test]
fn a_part_ends_where_a_line_must() {
    let end = |part| {
        let last = Breaker::new().profile(Profile::Second).breaks_of_part(part).last()?;
        Some((last.at, last.kind, last.rule))
    };
    assert_eq!(end("ab"), None);
    assert_eq!(end(""), None);
    assert_eq!(end("ab "), None);
    assert_eq!(end("a b"), Some((2, Kind::May, Rule::LB18)));
    // (as if no LF followed)
    assert_eq!(end("ab\r"), Some((3, Kind::Must, Rule::LB5)));
    assert_eq!(end("ab\n"), Some((3, Kind::Must, Rule::LB5)));
}

#[test]
fn the_breaks_after_a_safe_break_are_those_of_the_text_from_there_on() {
    for profile in PROFILES {
        let breaker = Breaker::new().profile(profile);
        for text in TEXTS {
            for end in (0..=text.len()).filter(|end| text.is_char_boundary(*end)) {
                let safe = breaker.safe_break(&text[..end]);
                assert!(safe < end || end == 0);
                let moved =
                    breaker.breaks(&text[safe..]).map(|one| Break { at: safe + one.at, ..one });
                assert!(
                    moved.eq(breaker.breaks(text).filter(|one| safe < one.at)),
                    "{text:?} {end}"
                );
            }
        }
    }
    assert_eq!(Breaker::new().safe_break("a b\nc d"), 6);
    assert_eq!(Breaker::new().safe_break("single"), 0);
}
