//! What the interface promises, over texts of many parts.

use lbk::Kind::{May, Must};
use lbk::{Break, Breaker, Kind, Profile, Rule};

const PARTS: [&str; 18] = [
    "word", " ", "\n", "\r\n", "\r", "一", "の", "é", "\u{301}", "«", "»", "(", ")", "1,5",
    "\u{200b}", "🇫🇷", "\u{200d}", "אב-",
];

/// Texts of up to four parts.
fn texts() -> impl Iterator<Item = String> {
    (0..PARTS.len().pow(4)).map(|mut number| {
        let mut text = String::new();
        while number > 0 {
            text.push_str(PARTS[number % PARTS.len()]);
            number /= PARTS.len();
        }
        text
    })
}

fn found(text: &str) -> Vec<(usize, Kind)> {
    lbk::breaks(text).map(|one| (one.at, one.kind)).collect()
}

#[test]
fn known_texts() {
    assert_eq!(found(""), []);
    assert_eq!(found("a"), [(1, Must)]);
    assert_eq!(found("to be\r\nor"), [(3, May), (7, Must), (9, Must)]);
    assert_eq!(found("一二。"), [(3, May), (9, Must)]);
    assert_eq!(found("\u{feff}a b"), [(5, May), (6, Must)]);
}

#[test]
fn all_iterators_agree() {
    for text in texts().step_by(7) {
        let breaks: Vec<Break> = lbk::breaks(&text).collect();
        let mut folded = Vec::new();
        lbk::breaks(&text).for_each(|one| folded.push(one));
        assert_eq!(folded, breaks);
        let kept: Vec<Break> = lbk::positions(&text)
            .filter_map(|one| one.kind.map(|kind| Break { at: one.at, kind, rule: one.rule }))
            .collect();
        assert_eq!(kept, breaks);
        assert_eq!(lbk::positions(&text).count(), text.chars().count() + 1);
        let joined: String = lbk::segments(&text).map(|segment| segment.text).collect();
        assert_eq!(joined, text);
        assert!(lbk::segments(&text)
            .map(|segment| segment.end())
            .eq(breaks.iter().map(|one| one.at)));
        let paragraphs: Vec<_> = lbk::paragraphs(&text).collect();
        assert_eq!(paragraphs.len(), breaks.iter().filter(|one| one.is_required()).count());
        let parts = paragraphs
            .iter()
            .flat_map(|part| lbk::breaks(part.text).map(|one| (part.start + one.at, one.kind)));
        assert!(parts.eq(breaks.iter().map(|one| (one.at, one.kind))));
    }
}

#[test]
fn bounds_hold() {
    for text in texts().step_by(13) {
        let mut breaks = lbk::breaks(&text);
        loop {
            let (least, most) = breaks.size_hint();
            let left = breaks.clone().count();
            assert!(least <= left && left <= most.unwrap());
            if breaks.next().is_none() {
                break;
            }
        }
        assert_eq!(breaks.next(), None);
    }
}

#[test]
fn profiles_differ_at_quotation_marks() {
    let places = |profile| {
        let breaks = Breaker::new().profile(profile).breaks("a « b » c");
        breaks.map(|one| one.at).collect::<Vec<_>>()
    };
    assert_eq!(places(Profile::First), [2, 5, 7, 10, 11]);
    assert_eq!(places(Profile::Second), [2, 10, 11]);
}

#[test]
fn a_copy_goes_on_by_itself_and_the_end_stays() {
    let mut breaks = lbk::breaks("a b c");
    breaks.next();
    let copy = breaks.clone();
    assert_eq!(breaks.by_ref().map(|one| one.at).collect::<Vec<_>>(), [4, 5]);
    assert_eq!((breaks.next(), breaks.next()), (None, None));
    assert_eq!(copy.map(|one| one.kind).collect::<Vec<_>>(), [May, Must]);
}

#[test]
fn the_content_of_a_segment_has_no_space_at_its_end() {
    let parts: Vec<_> =
        lbk::segments("to  be\r\n\u{200b}or\u{a0}").map(|one| one.content_and_space()).collect();
    assert_eq!(parts, [("to", "  "), ("be", "\r\n"), ("", "\u{200b}"), ("or\u{a0}", "")]);
    let mut segments = lbk::segments("to be or");
    segments.next();
    assert_eq!(segments.rest(), "be or");
}

#[test]
fn ill_formed_bytes_are_read_as_replaced() {
    let breaker = Breaker::new();
    for text in [&b"a \xFF b"[..], b"\xE4\xB8", b"\xF0\x9F x", b"\xED\xA0\x80 y"] {
        let lossy = String::from_utf8_lossy(text);
        assert_eq!(breaker.breaks_utf8(text).count(), lbk::breaks(&lossy).count());
        assert_eq!(breaker.breaks_utf8(text).last().map(|one| one.at), Some(text.len()));
    }
}

#[test]
fn rules_and_classes_have_names() {
    assert_eq!(lbk::Class::ALL.len(), 38);
    for class in lbk::Class::ALL {
        assert!(class.name().len() <= 3);
    }
    for number in 0..=u8::MAX {
        if let Some(rule) = Rule::numbered(number) {
            assert!(
                rule.number() == number
                    && !rule.text().is_empty()
                    && number / 8
                        == rule.label().trim_end_matches(['a', 'b']).parse::<u8>().unwrap()
            );
        }
    }
    assert_eq!(Rule::LB30B.to_string(), "30b");
}
