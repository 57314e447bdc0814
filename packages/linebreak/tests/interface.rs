//! What the interface promises, over texts of many scripts.

use std::thread;

use unicode_linebreak::BreakOpportunity::{Allowed, Mandatory};
use unicode_linebreak::{linebreaks, split_at_safe, BreakOpportunity, UNICODE_VERSION};

const PARTS: [&str; 16] = [
    "word", " ", "\n", "\r\n", "\r", "一", "の", "é", "\u{301}", "«", "»", "(", ")", "1,5",
    "\u{200b}", "🇫🇷",
];

fn found(text: &str) -> Vec<(usize, BreakOpportunity)> {
    linebreaks(text).collect()
}

/// Texts of up to four parts.
fn texts() -> impl Iterator<Item = String> {
    (0..PARTS.len().pow(4)).map(|mut number| {
        let mut text = String::new();
        while number > 0 {
            text.push_str(PARTS[number % PARTS.len()]);
            number /= PARTS.len();
        }
        text
    })
}

#[test]
fn breaks_of_known_texts() {
    assert_eq!(found(""), []);
    assert_eq!(found("a"), [(1, Mandatory)]);
    assert_eq!(found("to be\r\nor"), [(3, Allowed), (7, Mandatory), (9, Mandatory)]);
    assert_eq!(found("一二。"), [(3, Allowed), (9, Mandatory)]);
    assert_eq!(UNICODE_VERSION, (15, 0, 0));
}

#[test]
fn an_iterator_can_be_copied_half_way() {
    let mut breaks = linebreaks("a b c d");
    assert_eq!(breaks.next(), Some((2, Allowed)));
    assert_eq!(breaks.clone().count(), 3);
    assert_eq!(breaks.last(), Some((7, Mandatory)));
}

#[test]
fn each_text_ends_with_a_break() {
    for text in texts().filter(|text| !text.is_empty()) {
        assert_eq!(linebreaks(&text).last(), Some((text.len(), Mandatory)), "{text:?}");
    }
}

#[test]
fn the_breaks_after_a_safe_place_do_not_depend_on_what_was_before() {
    for text in texts() {
        let (before, after) = split_at_safe(&text);
        assert_eq!(format!("{before}{after}"), text);
        assert!(text.is_empty() || !after.is_empty(), "{text:?}");
        for more in PARTS {
            let (text, after) = (format!("{text}{more}"), format!("{after}{more}"));
            let moved = linebreaks(&after).map(|(at, kind)| (at + before.len(), kind));
            assert!(
                moved.eq(linebreaks(&text).filter(|(at, _)| *at > before.len())),
                "{before:?}, {after:?}"
            );
        }
    }
}

#[test]
fn a_safe_place_is_the_last_break_at_which_nothing_is_known() {
    assert_eq!(split_at_safe("a b\nc d"), ("a b\nc ", "d"));
    assert_eq!(split_at_safe("a\nb\r\nc\n"), ("a\nb\r\n", "c\n"));
    assert_eq!(split_at_safe("one two"), ("one ", "two"));
    assert_eq!(split_at_safe("一二三"), ("一二", "三"));
    assert_eq!(split_at_safe("single"), ("", "single"));
    assert_eq!(split_at_safe(""), ("", ""));
}

#[test]
fn threads_may_be_the_first_to_call_at_once() {
    let calls: Vec<_> = (0..8).map(|_| thread::spawn(|| found("a b"))).collect();
    for call in calls {
        assert_eq!(call.join().expect("it returns"), [(2, Allowed), (3, Mandatory)]);
    }
}
