//! UTF-16 and UTF-32: the breaks and the positions are those of the same text in UTF-8.

use lbk::{Break, Breaker, Kind, Position, Profile, Rule};

const TEXT: &str =
    "« Oh là là ! » a\r\nb\u{2028}一二。 🇫🇷🇩🇪 👍🏽\u{200d}x 𝒳𝒴 e\u{301}-1,5 % (שלום־ב) \u{e0001}";

fn breaker(number: usize) -> Breaker<'static> {
    Breaker::new().profile([Profile::First, Profile::Second][number])
}

/// Each break, without its offset.
fn decided(breaks: impl Iterator<Item = Break>) -> Vec<(Kind, Rule)> {
    breaks.map(|one| (one.kind, one.rule)).collect()
}

/// Each position, without its offset.
fn all_decided(positions: impl Iterator<Item = Position>) -> Vec<(Option<Kind>, Rule)> {
    positions.map(|one| (one.kind, one.rule)).collect()
}

/// What stands before each break, as units.
fn fronts<'a, U>(
    units: &'a [U],
    breaks: impl Iterator<Item = Break> + 'a,
) -> impl Iterator<Item = &'a [U]> {
    breaks.map(move |one| &units[..one.at])
}

#[test]
fn the_same_in_each_encoding() {
    for text in [TEXT.to_string(), TEXT.repeat(5), String::new(), TEXT.chars().rev().collect()] {
        let units: Vec<u16> = text.encode_utf16().collect();
        let codes: Vec<u32> = text.chars().map(u32::from).collect();
        for breaker in [breaker(0), breaker(1)] {
            let wanted = decided(breaker.breaks(&text));
            assert_eq!(decided(breaker.breaks_utf16(&units)), wanted);
            assert_eq!(decided(breaker.breaks_utf32(&codes)), wanted);
            let wanted = all_decided(breaker.positions(&text));
            assert_eq!(all_decided(breaker.positions_utf16(&units)), wanted);
            assert_eq!(all_decided(breaker.positions_utf32(&codes)), wanted);
            for (one, at) in fronts(&units, breaker.breaks_utf16(&units)).zip(breaker.breaks(&text))
            {
                assert_eq!(String::from_utf16(one).unwrap(), text[..at.at]);
            }
            for (one, at) in fronts(&codes, breaker.breaks_utf32(&codes)).zip(breaker.breaks(&text))
            {
                assert_eq!(one.len(), text[..at.at].chars().count());
            }
        }
    }
}

#[test]
fn what_is_no_character_is_a_replacement_character() {
    let breaker = Breaker::new();
    let (lone, replaced) = ([0x61, 0xD800, 0x20, 0x62, 0xDC00], [0x61, 0xFFFD, 0x20, 0x62, 0xFFFD]);
    assert!(breaker.breaks_utf16(&lone).eq(breaker.breaks_utf16(&replaced)));
    assert!(breaker.positions_utf16(&lone).eq(breaker.positions_utf16(&replaced)));
    let (lone, replaced) =
        ([0x61, 0xD800, 0x20, 0x11_0000, u32::MAX], [0x61, 0xFFFD, 0x20, 0xFFFD, 0xFFFD]);
    assert!(breaker.breaks_utf32(&lone).eq(breaker.breaks_utf32(&replaced)));
    assert!(breaker.positions_utf32(&lone).eq(breaker.positions_utf32(&replaced)));
}

#[test]
fn ill_formed_bytes_are_replaced_as_std_does() {
    for text in [
        &b"a\xE4\xB8b"[..],
        b"\xF0\x9F\x98a\xFF",
        b"\xED\xA0\x80",
        b"\xE1\x80\xE2\xF0\x91\x92\xF1\xBF\x61",
    ] {
        let replaced = String::from_utf8_lossy(text);
        let breaker = Breaker::new();
        assert_eq!(decided(breaker.breaks_utf8(text)), decided(breaker.breaks(&replaced)));
        assert_eq!(
            all_decided(breaker.positions_utf8(text)),
            all_decided(breaker.positions(&replaced))
        );
    }
}
