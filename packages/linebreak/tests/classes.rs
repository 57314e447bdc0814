//! The classes of characters.

use unicode_linebreak::break_property;
use unicode_linebreak::BreakClass::{self, *};

/// A character of each class, with the class's name in the standard.
const SAMPLES: [(u32, &str, BreakClass); 43] = [
    (0x0B, "BK", Mandatory),
    (0x0D, "CR", CarriageReturn),
    (0x0A, "LF", LineFeed),
    (0x301, "CM", CombiningMark),
    (0x85, "NL", NextLine),
    (0xD800, "SG", Surrogate),
    (0x2060, "WJ", WordJoiner),
    (0x200B, "ZW", ZeroWidthSpace),
    (0xA0, "GL", NonBreakingGlue),
    (0x20, "SP", Space),
    (0x200D, "ZWJ", ZeroWidthJoiner),
    (0x2014, "B2", BeforeAndAfter),
    (0x09, "BA", After),
    (0xB4, "BB", Before),
    (0x2D, "HY", Hyphen),
    (0xFFFC, "CB", Contingent),
    (0x7D, "CL", ClosePunctuation),
    (0x29, "CP", CloseParenthesis),
    (0x21, "EX", Exclamation),
    (0x2026, "IN", Inseparable),
    (0x203C, "NS", NonStarter),
    (0x28, "OP", OpenPunctuation),
    (0x22, "QU", Quotation),
    (0x2C, "IS", InfixSeparator),
    (0x30, "NU", Numeric),
    (0x25, "PO", Postfix),
    (0x24, "PR", Prefix),
    (0x2F, "SY", Symbol),
    (0xA7, "AI", Ambiguous),
    (0x61, "AL", Alphabetic),
    (0x3041, "CJ", ConditionalJapaneseStarter),
    (0x1F44D, "EB", EmojiBase),
    (0x1F3FD, "EM", EmojiModifier),
    (0xAC00, "H2", HangulLvSyllable),
    (0xAC01, "H3", HangulLvtSyllable),
    (0x5D0, "HL", HebrewLetter),
    (0x4E00, "ID", Ideographic),
    (0x1100, "JL", HangulLJamo),
    (0x1160, "JV", HangulVJamo),
    (0x11A8, "JT", HangulTJamo),
    (0x1F1E6, "RI", RegionalIndicator),
    (0xE01, "SA", ComplexContext),
    (0x378, "XX", Unknown),
];

#[test]
fn each_class_has_its_characters() {
    for (number, (codepoint, name, class)) in SAMPLES.into_iter().enumerate() {
        assert_eq!((break_property(codepoint), class as usize), (class, number), "{name}");
    }
    for codepoint in [0x11_0000, u32::MAX, 0xE000, 0x10_FFFF] {
        assert_eq!(break_property(codepoint), Unknown);
    }
}

#[test]
#[ignore = "LBK_DATABASE has to name the folder of the files that Unicode 15.0 published"]
fn all_characters_have_the_class_of_the_file() {
    let folder = std::env::var("LBK_DATABASE").expect("LBK_DATABASE is set");
    let text =
        std::fs::read_to_string(format!("{folder}/LineBreak.txt")).expect("the file is read");
    let mut wanted = vec![Unknown; 0x11_0000];
    for line in text.lines() {
        let row = line.split('#').next().unwrap_or("");
        let Some((codes, name)) = row.split_once(';') else { continue };
        let code = |shown: &str| usize::from_str_radix(shown.trim(), 16).expect("it is a number");
        let (first, last) = codes.split_once("..").unwrap_or((codes, codes));
        let sample = SAMPLES.iter().find(|(_, other, _)| *other == name.trim());
        wanted[code(first)..=code(last)].fill(sample.expect("it is a class").2);
    }
    for (codepoint, class) in (0..).zip(wanted) {
        assert_eq!(break_property(codepoint), class, "{codepoint:X}");
    }
}
