//! The classes of characters, as their property says, before rule LB1 resolves some of them.

use lbk::Class;

use crate::unresolved::UNRESOLVED;
use BreakClass::*;

/// A line breaking class.
#[derive(Copy, Clone, PartialEq, Eq, Hash, Debug)]
#[repr(u8)]
pub enum BreakClass {
    /// BK: a line ends after it.
    Mandatory,
    /// CR: a carriage return.
    CarriageReturn,
    /// LF: a line feed.
    LineFeed,
    /// CM: it joins the character before it.
    CombiningMark,
    /// NL: a next line.
    NextLine,
    /// SG: a surrogate, which no text has.
    Surrogate,
    /// WJ: no line ends beside it.
    WordJoiner,
    /// ZW: a line may end after it.
    ZeroWidthSpace,
    /// GL: it joins what is beside it.
    NonBreakingGlue,
    /// SP: a line may end after it.
    Space,
    /// ZWJ: it joins the character before it and the one after it.
    ZeroWidthJoiner,
    /// B2: a line may end before it and after it.
    BeforeAndAfter,
    /// BA: a line may end after it.
    After,
    /// BB: a line may end before it.
    Before,
    /// HY: a hyphen.
    Hyphen,
    /// CB: an object, whose breaks others decide.
    Contingent,
    /// CL: closing punctuation.
    ClosePunctuation,
    /// CP: a closing parenthesis.
    CloseParenthesis,
    /// EX: an exclamation or question mark.
    Exclamation,
    /// IN: it stays with others of its class.
    Inseparable,
    /// NS: no line begins with it.
    NonStarter,
    /// OP: opening punctuation.
    OpenPunctuation,
    /// QU: a quotation mark.
    Quotation,
    /// IS: a separator within a number.
    InfixSeparator,
    /// NU: a digit.
    Numeric,
    /// PO: it follows a number.
    Postfix,
    /// PR: it precedes a number.
    Prefix,
    /// SY: a slash.
    Symbol,
    /// AI: a letter or an ideograph, by its width.
    Ambiguous,
    /// AL: a letter or a symbol.
    Alphabetic,
    /// CJ: small kana.
    ConditionalJapaneseStarter,
    /// EB: an emoji that a modifier may follow.
    EmojiBase,
    /// EM: it modifies the emoji before it.
    EmojiModifier,
    /// H2: a Korean syllable of two letters.
    HangulLvSyllable,
    /// H3: a Korean syllable of three letters.
    HangulLvtSyllable,
    /// HL: a Hebrew letter.
    HebrewLetter,
    /// ID: an ideograph.
    Ideographic,
    /// JL: a Korean leading consonant.
    HangulLJamo,
    /// JV: a Korean vowel.
    HangulVJamo,
    /// JT: a Korean trailing consonant.
    HangulTJamo,
    /// RI: half of a flag.
    RegionalIndicator,
    /// SA: a character of a script whose breaks a dictionary finds.
    ComplexContext,
    /// XX: none of these.
    Unknown,
}

/// The classes that rule LB1 leaves.
#[rustfmt::skip]
const RESOLVED: [(Class, BreakClass); 38] = [
    (Class::BK, Mandatory), (Class::CR, CarriageReturn), (Class::LF, LineFeed),
    (Class::CM, CombiningMark), (Class::NL, NextLine), (Class::WJ, WordJoiner),
    (Class::ZW, ZeroWidthSpace), (Class::GL, NonBreakingGlue), (Class::SP, Space),
    (Class::ZWJ, ZeroWidthJoiner), (Class::B2, BeforeAndAfter), (Class::BA, After),
    (Class::BB, Before), (Class::HY, Hyphen), (Class::CB, Contingent),
    (Class::CL, ClosePunctuation), (Class::CP, CloseParenthesis), (Class::EX, Exclamation),
    (Class::IN, Inseparable), (Class::NS, NonStarter), (Class::OP, OpenPunctuation),
    (Class::QU, Quotation), (Class::IS, InfixSeparator), (Class::NU, Numeric),
    (Class::PO, Postfix), (Class::PR, Prefix), (Class::SY, Symbol), (Class::AL, Alphabetic),
    (Class::EB, EmojiBase), (Class::EM, EmojiModifier), (Class::H2, HangulLvSyllable),
    (Class::H3, HangulLvtSyllable), (Class::HL, HebrewLetter), (Class::ID, Ideographic),
    (Class::JL, HangulLJamo), (Class::JV, HangulVJamo), (Class::JT, HangulTJamo),
    (Class::RI, RegionalIndicator),
];

/// The class of a character; `Unknown` for a number that is none, and for one that is not assigned.
///
/// ```
/// use unicode_linebreak::{break_property, BreakClass};
///
/// assert_eq!(break_property(0x2CF3), BreakClass::Alphabetic);
/// assert_eq!(break_property(0x3041), BreakClass::ConditionalJapaneseStarter);
/// ```
pub fn break_property(codepoint: u32) -> BreakClass {
    let at = UNRESOLVED.partition_point(|&(_, last, _)| last < codepoint);
    match UNRESOLVED.get(at) {
        Some(&(first, _, class)) if first <= codepoint => class,
        _ => char::from_u32(codepoint).map_or(Unknown, resolved),
    }
}

/// The class of a character that rule LB1 leaves as it is.
fn resolved(character: char) -> BreakClass {
    let class = Class::of(character);
    RESOLVED.iter().find(|(of, _)| *of == class).map_or(Unknown, |(_, class)| *class)
}
