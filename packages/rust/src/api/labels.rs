//! Kinds, rules, classes and profiles.

use core::fmt;

use crate::engine::{self, Source};

/// Whether a line may or must end at a break; `May` is the lesser.
#[derive(Clone, Copy, PartialEq, Eq, PartialOrd, Ord, Hash, Debug)]
#[doc(alias = "BreakOpportunity")]
pub enum Kind {
    /// A line may end there.
    #[doc(alias = "Allowed")]
    May,
    /// A line must end there: after a line end, or at the end of the text.
    #[doc(alias = "Mandatory")]
    Must,
}

/// The rules for quotation marks.
#[derive(Clone, Copy, PartialEq, Eq, Hash, Default, Debug)]
#[non_exhaustive]
pub enum Profile {
    /// Rule 15 of Unicode 15.0.
    #[default]
    First = 0,
    /// Rules 15a and 15b instead, which look at both sides of a quotation mark.
    Second = 1,
}

/// A rule of UAX #14, section 6. It is displayed without `LB`, such as `8a`. Later versions of Unicode have more rules,
/// so this is no `enum`; its constants can be matched.
///
/// ```
/// use lbk::Rule;
///
/// let last = lbk::breaks("to be").last().unwrap();
/// assert!(matches!(last.rule, Rule::LB3));
/// assert_eq!(format!("{} {:?}", last.rule, last.rule), "3 LB3");
/// ```
#[derive(Clone, Copy, PartialEq, Eq, PartialOrd, Ord, Hash)]
pub struct Rule(pub(crate) u8);

macro_rules! rules {
    ($($name:ident $label:literal $number:literal),* $(,)?) => {
        #[allow(missing_docs)]
        impl Rule {
            $(pub const $name: Rule = Rule($number);)*
            const LABELS: &'static [(Rule, &'static str)] = &[$((Rule::$name, $label)),*];
        }
    };
}

rules! {
    LB2 "2" 16, LB3 "3" 24, LB4 "4" 32, LB5 "5" 40, LB6 "6" 48, LB7 "7" 56, LB8 "8" 64, LB8A "8a" 65,
    LB9 "9" 72, LB11 "11" 88, LB12 "12" 96, LB12A "12a" 97, LB13 "13" 104, LB14 "14" 112,
    LB15 "15" 120, LB15A "15a" 121, LB15B "15b" 122, LB16 "16" 128, LB17 "17" 136, LB18 "18" 144,
    LB19 "19" 152, LB20 "20" 160, LB21 "21" 168, LB21A "21a" 169, LB21B "21b" 170, LB22 "22" 176,
    LB23 "23" 184, LB23A "23a" 185, LB24 "24" 192, LB25 "25" 200, LB26 "26" 208, LB27 "27" 216,
    LB28 "28" 224, LB29 "29" 232, LB30 "30" 240, LB30A "30a" 241, LB30B "30b" 242, LB31 "31" 248,
}

impl Rule {
    /// Its number, the same in each language that the library has: 8 times that of the standard, and 1 for `a`, 2 for
    /// `b`.
    #[must_use]
    pub const fn number(self) -> u8 {
        self.0
    }

    /// The rule with a number.
    #[must_use]
    pub fn numbered(number: u8) -> Option<Rule> {
        Rule::LABELS.iter().map(|&(rule, _)| rule).find(|rule| rule.0 == number)
    }

    /// Its number in the standard, such as `8a`.
    #[must_use]
    pub fn label(self) -> &'static str {
        Rule::LABELS.iter().find(|(rule, _)| *rule == self).map_or("", |&(_, label)| label)
    }

    /// What it says, in one line of English.
    #[must_use]
    pub fn text(self) -> &'static str {
        engine::rule(self.0)
    }
}

impl fmt::Display for Rule {
    fn fmt(&self, f: &mut fmt::Formatter<'_>) -> fmt::Result {
        f.pad(self.label())
    }
}

impl fmt::Debug for Rule {
    fn fmt(&self, f: &mut fmt::Formatter<'_>) -> fmt::Result {
        write!(f, "LB{self}")
    }
}

/// A line breaking class, as rule LB1 resolves it: no AI, CJ, SA, SG and XX. It is displayed by its name, such as `AL`.
/// Later versions of Unicode have more classes, so this is no `enum`; its constants can be matched.
///
/// ```
/// use lbk::Class;
///
/// assert_eq!(Class::of('a'), Class::AL);
/// assert_eq!(Class::of('字').name(), "ID");
/// ```
#[derive(Clone, Copy, PartialEq, Eq, PartialOrd, Ord, Hash)]
#[doc(alias = "BreakClass")]
pub struct Class(pub(crate) u8);

macro_rules! classes {
    ($($name:ident)*) => {
        /// The numbers of the classes, in the order of the standard's table of Unicode 15.0.
        #[allow(clippy::upper_case_acronyms)]
        enum Number {
            $($name),*
        }

        #[allow(missing_docs)]
        impl Class {
            $(pub const $name: Class = Class(Number::$name as u8);)*

            /// All classes, in the order of the standard's table of Unicode 15.0.
            pub const ALL: &'static [Class] = &[$(Class::$name),*];

            const NAMES: &'static [&'static str] = &[$(stringify!($name)),*];
        }
    };
}

classes! {
    AL B2 BA BB BK CB CL CM CP CR EB EM EX GL H2 H3 HL HY ID IN IS JL JT JV LF NL NS NU OP PO PR QU RI SP SY WJ ZW ZWJ
}

impl Class {
    /// The class of a character in Unicode 15.0.
    #[must_use]
    #[doc(alias = "break_property")]
    pub fn of(character: char) -> Class {
        Class(engine::class(Source(None), character))
    }

    /// Its name in the standard.
    #[must_use]
    pub fn name(self) -> &'static str {
        Class::NAMES[usize::from(self.0)]
    }

    /// The number of the class of a name.
    #[cfg(feature = "proved")]
    pub(crate) fn named(name: &str) -> u8 {
        let found = Class::NAMES.iter().position(|other| *other == name);
        found.map_or(Class::AL.0, |number| number as u8)
    }
}

impl fmt::Display for Class {
    fn fmt(&self, f: &mut fmt::Formatter<'_>) -> fmt::Result {
        f.pad(self.name())
    }
}

impl fmt::Debug for Class {
    fn fmt(&self, f: &mut fmt::Formatter<'_>) -> fmt::Result {
        f.write_str(self.name())
    }
}
