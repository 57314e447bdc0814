//! Texts: parts of files, characters that rules are about, and any bytes.

use crate::chance::Chance;

/// Characters of many classes, and those that stand near each other in texts.
const PARTS: [&str; 64] = [
    "a",
    "word ",
    " ",
    "  ",
    "\n",
    "\r\n",
    "\r",
    "\u{85}",
    "\u{2028}",
    "\u{2029}",
    "\u{b}",
    "\u{c}",
    "\t",
    "-",
    "--",
    "\u{ad}",
    "\u{2014}",
    "\u{2010}",
    "/",
    "a/b",
    "1,500.75",
    "$5",
    "7 %",
    "(",
    ")",
    "[1]",
    "{",
    "}",
    "\"",
    "'",
    "«",
    "»",
    "“x”",
    "‹",
    "›",
    "!",
    "?",
    ",",
    ".",
    ";",
    "…",
    "‥",
    "一",
    "二。",
    "「",
    "」",
    "ァ",
    "ー",
    "한",
    "ᄀ",
    "ᅡ",
    "ᆨ",
    "שלום",
    "א-",
    "ไทย",
    "é",
    "e\u{301}",
    "\u{301}",
    "\u{200d}",
    "\u{200b}",
    "\u{2060}",
    "\u{a0}",
    "\u{fffc}",
    "\u{feff}",
];

/// The same beyond the first 65,536.
const FAR: [&str; 16] = [
    "🇫🇷",
    "🇩",
    "👍",
    "👍🏽",
    "👩\u{200d}👩",
    "🏽",
    "😀😀",
    "𝒳",
    "𠀀",
    "\u{e0001}",
    "\u{1f8ff}",
    "🀄",
    "\u{10ffff}",
    "𐀀",
    "\u{1fffd}",
    "🄐",
];

pub struct Texts {
    files: Vec<Vec<u8>>,
}

impl Texts {
    pub fn read(names: &[String]) -> Texts {
        let read = |name: &String| std::fs::read(name).unwrap_or_else(|why| panic!("{name}: {why}"));
        Texts { files: names.iter().map(read).collect() }
    }

    /// A text, most of them short.
    pub fn draw(&self, chance: &mut Chance) -> Vec<u8> {
        let most = chance.one_of(&[4, 8, 20, 60, 70, 130, 300, 300, 1000, 5000]);
        let size = chance.below(most + 1);
        let way = chance.below(10);
        let mut text = if way < 5 && !self.files.is_empty() { self.part(chance, size) } else { drawn(chance, size) };
        if chance.one_in(4) {
            spoil(chance, &mut text);
        }
        text
    }

    /// A part of a file.
    fn part(&self, chance: &mut Chance, size: usize) -> Vec<u8> {
        let file = &self.files[chance.below(self.files.len())];
        let start = chance.below(file.len() + 1);
        file[start..file.len().min(start + size)].to_vec()
    }
}

/// Characters put side by side, a few of them often.
fn drawn(chance: &mut Chance, size: usize) -> Vec<u8> {
    let few: Vec<&str> = (0..1 + chance.below(6)).map(|_| one(chance)).collect();
    let often = chance.below(4);
    let mut text = Vec::new();
    while text.len() < size {
        let part = if chance.below(4) < often { chance.one_of(&few) } else { one(chance) };
        text.extend_from_slice(part.as_bytes());
        if chance.one_in(12) {
            let code = chance.one_of(&[0x80, 0x800, 0x3000, 0x1_0000, 0x2_0000, 0x11_0000]);
            let any = char::from_u32(chance.below(code) as u32).unwrap_or('\u{d7ff}');
            text.extend_from_slice(any.encode_utf8(&mut [0; 4]).as_bytes());
        }
    }
    text
}

fn one(chance: &mut Chance) -> &'static str {
    match chance.below(5) {
        0 => chance.one_of(&FAR),
        1 => chance.one_of(&["a", "b", " "]),
        _ => chance.one_of(&PARTS),
    }
}

/// Changes, inserts or leaves out some bytes.
fn spoil(chance: &mut Chance, text: &mut Vec<u8>) {
    for _ in 0..1 + chance.below(3) {
        let at = chance.below(text.len() + 1);
        let byte = chance.one_of(&[0x80, 0xBF, 0xC0, 0xC2, 0xE0, 0xED, 0xF0, 0xF4, 0xF5, 0xFF, 0x20, 0]);
        match chance.below(3) {
            0 => text.insert(at, byte),
            1 => text.truncate(at),
            _ if at < text.len() => text[at] = byte,
            _ => {}
        }
    }
}
