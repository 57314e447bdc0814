//! Chunks, compared with a literal form of their definition.

use lbk::{Breaker, Kind, Limits, Profile};

const PIECES: [&str; 11] =
    ["a", "bc ", "word ", "カタカナ", "一", "\n", "\r\n", " ", "é", "\u{2029}", "a.b "];

/// A break outside words, and how many words are before it.
#[derive(Clone, Copy)]
struct Cut {
    at: usize,
    words: usize,
    must: bool,
}

fn cuts_of(breaker: Breaker<'_>, text: &str) -> Vec<Cut> {
    let words: Vec<_> = lbk::word_ranges(text.as_bytes()).collect();
    let breaks = breaker.breaks(text);
    breaks
        .filter(|one| !words.iter().any(|word| word.start < one.at && one.at < word.end))
        .map(|one| Cut {
            at: one.at,
            words: words.iter().filter(|word| word.end <= one.at).count(),
            must: one.kind == Kind::Must,
        })
        .collect()
}

/// The limits that a test asks for.
#[derive(Clone, Copy, Debug)]
struct Asked {
    most: usize,
    words: usize,
    least: usize,
    overlap: usize,
}

impl Asked {
    fn fits(&self, from: Cut, to: Cut) -> bool {
        to.at - from.at <= self.most && (self.words == 0 || to.words - from.words <= self.words)
    }

    /// The cut at which a chunk from `start` on ends: none where the text has no more.
    fn end(&self, cuts: &[Cut], start: Cut, told: usize) -> Option<Cut> {
        let ahead = || cuts.iter().copied().filter(|one| one.at > told);
        let fitting = || ahead().filter(|one| self.fits(start, *one));
        let mut early = fitting().filter(|one| one.must && one.at - told >= self.least);
        match fitting().next_back() {
            None => ahead().next(),
            Some(last) if fitting().count() == ahead().count() => Some(last),
            Some(last) => Some(early.next_back().unwrap_or(last)),
        }
    }

    /// The chunks of a text with these cuts: the start, the end, the words, and whether it is alone.
    fn defined(&self, cuts: &[Cut]) -> Vec<(usize, usize, usize, bool)> {
        let mut found = Vec::new();
        let mut start = Cut { at: 0, words: 0, must: false };
        let mut told = 0;
        while let Some(end) = self.end(cuts, start, told) {
            found.push((start.at, end.at, end.words - start.words, !self.fits(start, end)));
            let next = cuts.iter().find(|one| one.at > end.at);
            let again = cuts.iter().find(|one| {
                one.at > start.at
                    && one.at < end.at
                    && end.at - one.at <= self.overlap
                    && 2 * (end.at - one.at) <= end.at - start.at
                    && next.map_or(false, |next| self.fits(**one, *next))
            });
            start = *again.unwrap_or(&end);
            told = end.at;
        }
        found
    }
}

/// Numbers that seem random (a linear congruential generator).
struct Chance(u64);

impl Chance {
    fn below(&mut self, bound: usize) -> usize {
        self.0 = self.0.wrapping_mul(6364136223846793005).wrapping_add(1442695040888963407);
        (self.0 >> 33) as usize % bound
    }
}

#[test]
fn chunks_are_those_of_the_definition() {
    let mut chance = Chance(7);
    for round in 0..3000 {
        let text: String =
            (0..chance.below(40)).map(|_| PIECES[chance.below(PIECES.len())]).collect();
        let most = [1, 2, 5, 12, 40, 100][chance.below(6)];
        let asked = Asked {
            most,
            words: [0, 0, 1, 3][chance.below(4)],
            least: chance.below(most + 1),
            overlap: chance.below(most / 2 + 1),
        };
        let breaker = Breaker::new().profile([Profile::First, Profile::Second][round % 2]);
        let limits = Limits::new(most).words(asked.words).least(asked.least).overlap(asked.overlap);
        let found: Vec<_> = breaker
            .chunks(&text, limits)
            .map(|one| (one.start, one.start + one.text.len(), one.words, one.alone))
            .collect();
        assert_eq!(found, asked.defined(&cuts_of(breaker, &text)), "{text:?} {asked:?}");
    }
}

#[test]
fn limits_are_within_their_ranges() {
    assert_eq!(Limits::new(0), Limits::new(1));
    assert_eq!(Limits::new(9).least(10), Limits::new(9).least(9));
    assert_eq!(Limits::new(9).overlap(5), Limits::new(9).overlap(4));
    let text = "one two\nthree";
    for limits in [Limits::new(0), Limits::new(usize::MAX).overlap(usize::MAX).least(usize::MAX)] {
        assert_eq!(
            lbk::chunks(text, limits.overlap(0)).map(|one| one.text).collect::<String>(),
            text
        );
    }
}

#[test]
fn a_copy_goes_on_by_itself_and_the_end_stays() {
    let mut chunks = lbk::chunks("one two three four", Limits::new(8));
    chunks.next();
    let copy = chunks.clone();
    assert_eq!(chunks.by_ref().map(|one| one.text).collect::<Vec<_>>(), ["three ", "four"]);
    assert_eq!((chunks.next(), chunks.next()), (None, None));
    assert_eq!(copy.count(), 2);
}

#[test]
fn words_have_a_letter_or_a_number() {
    let text = "Hé, 3.14 «don't»: 一カタカナ -- x_y";
    let words: Vec<_> = lbk::words(text).collect();
    let shown: Vec<&str> = words.iter().map(|(_, word)| *word).collect();
    assert_eq!(shown, ["Hé", "3.14", "don't", "一", "カタカナ", "x_y"]);
    assert!(words.iter().all(|(at, word)| text[*at..].starts_with(word)));
    let long = text.repeat(20);
    let mut folded = Vec::new();
    lbk::words(&long).for_each(|one| folded.push(one));
    assert_eq!(folded.len(), 20 * 6 - 19);
    assert!(lbk::words(&long).eq(folded.iter().copied()));
    let (least, most) = lbk::words(&long).size_hint();
    assert!(least <= folded.len() && folded.len() <= most.unwrap());
}
