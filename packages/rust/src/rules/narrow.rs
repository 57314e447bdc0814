//! The steps that texts need. Without the feature `tables` each kind is one of Unicode 15.0. The steps by other kinds, and
//! from rows that only these lead to, are left out while rustc compiles: of 128 KB, 37 are left.

#[cfg(feature = "tables")]
pub(crate) use super::row_steps::{FIRST_STEPS, ROWS, SECOND_STEPS, WIDTH};
#[cfg(feature = "tables")]
pub(crate) use super::unicode_runs::UNICODE_NEIGHBOURS;

#[cfg(not(feature = "tables"))]
pub(crate) use narrow::{FIRST_STEPS, ROWS, SECOND_STEPS, UNICODE_NEIGHBOURS, WIDTH};

#[cfg(not(feature = "tables"))]
mod narrow {
    use super::super::neighbours::Neighbours;
    use super::super::steps::{Rows, Step};
    use super::super::{row_steps as wide, unicode_runs};

    /// The least power of two that is more than each kind of Unicode 15.0.
    pub(crate) const WIDTH: usize = 64;

    /// How many rows these kinds lead to.
    pub(crate) const ROWS: usize = 72;

    pub(crate) static FIRST_STEPS: Rows = steps(&wide::FIRST_STEPS, &ORDER);

    pub(crate) static SECOND_STEPS: Rows = steps(&wide::SECOND_STEPS, &ORDER);

    pub(crate) static UNICODE_NEIGHBOURS: Neighbours =
        neighbours(&unicode_runs::UNICODE_NEIGHBOURS, &ORDER);

    static ORDER: Order = order(&wide::FIRST_STEPS, &wide::SECOND_STEPS);

    type Wide = [[Step; wide::WIDTH]; wide::ROWS];

    /// The rows that are kept, and which of them each row is; 0 for one that is not.
    struct Order {
        kept: [usize; ROWS],
        index: [usize; wide::ROWS],
    }

    /// Whether it is the kind of a character in Unicode 15.0: a test goes over them all.
    pub(super) const fn is_kind(kind: usize) -> bool {
        kind < 42 || kind == 60
    }

    /// The rows that texts lead to, in the order in which they are found. More than `ROWS` would not compile.
    const fn order(first: &Wide, second: &Wide) -> Order {
        let mut found = Order { kept: [0; ROWS], index: [0; wide::ROWS] };
        let (mut count, mut at) = (1, 0);
        while at < count {
            let mut kind = 0;
            while kind < WIDTH {
                let next = [first[found.kept[at]][kind].next, second[found.kept[at]][kind].next];
                let mut profile = 0;
                while profile < 2 && is_kind(kind) {
                    let row = next[profile] as usize / wide::WIDTH;
                    if row != 0 && found.index[row] == 0 {
                        found.kept[count] = row;
                        found.index[row] = count;
                        count += 1;
                    }
                    profile += 1;
                }
                kind += 1;
            }
            at += 1;
        }
        assert!(count == ROWS);
        found
    }

    /// The new place of a row by its place.
    #[allow(clippy::cast_possible_truncation)]
    const fn place(of: u16, order: &Order) -> u16 {
        (order.index[of as usize / wide::WIDTH] * WIDTH) as u16
    }

    const fn steps(wide: &Wide, order: &Order) -> Rows {
        let mut steps = [[Step { shown: 0, next: 0 }; WIDTH]; ROWS];
        let mut row = 0;
        while row < ROWS {
            let mut kind = 0;
            while kind < WIDTH {
                let Step { shown, next } = wide[order.kept[row]][kind];
                steps[row][kind] = Step { shown, next: place(next, order) };
                kind += 1;
            }
            row += 1;
        }
        steps
    }

    /// The same where a number that is no row's place stays.
    const fn neighbours(wide: &Neighbours, order: &Order) -> Neighbours {
        let mut rows = wide.rows;
        let mut byte = 0;
        while byte < rows.len() {
            if rows[byte] as usize % wide::WIDTH == 0 {
                rows[byte] = place(rows[byte], order);
            }
            byte += 1;
        }
        Neighbours { sets: wide.sets, rows }
    }

    #[cfg(test)]
    mod tests {
        use super::super::super::{KindSource, UnicodeCells};
        use super::*;

        #[test]
        fn kinds() {
            assert!(
                ('\0'..=char::MAX).all(|it| is_kind(UnicodeCells.kind_at(u32::from(it)).into()))
            );
        }

        #[test]
        fn steps_are_those_of_all_rows() {
            let profiles =
                [(&FIRST_STEPS, &wide::FIRST_STEPS), (&SECOND_STEPS, &wide::SECOND_STEPS)];
            for (narrow, all) in profiles {
                for row in 0..ROWS {
                    for kind in (0..WIDTH).filter(|kind| is_kind(*kind)) {
                        let (step, of_all) = (narrow[row][kind], all[ORDER.kept[row]][kind]);
                        assert_eq!(step.shown, of_all.shown);
                        let next = ORDER.kept[usize::from(step.next) / WIDTH] * wide::WIDTH;
                        assert_eq!(next, usize::from(of_all.next));
                    }
                }
            }
        }
    }
}
