//! Making a list disjoint by sets of rows (02, Ticket 10). The rows that meet a region are
//! the one-bits of a number, and so are those that fix an input at 0, and at 1: the rows
//! that meet a half come of that by one AND.
//!
//! A half is met by no row that does not meet the whole, so that the inputs at which it is
//! halved again stand below. A region that no row meets is left out at once.

use crate::disjoining::{check_disjoin, print_by};
use crate::{Answer, List, Refusal, Room, Row, ROWS, ROW_INPUTS};

/// Makes the disjoint list in the lent room.
pub fn disjoin(n: usize, k: usize, rows: impl List, mut disjoint: impl Room) -> Answer<usize> {
    let rows = rows.rows();
    let checked = check_disjoin(n, k, &rows, disjoint.room());
    let made = checked.and_then(|()| Sets::new(&rows).disjoint(n));
    let count = made.map(|made| {
        disjoint.put(&made);
        made.len()
    });
    count.into()
}

/// What the program prints of a list that was made disjoint.
pub fn print_disjoint(input: &[u8]) -> Vec<u8> {
    print_by(input, |n, k, rows, room| disjoin(n, k, rows, room))
}

/// Rows, bit i for row i.
type Set = u128;
const _: () = assert!(ROWS == Set::BITS as usize);

/// A region that rows meet: which rows, and below which input it is halved.
struct Open {
    region: Row,
    met: Set,
    below: usize,
}

/// The rows of a list by what they fix.
struct Sets<'a> {
    rows: &'a [Row],
    /// At each input those that fix it at 0, and at 1.
    at: [[Set; 2]; ROW_INPUTS],
}

impl Sets<'_> {
    fn new(rows: &[Row]) -> Sets<'_> {
        let mut at = [[0; 2]; ROW_INPUTS];
        for (index, row) in rows.iter().enumerate() {
            for (input, at) in at.iter_mut().enumerate() {
                if row.mask >> input & 1 == 1 {
                    at[(row.values >> input & 1) as usize] |= 1 << index;
                }
            }
        }
        Sets { rows, at }
    }

    /// The disjoint list. It ends where a row more than 128 would come out.
    fn disjoint(&self, n: usize) -> Result<Vec<Row>, Refusal> {
        let mut made = Vec::with_capacity(ROWS);
        // The next region stands last.
        let mut open = Vec::with_capacity(2 * ROW_INPUTS);
        open.push(Open {
            region: Row::default(),
            met: Set::MAX >> (ROWS - self.rows.len()),
            below: n,
        });
        while let Some(next) = open.pop() {
            match self.cut(&next) {
                None if made.len() == ROWS => return Err(Refusal::plain(14)),
                None => made.push(Row {
                    word: self.word(next.met),
                    ..next.region
                }),
                Some(input) => {
                    let halves = [1, 0].map(|value| self.half(&next, input, value));
                    open.extend(halves.into_iter().filter(|half| half.met != 0));
                }
            }
        }
        Ok(made)
    }

    /// The highest free input that a row meeting the region fixes.
    fn cut(&self, open: &Open) -> Option<usize> {
        (0..open.below).rev().find(|&input| {
            let [at_0, at_1] = self.at[input];
            open.met & (at_0 | at_1) != 0
        })
    }

    /// The half of the region where the input has this value.
    fn half(&self, open: &Open, input: usize, value: usize) -> Open {
        Open {
            region: Row {
                mask: open.region.mask | 1 << input,
                values: open.region.values | (value as u32) << input,
                word: 0,
            },
            met: open.met & !self.at[input][1 - value],
            below: input,
        }
    }

    /// The OR of the words of these rows.
    fn word(&self, mut set: Set) -> u32 {
        let mut word = 0;
        while set != 0 {
            word |= self.rows[set.trailing_zeros() as usize].word;
            set &= set - 1;
        }
        word
    }
}
