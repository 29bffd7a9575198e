//! Joining rows by looking them up (02, Ticket 9). No two rows of a list have the same
//! fixed inputs and values, for they share no point, so that those which one joins with
//! are found by their values: one look for each fixed input.
//!
//! The search does not begin anew. Where the first pair is that of rows i and j, no row
//! before i joins with any; after the join one can only join with the new row i. So the
//! search goes on with the least row before i that does, or else with row i.

use crate::joining::check_join;
use crate::sheet::print_made;
use crate::{write_text, Answer, List, Room, Row, JOIN_ROWS, TEXT_ROOM};
use std::iter::successors;

/// Joins rows of the list as long as two of them join.
pub fn join(n: usize, k: usize, mut list: impl List + Room) -> Answer<usize> {
    let mut rows = list.rows();
    if let Err(refusal) = check_join(n, k, &rows) {
        return Err(refusal).into();
    }
    let mut lookup = Lookup::new(&rows);
    let mut at = 0;
    while at < rows.len() {
        let after = lookup.partners(at).filter(|&other| other > at).min();
        match after {
            None => at += 1,
            Some(second) => {
                lookup.join(at, second);
                let before = lookup.partners(at).filter(|&other| other < at).min();
                at = before.unwrap_or(at);
            }
        }
    }
    let mut left = 0;
    for row in lookup.rows.into_iter().flatten() {
        rows[left] = row;
        left += 1;
    }
    rows[left..].fill(Row::default());
    list.put(&rows);
    Ok(left).into()
}

/// What the program prints of joined rows.
pub fn print_joined(input: &[u8]) -> Vec<u8> {
    print_made(input, TEXT_ROOM, |head, _, rows, text| {
        let mut rows = rows.to_vec();
        let joined = join(head.n, head.k, &mut rows[..]);
        if joined.number != 0 {
            return joined;
        }
        let [block_type, type_line] = [head.block_type, head.type_line];
        let left = &rows[..joined.results];
        write_text(head.n, head.k, block_type, type_line, left, text)
    })
}

/// The number of slots is 2 to this power. At most all rows are put in, and then one for
/// each join, so that half of the slots stay free.
const SLOT_BITS: u32 = 11;
const _: () = assert!(4 * JOIN_ROWS <= 1 << SLOT_BITS);

/// A slot that nothing was put into.
const EMPTY: u16 = u16::MAX;

/// Rows under their places in the list that was given, so that what is closed up moves
/// nothing, and the places by fixed inputs and values.
struct Lookup {
    /// None where a row is gone.
    rows: Vec<Option<Row>>,
    /// Each place in the first slot from its own on that was free. What it was put there
    /// for may be joined or gone since, so that the row tells.
    slots: [u16; 1 << SLOT_BITS],
}

impl Lookup {
    fn new(rows: &[Row]) -> Lookup {
        let mut lookup = Lookup {
            rows: rows.iter().copied().map(Some).collect(),
            slots: [EMPTY; 1 << SLOT_BITS],
        };
        for (place, row) in rows.iter().enumerate() {
            lookup.put(place, row);
        }
        lookup
    }

    /// The slots of these fixed inputs and values, in the order in which they are looked at.
    fn slots_of(mask: u32, values: u32) -> impl Iterator<Item = usize> {
        let both = u64::from(mask) << 32 | u64::from(values);
        let mixed = both.wrapping_mul(0x9E37_79B9_7F4A_7C15);
        let own = (mixed >> (64 - SLOT_BITS)) as usize;
        (own..).map(|slot| slot % (1 << SLOT_BITS))
    }

    fn put(&mut self, place: usize, row: &Row) {
        let mut slots = Self::slots_of(row.mask, row.values);
        let free = slots.find(|&slot| self.slots[slot] == EMPTY);
        self.slots[free.expect("half of the slots are free")] = place as u16;
    }

    /// The place of the row with these fixed inputs, values and word, where there is one.
    fn find(&self, due: Row) -> Option<usize> {
        Self::slots_of(due.mask, due.values)
            .map(|slot| self.slots[slot])
            .take_while(|&place| place != EMPTY)
            .map(usize::from)
            .find(|&place| self.rows[place] == Some(due))
    }

    /// The places of all rows that the one at this place joins with; none where it is gone.
    fn partners(&self, place: usize) -> impl Iterator<Item = usize> + '_ {
        let row = self.rows[place].unwrap_or_default();
        // the fixed inputs, and then without the lowest, again and again
        let fixed = successors(Some(row.mask), |rest| Some(rest & rest.wrapping_sub(1)));
        fixed.take_while(|&rest| rest != 0).filter_map(move |rest| {
            let lowest = rest & rest.wrapping_neg();
            let values = row.values ^ lowest;
            self.find(Row { values, ..row })
        })
    }

    /// Joins two rows, in the place of the first.
    fn join(&mut self, first: usize, second: usize) {
        if let (Some(row), Some(other)) = (self.rows[first], self.rows[second].take()) {
            let differ = row.values ^ other.values;
            let joined = Row {
                mask: row.mask ^ differ,
                values: row.values & other.values,
                word: row.word,
            };
            self.rows[first] = Some(joined);
            self.put(first, &joined);
        }
    }
}
