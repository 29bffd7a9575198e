//! R at every t of a full table as the Wiener-Khinchin theorem has it (02, Ticket 5;
//! document 004, section 2.2). Not here: R by counting, which is in [`crate::table`].

use crate::{checks, Answer, Refusal, NO_OUTPUT, TABLE_INPUTS};
use std::collections::BTreeSet;

/// The signed Walsh transform: at s, the sum of the numbers at all x, with a minus
/// where x and s have an odd number of one-bits in common. Numbers that are 0 add
/// nothing and are left out.
pub fn transform(numbers: &[i64]) -> Vec<i64> {
    let each = numbers.iter().copied().enumerate();
    let added: Vec<(usize, i64)> = each.filter(|&(_, number)| number != 0).collect();
    let signed = |x: usize, s: usize, number: i64| match (x & s).count_ones() % 2 {
        0 => number,
        _ => -number,
    };
    (0..numbers.len())
        .map(|s| added.iter().map(|&(x, number)| signed(x, s, number)).sum())
        .collect()
}

/// What one word adds to R at every t: the transform of the block that has 1 where
/// the table has this word and 0 elsewhere, squares, the transform again, divided by
/// 2^n.
fn of_word(table: &[u16], word: u16) -> Vec<i64> {
    let has_word: Vec<i64> = table
        .iter()
        .map(|&entry| i64::from(entry == word))
        .collect();
    let squares: Vec<i64> = transform(&has_word).iter().map(|sum| sum * sum).collect();
    let size = table.len() as i64;
    let divided = |sum: i64| {
        assert_eq!(sum % size, 0, "every division is exact");
        sum / size
    };
    transform(&squares).into_iter().map(divided).collect()
}

/// R at every t: the sum over all words, word 0 included. A point without an output
/// belongs to no word.
fn of_table(table: &[u16]) -> Vec<i64> {
    let mut words: BTreeSet<u16> = table.iter().copied().collect();
    words.remove(&NO_OUTPUT);
    let mut values = vec![0; table.len()];
    for word in words {
        for (value, added) in values.iter_mut().zip(of_word(table, word)) {
            *value += added;
        }
    }
    values
}

/// R at 0, 1, .. 2^n - 1 into `values`. The first 2^n entries of `working` end at 0;
/// this form needs no other room than its own, so that is all it does with them.
pub fn table_spectrum(
    n: usize,
    k: usize,
    block_type: usize,
    table: &[u16],
    values: &mut [u32],
    working: &mut [i32],
) -> Answer<()> {
    let room = [values.len(), working.len()];
    if let Err(refusal) = check_spectrum(n, k, block_type, table, room) {
        return Err(refusal).into();
    }
    for (value, r) in values.iter_mut().zip(of_table(table)) {
        *value = r as u32;
    }
    working[..1 << n].fill(0);
    Ok(()).into()
}

/// The refusals of the spectrum; `room` is that of the values and the working room.
pub(crate) fn check_spectrum(
    n: usize,
    k: usize,
    block_type: usize,
    table: &[u16],
    room: [usize; 2],
) -> Result<(), Refusal> {
    checks::inputs(n, TABLE_INPUTS)?;
    checks::outputs(k)?;
    checks::block_type(block_type)?;
    checks::length(table.len(), 1 << n)?;
    checks::room(room[0], 1 << n)?;
    checks::room(room[1], 1 << n)?;
    checks::entries(k, block_type, table)
}
