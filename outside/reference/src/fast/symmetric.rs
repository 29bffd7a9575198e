//! Symmetric blocks by slices of the table (02, Ticket 6). The points from 2^j up to
//! 2^(j+1) fall into slices of 2^(j-1), 2^(j-2), .. 1 points and the last point. A slice
//! has some ones, a 0 and all settings of the inputs below, and the slice just before it
//! has the lowest of these ones and the 0 exchanged: so each repeats the one before it.
//! The last point, with j+1 one-bits, is the first that has so many.

use crate::symmetric::{check_block, check_table};
use crate::{Answer, Measures, NO_OUTPUT};

/// The starts and lengths of the slices that repeat the one before them, lowest first.
fn slices(n: usize) -> impl Iterator<Item = (usize, usize)> {
    (1..n).flat_map(|j| {
        let end = 2usize << j;
        (0..j).rev().map(move |i| (end - (2 << i), 1 << i))
    })
}

/// The table slice by slice, and the smaller table from it.
pub fn symmetric_block(
    n: usize,
    k: usize,
    block_type: usize,
    words: &[u16],
    table: &mut [u16],
    smaller: &mut [u16],
) -> Answer<Measures> {
    let room = [table.len(), smaller.len()];
    if let Err(refusal) = check_block(n, k, block_type, words, room) {
        return Err(refusal).into();
    }
    let (table, smaller) = (&mut table[..1 << n], &mut smaller[..1 << n]);
    for (ones, &word) in words.iter().enumerate() {
        table[(1 << ones) - 1] = word;
    }
    for (start, length) in slices(n) {
        table.copy_within(start - length..start, start);
    }
    for (z, entry) in smaller.iter_mut().enumerate() {
        *entry = table[z ^ z >> 1];
    }
    Ok(measures(words)).into()
}

/// Both measures from the words. R is equal at all numbers with as many one-bits, so
/// that R at 1 and at 3 is enough: the first measure is n times R at 1, and of the
/// columns one is 1 and the others have two one-bits.
fn measures(words: &[u16]) -> Measures {
    let n = words.len() - 1;
    let same = |a: usize, b: usize| u64::from(words[a] == words[b] && words[a] != NO_OUTPUT);
    // Two points that differ in one input have c ones in the others, and one of them
    // has one more.
    let others = binomials(n - 1).into_iter().enumerate();
    let one: u64 = others.map(|(c, points)| 2 * points * same(c, c + 1)).sum();
    // Two that differ in two inputs have c ones in the others; and both of these inputs
    // are 1 in one and 0 in the other point, or each point has a 1.
    let two = |(c, points)| 2 * points * (same(c, c + 2) + same(c + 1, c + 1));
    let two: u64 = match n {
        1 => 0,
        _ => binomials(n - 2).into_iter().enumerate().map(two).sum(),
    };
    let n = n as u64;
    Measures {
        before: n * one,
        after: one + (n - 1) * two,
    }
}

/// How many numbers below 2^n have 0, 1, .. n one-bits.
fn binomials(n: usize) -> Vec<u64> {
    let mut row = vec![1];
    for _ in 0..n {
        row.push(0);
        for c in (1..row.len()).rev() {
            row[c] += row[c - 1];
        }
    }
    row
}

/// Whether a table is symmetric: every slice repeats the one before it.
pub fn table_symmetric(n: usize, k: usize, block_type: usize, table: &[u16]) -> Answer<bool> {
    let repeats = |(start, length)| {
        let (before, rest) = table[start - length..].split_at(length);
        before == &rest[..length]
    };
    let checked = check_table(n, k, block_type, table);
    checked.map(|()| slices(n).all(repeats)).into()
}
