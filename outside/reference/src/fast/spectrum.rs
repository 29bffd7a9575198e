//! R at every t of a table by the same transforms, in the lent working room (02,
//! Ticket 5). A word's points are 0 or 1, their transform at most 2^n, and the squares
//! sum up to at most 2^2n, so that with 12 inputs no number passes 2^24.

use crate::spectrum::check_spectrum;
use crate::{Answer, NO_OUTPUT};
use std::mem::replace;

/// R at every t of a table, word by word.
pub fn table_spectrum(
    n: usize,
    k: usize,
    block_type: usize,
    table: &[u16],
    values: &mut [u32],
    working: &mut [i32],
) -> Answer<()> {
    let room = [values.len(), working.len()];
    if let Err(refusal) = check_spectrum(n, k, block_type, table, room) {
        return Err(refusal).into();
    }
    let (values, working) = (&mut values[..1 << n], &mut working[..1 << n]);
    values.fill(0);
    let mut done = vec![false; 1 << k];
    for &word in table {
        if word == NO_OUTPUT || replace(&mut done[usize::from(word)], true) {
            continue;
        }
        for (number, &entry) in working.iter_mut().zip(table) {
            *number = i32::from(entry == word);
        }
        transform(working);
        for number in working.iter_mut() {
            *number *= *number;
        }
        transform(working);
        // The sums are 2^n times as much as the word adds, and not below 0.
        for (value, sum) in values.iter_mut().zip(working.iter()) {
            *value += (sum >> n) as u32;
        }
    }
    working.fill(0);
    Ok(()).into()
}

/// The signed Walsh transform in place, of so many numbers as a power of two. The
/// three first steps are taken on eight numbers at a time, which the compiler
/// unrolls: in blocks so short a loop would take longer than the sums.
fn transform(numbers: &mut [i32]) {
    let mut half = 1;
    if numbers.len() >= 8 {
        for eight in numbers.chunks_exact_mut(8) {
            butterflies(eight, 1);
            butterflies(eight, 2);
            butterflies(eight, 4);
        }
        half = 8;
    }
    while half < numbers.len() {
        butterflies(numbers, half);
        half *= 2;
    }
}

/// One step: sum and difference of the numbers that lie so far apart.
#[inline(always)]
fn butterflies(numbers: &mut [i32], half: usize) {
    for block in numbers.chunks_exact_mut(2 * half) {
        let (lower, upper) = block.split_at_mut(half);
        for (a, b) in lower.iter_mut().zip(upper) {
            let [x, y] = [*a, *b];
            *a = x + y;
            *b = x - y;
        }
    }
}
