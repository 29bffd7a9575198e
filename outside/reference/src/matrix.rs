//! The basis and the matrix (01, The basis and the matrix). T is given by its
//! columns, sigma by its rows, lowest index first.

use std::cmp::Reverse;

/// The position of the highest one-bit of a number that is not 0.
pub(crate) fn highest(number: u32) -> usize {
    31 - number.leading_zeros() as usize
}

/// The candidates before any is chosen: the numbers from 1 to 2^n - 1 with 1
/// to w one-bits, smallest first.
pub fn candidates(n: usize, w: usize) -> impl Iterator<Item = u32> {
    (1..1u32 << n).filter(move |t| t.count_ones() as usize <= w)
}

/// Where a number with this R stands: the one with the smaller place stands before
/// another. It goes by greater R; among numbers with equal R by fewer one-bits, then by
/// the smaller number (02, Ticket 1).
pub fn place(t: u32, r: u64) -> (Reverse<u64>, u32, u32) {
    (Reverse(r), t.count_ones(), t)
}

/// The numbers chosen in n steps, from the candidates with their R: at each step the
/// one that stands first among those that are not an XOR of some set of the chosen.
pub fn basis(n: usize, candidates: &[(u32, u64)]) -> Vec<u32> {
    let mut chosen = Vec::new();
    // Every XOR of some set of the chosen numbers.
    let mut sums = vec![0u32];
    let mut is_sum = vec![false; 1 << n];
    is_sum[0] = true;
    for _ in 0..n {
        let left = candidates.iter().filter(|(t, _)| !is_sum[*t as usize]);
        let first = left.min_by_key(|&&(t, r)| place(t, r));
        let &(t, _) = first.expect("unit numbers are candidates");
        chosen.push(t);
        for i in 0..sums.len() {
            let sum = sums[i] ^ t;
            sums.push(sum);
            is_sum[sum as usize] = true;
        }
    }
    chosen
}

/// T z: the XOR of the columns at the one-bits of z.
pub fn times_columns(columns: &[u32], z: u32) -> u32 {
    (0..columns.len())
        .filter(|i| z >> i & 1 == 1)
        .fold(0, |sum, i| sum ^ columns[i])
}

/// Sigma x: bit j is the parity of (row j AND x).
pub fn times_rows(rows: &[u32], x: u32) -> u32 {
    (0..rows.len()).fold(0, |z, j| z | parity(rows[j] & x) << j)
}

/// 1 where the number of one-bits is odd, else 0.
pub fn parity(x: u32) -> u32 {
    x.count_ones() & 1
}

/// Sigma, the inverse of T: row j is the one number whose parity is 1 with
/// column j and 0 with every other. It is found by trying all numbers.
pub fn inverse(columns: &[u32]) -> Vec<u32> {
    let n = columns.len();
    let is_row = |j: usize, row: u32| (0..n).all(|i| parity(row & columns[i]) == u32::from(i == j));
    (0..n)
        .map(|j| {
            (0..1u32 << n)
                .find(|&row| is_row(j, row))
                .expect("the columns are independent")
        })
        .collect()
}
