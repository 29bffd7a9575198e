//! The same operations as one would write them for speed, in plain safe Rust:
//! the baseline for timing. Answers and refusals are those of the other
//! modules, and so are the checks, row text and the sheet.
//!
//! The candidates of a small weight limit come from a printed list (02, Ticket 3).
//! R is worked out once for every candidate: over a table by counting each pair
//! of points once, over rows from the list of the cubes of t that pairs of rows
//! of one word add to (document 003, Theorem 1). Where missing points have a word
//! (02, Ticket 2), the points of that word stand in a bitmap, and its pairs are
//! counted there by the one-bits of two copies of it. The steps then look for the
//! greatest R outside the span of the chosen numbers, kept in echelon form. R of a
//! table at every t is asked by its spectrum too, and not counted there (02, Ticket 5);
//! a symmetric block's measures come from its words (02, Ticket 6); why a number was not
//! taken is found by elimination over the chosen ones (02, Ticket 7); the rows that one
//! joins with are looked up (02, Ticket 9); the rows that meet a region are a number's
//! one-bits (02, Ticket 10).

use crate::list::{answer_method, check_fill, check_value, Found};
use crate::matrix::highest;
use crate::table::{check_method, check_restore};
use crate::{
    missing, sheet as texts, Answer, List, Measures, Refusal, Room, Row, Smaller, NO_OUTPUT,
    SMALLER_ROWS,
};
use std::iter::once;

mod disjoining;
mod joining;
mod model;
mod reasons;
mod spectrum;
mod symmetric;

pub use crate::table::table_value;
pub use crate::text::{read_text, write_text};
pub use disjoining::{disjoin, print_disjoint};
pub use joining::{join, print_joined};
pub use model::{model_value, print_model, read_model, write_model};
pub use reasons::why_not;
pub use spectrum::table_spectrum;
pub use symmetric::{symmetric_block, table_symmetric};

/// The numbers below 2^16 with one to three one-bits, smallest first (02,
/// Ticket 3).
static PRINTED: [u32; 696] = printed();

/// The most one-bits of a number in the list.
const PRINTED_LIMIT: usize = 3;

/// The list, made by the compiler.
const fn printed() -> [u32; 696] {
    let mut list = [0; 696];
    let mut count = 0;
    let mut t = 1u32;
    while count < list.len() {
        if t.count_ones() as usize <= PRINTED_LIMIT {
            list[count] = t;
            count += 1;
        }
        t += 1;
    }
    list
}

/// The candidates before any is chosen, smallest first: those of the printed list
/// where that has them all.
pub fn candidates(n: usize, w: usize) -> impl Iterator<Item = u32> {
    let end = 1u32 << n;
    let (listed, others) = if w <= PRINTED_LIMIT {
        (&PRINTED[..PRINTED.partition_point(|&t| t < end)], 0..0)
    } else {
        (&PRINTED[..0], 1..end)
    };
    let numbers = listed.iter().copied().chain(others);
    numbers.filter(move |t| t.count_ones() as usize <= w)
}

/// The span of the numbers put in, in echelon form.
#[derive(Default)]
struct Span {
    /// At each position the number whose highest one-bit it is, or 0.
    leading: [u32; 32],
}

impl Span {
    /// What is left of x after elimination: 0 exactly for numbers in the span.
    fn rest(&self, mut x: u32) -> u32 {
        while x != 0 {
            let number = self.leading[highest(x)];
            if number == 0 {
                break;
            }
            x ^= number;
        }
        x
    }

    /// Puts in a number from outside the span.
    fn put(&mut self, x: u32) {
        let rest = self.rest(x);
        self.leading[highest(rest)] = rest;
    }
}

/// Whether t, a later candidate than the best so far, takes its place: a
/// greater R, or fewer one-bits at equal R.
fn is_before(t: u32, r: u64, best: (u32, u64)) -> bool {
    r > best.1 || r == best.1 && t.count_ones() < best.0.count_ones()
}

/// The n chosen numbers with their R, from the candidates and their R, smallest
/// candidate first.
fn basis(n: usize, candidates: &[(u32, u64)]) -> Vec<(u32, u64)> {
    let mut span = Span::default();
    let mut chosen = Vec::with_capacity(n);
    for _ in 0..n {
        let mut best: Option<(u32, u64)> = None;
        for &(t, r) in candidates {
            if best.map_or(true, |best| is_before(t, r, best)) && span.rest(t) != 0 {
                best = Some((t, r));
            }
        }
        let best = best.expect("unit numbers are candidates");
        span.put(best.0);
        chosen.push(best);
    }
    chosen
}

/// The sum of R at the unit numbers, all of which are candidates.
fn measure(candidates: &[(u32, u64)]) -> u64 {
    let units = candidates.iter().filter(|(t, _)| t.is_power_of_two());
    units.map(|(_, r)| r).sum()
}

/// The rows of the inverse of the matrix with these independent columns, by
/// elimination.
fn inverse(columns: &[u32]) -> Vec<u32> {
    let n = columns.len();
    let mut columns = columns.to_vec();
    let mut inverse: Vec<u32> = (0..n).map(|i| 1 << i).collect();
    for i in 0..n {
        let pivot = (i..n)
            .find(|&j| columns[j] >> i & 1 == 1)
            .expect("the columns are independent");
        columns.swap(i, pivot);
        inverse.swap(i, pivot);
        for j in 0..n {
            if j != i && columns[j] >> i & 1 == 1 {
                columns[j] ^= columns[i];
                inverse[j] ^= inverse[i];
            }
        }
    }
    // Now `inverse` has the inverse by columns.
    (0..n)
        .map(|j| (0..n).fold(0, |row, i| row | (inverse[i] >> j & 1) << i))
        .collect()
}

/// All XORs of the numbers: entry z is that of the numbers at its one-bits.
fn all_sums(numbers: &[u32]) -> Vec<u32> {
    let mut sums = Vec::with_capacity(1 << numbers.len());
    sums.push(0);
    for &number in numbers {
        for i in 0..sums.len() {
            sums.push(sums[i] ^ number);
        }
    }
    sums
}

/// The table method.
pub fn table_method(
    n: usize,
    k: usize,
    block_type: usize,
    w: usize,
    table: &[u16],
    smaller: &mut [u16],
    columns: &mut [u32],
    sigma: &mut [u32],
) -> Answer<Measures> {
    let room = [smaller.len(), columns.len(), sigma.len()];
    if let Err(refusal) = check_method(n, k, block_type, w, table, room) {
        return Err(refusal).into();
    }
    // Points without output get words of their own, equal to no other.
    let words: Vec<u32> = table
        .iter()
        .enumerate()
        .map(|(x, &word)| match word {
            NO_OUTPUT => 65_536 + x as u32,
            _ => u32::from(word),
        })
        .collect();
    let candidates: Vec<(u32, u64)> = candidates(n, w)
        .map(|t| (t, 2 * equal_pairs(&words, t)))
        .collect();
    let chosen = basis(n, &candidates);
    for (column, &(t, _)) in columns.iter_mut().zip(&chosen) {
        *column = t;
    }
    sigma[..n].copy_from_slice(&inverse(&columns[..n]));
    for (entry, x) in smaller.iter_mut().zip(all_sums(&columns[..n])) {
        *entry = table[x as usize];
    }
    Ok(Measures {
        before: measure(&candidates),
        after: chosen.iter().map(|(_, r)| r).sum(),
    })
    .into()
}

/// How many pairs of points x, x XOR t have equal words; t is not 0.
fn equal_pairs(words: &[u32], t: u32) -> u64 {
    let half = 1 << highest(t);
    let low = t as usize - half;
    let mut count = 0;
    for block in words.chunks_exact(2 * half) {
        let (lower, upper) = block.split_at(half);
        for (i, &word) in lower.iter().enumerate() {
            count += u32::from(word == upper[i ^ low]);
        }
    }
    u64::from(count)
}

/// Restoring.
pub fn restore(
    n: usize,
    k: usize,
    block_type: usize,
    sigma: &[u32],
    smaller: &[u16],
    table: &mut [u16],
) -> Answer<()> {
    let checked = check_restore(n, k, block_type, sigma, smaller, table.len());
    if let Err(refusal) = checked.and_then(|()| independent(sigma)) {
        return Err(refusal).into();
    }
    let columns: Vec<u32> = (0..n)
        .map(|i| (0..n).fold(0, |column, j| column | (sigma[j] >> i & 1) << j))
        .collect();
    for (entry, z) in table.iter_mut().zip(all_sums(&columns)) {
        *entry = smaller[z as usize];
    }
    Ok(()).into()
}

/// 8: the least index of a matrix row in the span of those before it.
fn independent(matrix: &[u32]) -> Result<(), Refusal> {
    let mut span = Span::default();
    for (index, &row) in matrix.iter().enumerate() {
        if span.rest(row) == 0 {
            return Err(Refusal::at(8, index, 0));
        }
        span.put(row);
    }
    Ok(())
}

/// Whether missing points have a word.
fn have_word(block_type: usize) -> bool {
    missing(block_type) != NO_OUTPUT
}

/// The rows of other words than missing points have, whose points are called set
/// here: all rows where missing points have no output.
fn set_rows(block_type: usize, rows: &[Row]) -> Vec<Row> {
    let word = u32::from(missing(block_type));
    let set = rows.iter().filter(|row| row.word != word);
    set.copied().collect()
}

/// The number of points of disjoint rows.
fn points(n: usize, rows: &[Row]) -> u64 {
    let covered = rows
        .iter()
        .map(|row| 1 << (n as u32 - row.mask.count_ones()));
    covered.sum()
}

/// 1 for rows of equal words, else 0.
fn equal(p: &Row, q: &Row) -> u32 {
    u32::from(p.word == q.word)
}

/// The cubes of t that pairs of rows add to, by mask, value and weight.
#[derive(Default)]
struct Cubes {
    masks: Vec<u32>,
    values: Vec<u32>,
    weights: Vec<u32>,
}

impl Cubes {
    /// The cubes of all pairs of rows that count, so many times; that of two
    /// different rows counts for each order.
    fn new(n: usize, rows: &[Row], times: impl Fn(&Row, &Row) -> u32) -> Cubes {
        let mut cubes = Cubes::default();
        for (i, p) in rows.iter().enumerate() {
            for (j, q) in rows[i..].iter().enumerate() {
                let times = times(p, q);
                if times == 0 {
                    continue;
                }
                let mask = p.mask & q.mask;
                let free_in_both = n as u32 - (p.mask | q.mask).count_ones();
                cubes.masks.push(mask);
                cubes.values.push(mask & (p.values ^ q.values));
                cubes
                    .weights
                    .push(times << (free_in_both + u32::from(j > 0)));
            }
        }
        cubes
    }

    /// What the pairs add at t. It is at most 2^n so many times as a pair counts,
    /// so it fits in 32 bits.
    fn sum(&self, t: u32) -> u64 {
        let cubes = self.masks.iter().zip(&self.values).zip(&self.weights);
        let sum: u32 = cubes
            .map(|((&mask, &value), &weight)| if t & mask == value { weight } else { 0 })
            .sum();
        u64::from(sum)
    }
}

/// Points as a bitmap, 512 to a part: point x is bit x mod 64 of number
/// x / 64 mod 8 of part x / 512.
struct Points {
    parts: Vec<[u64; 8]>,
}

impl Points {
    /// The points that are not set.
    fn not_set(n: usize, set: &[Row]) -> Points {
        let mut parts = vec![[0; 8]; 1 << n.saturating_sub(9)];
        for number in parts.iter_mut().flatten().take(1 << n.saturating_sub(6)) {
            *number = if n < 6 { (1 << (1 << n)) - 1 } else { u64::MAX };
        }
        for row in set {
            // Its points among 64 by the six lowest inputs, then by the rest.
            let covered = (0..64)
                .filter(|&x| (x ^ row.values) & row.mask & 63 == 0)
                .fold(0u64, |bits, x| bits | 1 << x);
            let [mask, values] = [row.mask >> 6, row.values >> 6];
            let free = !mask & ((1 << n.saturating_sub(6)) - 1);
            let mut rest = free;
            loop {
                let place = (values | rest) as usize;
                parts[place / 8][place % 8] &= !covered;
                if rest == 0 {
                    break;
                }
                rest = (rest - 1) & free;
            }
        }
        Points { parts }
    }

    /// How many of these points x have x XOR t among them, at each t below 2^n
    /// with at most w one-bits.
    fn pairs(&self, n: usize, w: usize) -> Vec<u64> {
        let mut counts = vec![0; 1 << n];
        for low in (0..1usize << n.min(6)).filter(|low| low.count_ones() as usize <= w) {
            let moved = self.moved(low);
            let left = w - low.count_ones() as usize;
            for high in once(0).chain(candidates(n.saturating_sub(6), left)) {
                let high = high as usize;
                counts[high << 6 | low] = self.pairs_with(&moved, high);
            }
        }
        counts
    }

    /// The bitmap with bit x taken at x XOR t, for t below 64: neighbouring groups
    /// of 1, 2, 4, .. bits change places at each one-bit of t.
    fn moved(&self, t: usize) -> Vec<[u64; 8]> {
        const LOWER: [u64; 6] = [
            0x5555_5555_5555_5555,
            0x3333_3333_3333_3333,
            0x0F0F_0F0F_0F0F_0F0F,
            0x00FF_00FF_00FF_00FF,
            0x0000_FFFF_0000_FFFF,
            0x0000_0000_FFFF_FFFF,
        ];
        let mut parts = self.parts.clone();
        for bit in (0..6).filter(|bit| t >> bit & 1 == 1) {
            for number in parts.iter_mut().flatten() {
                let [lower, size] = [LOWER[bit], 1 << bit];
                *number = (*number & lower) << size | *number >> size & lower;
            }
        }
        parts
    }

    /// How many of these points are among those of the other bitmap, its numbers
    /// taken at their place XOR `high`. Where that leads to another part each pair
    /// is looked at once.
    fn pairs_with(&self, moved: &[[u64; 8]], high: usize) -> u64 {
        let [number, part] = [high % 8, high / 8];
        let mut count = Count::default();
        if part == 0 {
            for (these, others) in self.parts.iter().zip(moved) {
                count.add(these, others, number);
            }
            return count.total();
        }
        let half = 1 << highest(part as u32);
        let low = part - half;
        let blocks = self.parts.chunks_exact(2 * half);
        for (block, others) in blocks.zip(moved.chunks_exact(2 * half)) {
            for (i, these) in block[..half].iter().enumerate() {
                count.add(these, &others[half + (i ^ low)], number);
            }
        }
        2 * count.total()
    }
}

/// A number of one-bits, added up eight numbers at a time: of so many at each bit,
/// the ones, twos and fours are kept as bits, and the eights counted.
#[derive(Default)]
struct Count {
    ones: u64,
    twos: u64,
    fours: u64,
    eights: u64,
}

impl Count {
    /// Adds what two parts have in common, the second's numbers taken at their
    /// place XOR `number`, which is below 8.
    fn add(&mut self, these: &[u64; 8], others: &[u64; 8], number: usize) {
        let common = |i: usize| these[i] & others[(i ^ number) % 8];
        let first = carried(&mut self.ones, common(0), common(1));
        let second = carried(&mut self.ones, common(2), common(3));
        let low = carried(&mut self.twos, first, second);
        let first = carried(&mut self.ones, common(4), common(5));
        let second = carried(&mut self.ones, common(6), common(7));
        let high = carried(&mut self.twos, first, second);
        let carry = carried(&mut self.fours, low, high);
        self.eights += u64::from(carry.count_ones());
    }

    fn total(&self) -> u64 {
        let ones = |bits: u64| u64::from(bits.count_ones());
        ones(self.ones) + 2 * ones(self.twos) + 4 * ones(self.fours) + 8 * self.eights
    }
}

/// Adds two numbers to a third at each bit; what is carried is given.
fn carried(sum: &mut u64, a: u64, b: u64) -> u64 {
    let either = a ^ b;
    let carry = a & b | either & *sum;
    *sum ^= either;
    carry
}

/// A single value of R, each pair of different rows looked at once. Where missing
/// points have a word, x and x XOR t both have it for 2^n points x, less those
/// where x is set, less those where x XOR t is, and those where both are were taken
/// away twice: so a pair of set rows counts once more.
pub fn row_value(n: usize, k: usize, block_type: usize, t: usize, rows: impl List) -> Answer<u64> {
    let rows = rows.rows();
    let outcome = check_value(n, k, block_type, t, &rows).map(|()| {
        let set = set_rows(block_type, &rows);
        let more = u32::from(have_word(block_type));
        let mut sum = 0;
        for (i, p) in set.iter().enumerate() {
            for (j, q) in set[i..].iter().enumerate() {
                let times = equal(p, q) + more;
                if times > 0 && (t as u32 ^ p.values ^ q.values) & p.mask & q.mask == 0 {
                    let free_in_both = n as u32 - (p.mask | q.mask).count_ones();
                    sum += u64::from(times << (free_in_both + u32::from(j > 0)));
                }
            }
        }
        match more {
            0 => sum,
            _ => sum + (1 << n) - 2 * points(n, &set),
        }
    });
    outcome.into()
}

/// The row method.
pub fn row_method(
    n: usize,
    k: usize,
    block_type: usize,
    w: usize,
    rows: impl List,
    smaller: impl Room,
    columns: &mut [u32],
    sigma: &mut [u32],
) -> Answer<Smaller> {
    answer_method(n, k, block_type, w, rows, smaller, [columns, sigma], find)
}

/// R of a list at every candidate, smallest candidate first. Where missing points
/// have a word, the pairs of points that are not set are worked out from pairs of
/// set rows, as for a single value, where these are few; else they are counted.
fn shifts(n: usize, block_type: usize, w: usize, rows: &[Row]) -> Vec<(u32, u64)> {
    let candidates = candidates(n, w);
    let set = set_rows(block_type, rows);
    let covered = points(n, &set);
    if !have_word(block_type) {
        let cubes = Cubes::new(n, &set, equal);
        return candidates.map(|t| (t, cubes.sum(t))).collect();
    }
    if 10 * set.len() * set.len() < 1 << n {
        let cubes = Cubes::new(n, &set, |p, q| equal(p, q) + 1);
        let shift = |t| cubes.sum(t) + (1 << n) - 2 * covered;
        return candidates.map(|t| (t, shift(t))).collect();
    }
    let pairs = Points::not_set(n, &set).pairs(n, w);
    if set.windows(2).all(|rows| rows[0].word == rows[1].word) {
        // The set points have one word too, so that all their pairs count.
        let shift = |t| 2 * (pairs[t as usize] + covered) - (1 << n);
        return candidates.map(|t| (t, shift(t))).collect();
    }
    let cubes = Cubes::new(n, &set, equal);
    let shift = |t| cubes.sum(t) + pairs[t as usize];
    candidates.map(|t| (t, shift(t))).collect()
}

/// The row method on a list that was checked.
fn find(n: usize, block_type: usize, w: usize, rows: &[Row]) -> Result<Found, Refusal> {
    let candidates = shifts(n, block_type, w, rows);
    let chosen = basis(n, &candidates);
    let columns: Vec<u32> = chosen.iter().map(|&(t, _)| t).collect();
    Ok(Found {
        before: measure(&candidates),
        after: chosen.iter().map(|(_, r)| r).sum(),
        sigma: inverse(&columns),
        rows: transformed(rows, &columns)?,
        columns,
    })
}

/// The smaller rows, or refusal 9. The chosen numbers are carried along, so
/// that each is at hand in the coordinates reached.
fn transformed(rows: &[Row], columns: &[u32]) -> Result<Vec<Row>, Refusal> {
    let mut reached = columns.to_vec();
    let mut rows = rows.to_vec();
    let mut next = Vec::with_capacity(2 * SMALLER_ROWS);
    for position in 0..columns.len() {
        let bit = 1 << position;
        if reached[position] & bit == 0 {
            let partner = highest(reached[position]);
            let exchange = |x: &mut u32| {
                let differ = (*x >> position ^ *x >> partner) & 1;
                *x ^= differ << position | differ << partner;
            };
            reached[position..].iter_mut().for_each(exchange);
            for row in &mut rows {
                exchange(&mut row.mask);
                exchange(&mut row.values);
            }
        }
        let v = reached[position] & !bit;
        for number in &mut reached[position..] {
            if *number & bit != 0 {
                *number ^= v;
            }
        }
        next.clear();
        for row in &rows {
            let flips = v & row.mask;
            if row.mask & bit != 0 {
                let flips = if row.values & bit != 0 { flips } else { 0 };
                next.push(Row {
                    values: row.values ^ flips,
                    ..*row
                });
            } else if flips != 0 {
                let mask = row.mask | bit;
                next.push(Row { mask, ..*row });
                next.push(Row {
                    mask,
                    values: (row.values | bit) ^ flips,
                    ..*row
                });
            } else {
                next.push(*row);
            }
        }
        if next.len() > SMALLER_ROWS {
            return Err(Refusal::at(9, position + 1, 0));
        }
        std::mem::swap(&mut rows, &mut next);
    }
    Ok(rows)
}

/// Filling, row by row over the points that each covers.
pub fn fill(
    n: usize,
    k: usize,
    block_type: usize,
    rows: impl List,
    table: &mut [u16],
) -> Answer<()> {
    let rows = rows.rows();
    if let Err(refusal) = check_fill(n, k, block_type, &rows, table.len()) {
        return Err(refusal).into();
    }
    let table = &mut table[..1 << n];
    table.fill(missing(block_type));
    for row in &rows {
        let free = !row.mask & ((1 << n) - 1);
        let mut part = free;
        loop {
            table[(row.values | part) as usize] = row.word as u16;
            if part == 0 {
                break;
            }
            part = (part - 1) & free;
        }
    }
    Ok(()).into()
}

/// The sheet.
pub fn sheet(
    n: usize,
    k: usize,
    block_type: usize,
    w: usize,
    rows: impl List,
    bytes: &mut [u8],
) -> Answer<usize> {
    texts::answer_sheet(n, k, block_type, w, rows, bytes, find)
}

/// What the program prints.
pub fn program(input: &[u8]) -> Vec<u8> {
    texts::print(input, find)
}
