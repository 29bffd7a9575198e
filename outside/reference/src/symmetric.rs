//! Symmetric blocks: those whose entry depends on the number of one-bits alone (02,
//! Ticket 6). One is made from a word for each number, with the smaller table that the
//! fixed columns of document 002 give, and a table is asked whether it is one. Not
//! here: the measure, which is in [`crate::table`].

use crate::table::measure;
use crate::{checks, matrix, Answer, Measures, Refusal, TABLE_INPUTS};

/// The columns of T, the Gray encoding of document 002: 1, 3, 6, 12, 24, ..
pub fn columns(n: usize) -> Vec<u32> {
    let column = |j: usize| if j == 0 { 1u32 } else { 3 << (j - 1) };
    (0..n).map(column).collect()
}

/// The table, whose entry x is the word for the number of one-bits of x, and the
/// smaller table, whose entry z is the table's entry T z.
pub fn symmetric_block(
    n: usize,
    k: usize,
    block_type: usize,
    words: &[u16],
    table: &mut [u16],
    smaller: &mut [u16],
) -> Answer<Measures> {
    let room = [table.len(), smaller.len()];
    if let Err(refusal) = check_block(n, k, block_type, words, room) {
        return Err(refusal).into();
    }
    for x in 0..1usize << n {
        table[x] = words[x.count_ones() as usize];
    }
    let columns = columns(n);
    for z in 0..1 << n {
        smaller[z] = table[matrix::times_columns(&columns, z as u32) as usize];
    }
    Ok(Measures {
        before: measure(n, &table[..1 << n]),
        after: measure(n, &smaller[..1 << n]),
    })
    .into()
}

/// The refusals of a symmetric block; `room` is that of the table and of the smaller
/// table.
pub(crate) fn check_block(
    n: usize,
    k: usize,
    block_type: usize,
    words: &[u16],
    room: [usize; 2],
) -> Result<(), Refusal> {
    checks::inputs(n, TABLE_INPUTS)?;
    checks::outputs(k)?;
    checks::block_type(block_type)?;
    checks::length(words.len(), n + 1)?;
    checks::room(room[0], 1 << n)?;
    checks::room(room[1], 1 << n)?;
    checks::entries(k, block_type, words)
}

/// Whether a table is symmetric.
pub fn table_symmetric(n: usize, k: usize, block_type: usize, table: &[u16]) -> Answer<bool> {
    let checked = check_table(n, k, block_type, table);
    checked.map(|()| is_symmetric(table)).into()
}

/// Whether every point has the entry of the first point with as many one-bits. No
/// output is an entry like any other.
fn is_symmetric(table: &[u16]) -> bool {
    let first = |ones| (0..table.len()).find(|y| y.count_ones() == ones);
    (0..table.len()).all(|x| first(x.count_ones()).map(|y| table[y]) == Some(table[x]))
}

/// The refusals of the question whether a table is symmetric.
pub(crate) fn check_table(
    n: usize,
    k: usize,
    block_type: usize,
    table: &[u16],
) -> Result<(), Refusal> {
    checks::inputs(n, TABLE_INPUTS)?;
    checks::outputs(k)?;
    checks::block_type(block_type)?;
    checks::length(table.len(), 1 << n)?;
    checks::entries(k, block_type, table)
}
