//! The operations on full tables: single values, the table method, restoring.

use crate::{checks, matrix, Answer, Measures, Refusal, NO_OUTPUT, TABLE_INPUTS};

/// R(t): the points x where x and x XOR t both have an output and the words are
/// equal (01, The measure).
pub fn count(table: &[u16], t: u32) -> u64 {
    (0..table.len())
        .filter(|&x| {
            let word = table[x];
            let other = table[x ^ t as usize];
            word != NO_OUTPUT && other != NO_OUTPUT && word == other
        })
        .count() as u64
}

/// The measure: the sum of R at 1, 2, 4, .. 2^(n-1) (01, The measure).
pub fn measure(n: usize, table: &[u16]) -> u64 {
    (0..n).map(|i| count(table, 1 << i)).sum()
}

/// A single value of R.
pub fn table_value(n: usize, k: usize, block_type: usize, t: usize, table: &[u16]) -> Answer<u64> {
    let checked = check_value(n, k, block_type, t, table);
    checked.map(|()| count(table, t as u32)).into()
}

/// The refusals of a single value of a table.
fn check_value(
    n: usize,
    k: usize,
    block_type: usize,
    t: usize,
    table: &[u16],
) -> Result<(), Refusal> {
    checks::inputs(n, TABLE_INPUTS)?;
    checks::outputs(k)?;
    checks::block_type(block_type)?;
    checks::shift(t, n)?;
    checks::length(table.len(), 1 << n)?;
    checks::entries(k, block_type, table)
}

/// The table method: T into `columns`, sigma, and the smaller table, whose
/// entry z is the table's entry T z.
pub fn table_method(
    n: usize,
    k: usize,
    block_type: usize,
    w: usize,
    table: &[u16],
    smaller: &mut [u16],
    columns: &mut [u32],
    sigma: &mut [u32],
) -> Answer<Measures> {
    let room = [smaller.len(), columns.len(), sigma.len()];
    if let Err(refusal) = check_method(n, k, block_type, w, table, room) {
        return Err(refusal).into();
    }
    let candidates: Vec<(u32, u64)> = matrix::candidates(n, w)
        .map(|t| (t, count(table, t)))
        .collect();
    let chosen = matrix::basis(n, &candidates);
    for z in 0..1 << n {
        smaller[z] = table[matrix::times_columns(&chosen, z as u32) as usize];
    }
    columns[..n].copy_from_slice(&chosen);
    sigma[..n].copy_from_slice(&matrix::inverse(&chosen));
    Ok(Measures {
        before: measure(n, table),
        after: measure(n, &smaller[..1 << n]),
    })
    .into()
}

/// The refusals of the table method; `room` is that of the smaller table, of T
/// and of sigma.
pub(crate) fn check_method(
    n: usize,
    k: usize,
    block_type: usize,
    w: usize,
    table: &[u16],
    room: [usize; 3],
) -> Result<(), Refusal> {
    checks::inputs(n, TABLE_INPUTS)?;
    checks::outputs(k)?;
    checks::block_type(block_type)?;
    checks::weight_limit(w, n)?;
    checks::length(table.len(), 1 << n)?;
    checks::room(room[0], 1 << n)?;
    checks::room(room[1], n)?;
    checks::room(room[2], n)?;
    checks::entries(k, block_type, table)
}

/// Restoring: entry x of the table is the smaller table's entry sigma x.
pub fn restore(
    n: usize,
    k: usize,
    block_type: usize,
    sigma: &[u32],
    smaller: &[u16],
    table: &mut [u16],
) -> Answer<()> {
    let checked = check_restore(n, k, block_type, sigma, smaller, table.len());
    if let Err(refusal) = checked.and_then(|()| checks::independent(sigma)) {
        return Err(refusal).into();
    }
    for x in 0..1 << n {
        table[x] = smaller[matrix::times_rows(sigma, x as u32) as usize];
    }
    Ok(()).into()
}

/// The refusals of restoring, but for 8.
pub(crate) fn check_restore(
    n: usize,
    k: usize,
    block_type: usize,
    sigma: &[u32],
    smaller: &[u16],
    room: usize,
) -> Result<(), Refusal> {
    checks::inputs(n, TABLE_INPUTS)?;
    checks::outputs(k)?;
    checks::block_type(block_type)?;
    checks::length(sigma.len(), n)?;
    checks::length(smaller.len(), 1 << n)?;
    checks::room(room, 1 << n)?;
    checks::matrix_rows(n, sigma)?;
    checks::entries(k, block_type, smaller)
}
