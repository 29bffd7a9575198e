//! Why a number was not taken (02, Ticket 7): a fitter's XOR, beside those that the row
//! method takes for T with the same weight limit. The reasons are tried one after the
//! other as 02 names them, and for the last one every set of taken numbers is looked at.
//! No row is moved, so that a list which passes 512 rows has its answer too.

use crate::list::Shifts;
use crate::{checks, matrix, Answer, List, Reason, Refusal, Row, ROWS, ROW_INPUTS};

/// The first reason that holds of t; the numbers taken, step 1 first, go into `taken`.
/// With a refusal there is no reason.
pub fn why_not(
    n: usize,
    k: usize,
    block_type: usize,
    w: usize,
    t: usize,
    rows: impl List,
    taken: &mut [u32; ROW_INPUTS],
) -> Answer<Option<Reason>> {
    let rows = rows.rows();
    if let Err(refusal) = check_why(n, k, block_type, w, t, &rows) {
        return Err(refusal).into();
    }
    let shifts = Shifts::new(n, block_type, &rows);
    let candidates: Vec<(u32, u64)> = matrix::candidates(n, w)
        .map(|t| (t, shifts.at(t)))
        .collect();
    let numbers = matrix::basis(n, &candidates);
    taken[..n].copy_from_slice(&numbers);
    Ok(Some(reason(&shifts, w, &numbers, t as u32))).into()
}

/// "The first of these that holds."
fn reason(shifts: &Shifts, w: usize, taken: &[u32], t: u32) -> Reason {
    if t == 0 {
        return Reason::Zero;
    }
    if t.count_ones() as usize > w {
        return Reason::Over;
    }
    if let Some(index) = taken.iter().position(|&number| number == t) {
        return Reason::Taken { step: index + 1 };
    }
    let sets = sets_before(shifts, taken, t);
    assert_eq!(sets.len(), 1, "there is one such set, and no other");
    Reason::Xor { set: sets[0] }
}

/// Every set of taken numbers, each of which stands before t, with the XOR t.
fn sets_before(shifts: &Shifts, taken: &[u32], t: u32) -> Vec<u32> {
    let place = |t: u32| matrix::place(t, shifts.at(t));
    let own = place(t);
    let stands_before: Vec<bool> = taken.iter().map(|&number| place(number) < own).collect();
    let all_before = |set: u32| (0..taken.len()).all(|i| set >> i & 1 == 0 || stands_before[i]);
    (0..1 << taken.len())
        .filter(|&set| matrix::times_columns(taken, set) == t && all_before(set))
        .collect()
}

/// The refusals: those of single values and of the row method, without 9. No room is
/// short: T fits into `taken` with any n.
pub(crate) fn check_why(
    n: usize,
    k: usize,
    block_type: usize,
    w: usize,
    t: usize,
    rows: &[Row],
) -> Result<(), Refusal> {
    checks::inputs(n, ROW_INPUTS)?;
    checks::outputs(k)?;
    checks::block_type(block_type)?;
    checks::weight_limit(w, n)?;
    checks::shift(t, n)?;
    checks::rows_given(rows.len(), ROWS)?;
    checks::list(n, k, rows)
}
