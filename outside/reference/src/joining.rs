//! Joining rows afterwards, in place (02, Ticket 9): the pair is looked for anew from the
//! first row after each join, as 02 says it. No type is asked for: the block is the same
//! at each point under either. And what the program prints of it.

use crate::sheet::print_made;
use crate::{
    checks, write_text, Answer, List, Refusal, Room, Row, JOIN_ROWS, ROW_INPUTS, TEXT_ROOM,
};

/// Joins rows of the list as long as two of them join, and gives the number of rows that
/// are left. These stand at the front; each freed record behind them is all zeros.
pub fn join(n: usize, k: usize, mut list: impl List + Room) -> Answer<usize> {
    let mut rows = list.rows();
    if let Err(refusal) = check_join(n, k, &rows) {
        return Err(refusal).into();
    }
    let given = rows.len();
    while let Some((first, second)) = pair(&rows) {
        rows[first] = joined(&rows[first], &rows[second]);
        rows.remove(second);
    }
    let left = rows.len();
    rows.resize(given, Row::default());
    list.put(&rows);
    Ok(left).into()
}

/// "The pair with the smallest first and then smallest second row."
fn pair(rows: &[Row]) -> Option<(usize, usize)> {
    for first in 0..rows.len() {
        for second in first + 1..rows.len() {
            if rows[first].joins(&rows[second]) {
                return Some((first, second));
            }
        }
    }
    None
}

/// "The joined row": that of two which join, free at the input where they differ.
fn joined(first: &Row, second: &Row) -> Row {
    let differ = first.values ^ second.values;
    Row {
        mask: first.mask & !differ,
        values: first.values & !differ,
        word: first.word,
    }
}

/// What the program prints of the rows of these bytes, joined: row text with the type line
/// where it stood, or the refusal in one line.
pub fn print_joined(input: &[u8]) -> Vec<u8> {
    print_made(input, TEXT_ROOM, |head, _, rows, text| {
        let mut rows = rows.to_vec();
        let joined = join(head.n, head.k, &mut rows[..]);
        if joined.number != 0 {
            return joined;
        }
        let [block_type, type_line] = [head.block_type, head.type_line];
        let left = &rows[..joined.results];
        write_text(head.n, head.k, block_type, type_line, left, text)
    })
}

/// The refusals: no type, and columns that no row drives are not looked for.
pub(crate) fn check_join(n: usize, k: usize, rows: &[Row]) -> Result<(), Refusal> {
    checks::inputs(n, ROW_INPUTS)?;
    checks::outputs(k)?;
    checks::rows_given(rows.len(), JOIN_ROWS)?;
    checks::records(n, k, rows)?;
    checks::disjoint(rows)
}
