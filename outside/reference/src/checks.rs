//! The refusals 1 to 8 and 11 (01, Numbers that come back; 02), one function each. An
//! operation calls them in the order of the numbers, but for 11, which comes after 7.
//! Not here: 9, which the row method finds at its steps, 10, which the reader of text
//! finds, and 14, which a disjoint list finds at its end.

use crate::model::Pattern;
use crate::{missing, Refusal, Row, FD, FR, OUTPUTS};

type Check = Result<(), Refusal>;

/// Refuses with this number unless the condition holds.
fn demand(holds: bool, number: u32) -> Check {
    if holds {
        Ok(())
    } else {
        Err(Refusal::plain(number))
    }
}

/// 1: n outside 1 to `most`.
pub fn inputs(n: usize, most: usize) -> Check {
    demand((1..=most).contains(&n), 1)
}

/// 2: k outside 1 to 15.
pub fn outputs(k: usize) -> Check {
    demand((1..=OUTPUTS).contains(&k), 2)
}

/// 3: another type number than those of fr and fd.
pub fn block_type(block_type: usize) -> Check {
    demand(block_type == FR || block_type == FD, 3)
}

/// 3: a type for the writer that the text would not tell: fr with no line.
pub fn type_told(block_type: usize, type_line: usize) -> Check {
    demand(block_type != FR || type_line != 0, 3)
}

/// 3: w outside 1 to n.
pub fn weight_limit(w: usize, n: usize) -> Check {
    demand((1..=n).contains(&w), 3)
}

/// 3: an asked t, or a model's x, not below 2^n.
pub fn shift(t: usize, n: usize) -> Check {
    demand(t < 1 << n, 3)
}

/// 4: rows outside 1 to `most`.
pub fn rows_given(count: usize, most: usize) -> Check {
    demand((1..=most).contains(&count), 4)
}

/// 4: a table, a matrix or the words of a symmetric block, where there are not as
/// many as are due.
pub fn length(given: usize, due: usize) -> Check {
    demand(given == due, 4)
}

/// 5: lent result room short of what is due.
pub fn room(lent: usize, due: usize) -> Check {
    demand(lent >= due, 5)
}

/// 6: the least index of a malformed record.
pub fn records(n: usize, k: usize, rows: &[Row]) -> Check {
    let malformed = |row: &Row| {
        row.mask >= 1 << n
            || row.values >= 1 << n
            || row.word >= 1 << k
            || row.values & !row.mask != 0
    };
    match rows.iter().position(malformed) {
        Some(index) => Err(Refusal::at(6, 0, index)),
        None => Ok(()),
    }
}

/// 6: the least index of a table entry, or of a word of a symmetric block, neither
/// below 2^k nor that of a missing point, so that 65,535 is malformed under fd.
pub fn entries(k: usize, block_type: usize, table: &[u16]) -> Check {
    let malformed = |&entry: &u16| entry != missing(block_type) && entry >= 1 << k;
    match table.iter().position(malformed) {
        Some(index) => Err(Refusal::at(6, 0, index)),
        None => Ok(()),
    }
}

/// 6: the least index of a matrix row not below 2^n.
pub fn matrix_rows(n: usize, matrix: &[u32]) -> Check {
    match matrix.iter().position(|&row| row >= 1 << n) {
        Some(index) => Err(Refusal::at(6, 1, index)),
        None => Ok(()),
    }
}

/// 6: the least index of a malformed pattern.
pub fn patterns(n: usize, patterns: &[Pattern]) -> Check {
    let malformed = |pattern: &Pattern| {
        let Pattern { mask, values } = *pattern;
        mask >= 1 << n || values >= 1 << n || values & !mask != 0
    };
    match patterns.iter().position(malformed) {
        Some(index) => Err(Refusal::at(6, 0, index)),
        None => Ok(()),
    }
}

/// 7: two rows that share a point: smallest first, then smallest second.
pub fn disjoint(rows: &[Row]) -> Check {
    for first in 0..rows.len() {
        for second in first + 1..rows.len() {
            if rows[first].meets(&rows[second]) {
                return Err(Refusal::at(7, first, second));
            }
        }
    }
    Ok(())
}

/// 11: the lowest output bit whose column is 0 in every row (02, Ticket 8).
pub fn driven(k: usize, rows: &[Row]) -> Check {
    let is_zero = |bit: &usize| rows.iter().all(|row| row.word >> bit & 1 == 0);
    match (0..k).find(is_zero) {
        Some(bit) => Err(Refusal::at(11, bit, 0)),
        None => Ok(()),
    }
}

/// 6, 7 and 11: what every operation that works on a list asks of its rows. Reading and
/// writing row text don't look for 7, nor for 11.
pub fn list(n: usize, k: usize, rows: &[Row]) -> Check {
    records(n, k, rows)?;
    disjoint(rows)?;
    driven(k, rows)
}

/// 8: the least index of a matrix row that is the XOR of some set of earlier
/// rows. All those XORs are listed; the empty set's is 0.
pub fn independent(matrix: &[u32]) -> Check {
    let mut sums = vec![0];
    for (index, &row) in matrix.iter().enumerate() {
        if sums.contains(&row) {
            return Err(Refusal::at(8, index, 0));
        }
        for i in 0..sums.len() {
            sums.push(sums[i] ^ row);
        }
    }
    Ok(())
}
