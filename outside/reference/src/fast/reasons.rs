//! Why a number was not taken, by elimination (02, Ticket 7). The taken numbers are
//! independent and there are n of them, so that every number is the XOR of one set of
//! them, and of no other. R is not looked at again: t was a candidate at each step up to
//! the last one of its set, so that whatever was taken there stands before it.

use super::{basis, shifts};
use crate::matrix::highest;
use crate::reasons::check_why;
use crate::{Answer, List, Reason, ROW_INPUTS};

/// The first reason that holds of t; the numbers taken go into `taken`.
pub fn why_not(
    n: usize,
    k: usize,
    block_type: usize,
    w: usize,
    t: usize,
    rows: impl List,
    taken: &mut [u32; ROW_INPUTS],
) -> Answer<Option<Reason>> {
    let rows = rows.rows();
    if let Err(refusal) = check_why(n, k, block_type, w, t, &rows) {
        return Err(refusal).into();
    }
    let taken = &mut taken[..n];
    let chosen = basis(n, &shifts(n, block_type, w, &rows));
    for (number, (t, _)) in taken.iter_mut().zip(chosen) {
        *number = t;
    }
    Ok(Some(reason(w, taken, t as u32))).into()
}

fn reason(w: usize, taken: &[u32], t: u32) -> Reason {
    if t == 0 {
        Reason::Zero
    } else if t.count_ones() as usize > w {
        Reason::Over
    } else if let Some(index) = taken.iter().position(|&number| number == t) {
        Reason::Taken { step: index + 1 }
    } else {
        let set = set_of(taken, t);
        Reason::Xor { set }
    }
}

/// The set of these numbers whose XOR is t; there is one.
fn set_of(numbers: &[u32], t: u32) -> u32 {
    // At each position the number in echelon form whose highest one-bit it is, or 0, and
    // the set whose XOR that is.
    let mut leading = [(0, 0); 32];
    let rest = |leading: &[(u32, u32); 32], mut x: u32, mut set: u32| {
        while x != 0 {
            let (number, more) = leading[highest(x)];
            if number == 0 {
                break;
            }
            x ^= number;
            set ^= more;
        }
        (x, set)
    };
    for (i, &number) in numbers.iter().enumerate() {
        let (left, set) = rest(&leading, number, 1 << i);
        leading[highest(left)] = (left, set);
    }
    let (_, set) = rest(&leading, t, 0);
    set
}
