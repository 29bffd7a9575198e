//! Why a number was not taken.

use crate::{raw, Refusal, Row, MOST_LIST_INPUTS};
use std::fmt;

/// A number of T, and the step, counted from 1, that took it.
#[derive(Clone, Copy, Debug, PartialEq, Eq, Hash)]
pub struct Taken {
    pub step: usize,
    pub number: u32,
}

/// Why a number t was not taken.
#[derive(Clone, Debug, PartialEq, Eq, Hash)]
pub enum Reason {
    /// t is 0.
    Zero,
    /// t has more one-bits than the weight limit.
    Over,
    /// t was taken, at this step, counted from 1.
    Taken { step: usize },
    /// t is the XOR of these numbers, in the order in which they were taken. Each of them
    /// stands before t, and no other set of taken numbers has that XOR.
    Xor { of: Vec<Taken> },
}

impl fmt::Display for Reason {
    fn fmt(&self, out: &mut fmt::Formatter<'_>) -> fmt::Result {
        match self {
            Reason::Zero => write!(out, "t is 0"),
            Reason::Over => write!(out, "t has more one-bits than the weight limit"),
            Reason::Taken { step } => write!(out, "t was taken at step {step}"),
            Reason::Xor { of } => {
                write!(out, "t is the XOR of ")?;
                for (before, Taken { step, number }) in of.iter().enumerate() {
                    let joint = match before {
                        0 => "",
                        _ if before + 1 == of.len() => " and ",
                        _ => ", ",
                    };
                    write!(out, "{joint}{number} (step {step})")?;
                }
                write!(out, ", each of which stands before t")
            }
        }
    }
}

/// The reason, and the numbers that were taken: T by its columns, that of step 1 first.
#[derive(Clone, Debug, PartialEq, Eq, Hash)]
pub struct Why {
    pub reason: Reason,
    pub taken: Vec<u32>,
}

/// Why t was not taken for the T of a list of 1 to 128 rows, with weight limit w: the
/// first [`Reason`] that holds. Numbers stand in the order of greater R, at equal R of
/// fewer one-bits, then of the smaller number. No row is moved, so that a list which
/// [`row_method`](crate::row_method) refuses with 9 has its answer here. Refuses with 1, 2,
/// 3 (the type, w, t), 4, 6, 7 and 11.
///
/// ```
/// use irwystl::{why_not, Reason, Refusal, Row, Taken, FR};
/// // 00- and 11- have word 1, 01- and 10- word 2: x0 tells nothing, nor do both of the
/// // others flipped together
/// let row = |(values, word)| Row { mask: 6, values, word };
/// let rows = [(0, 1), (6, 1), (2, 2), (4, 2)].map(row);
/// let why = why_not(3, 2, FR, 3, 0b111, &rows)?;
/// assert_eq!(why.taken, [0b001, 0b110, 0b010]);
/// let of = vec![Taken { step: 1, number: 0b001 }, Taken { step: 2, number: 0b110 }];
/// assert_eq!(why.reason, Reason::Xor { of });
/// let said = "t is the XOR of 1 (step 1) and 6 (step 2), each of which stands before t";
/// assert_eq!(why.reason.to_string(), said);
///
/// let reason = |w, t| why_not(3, 2, FR, w, t, &rows).map(|why| why.reason);
/// assert_eq!(reason(3, 0b110), Ok(Reason::Taken { step: 2 }));
/// assert_eq!(reason(1, 0b110), Ok(Reason::Over));
/// assert_eq!(reason(3, 0), Ok(Reason::Zero));
/// assert_eq!(reason(3, 8), Err(Refusal::Limit));
/// # Ok::<(), irwystl::Refusal>(())
/// ```
pub fn why_not(
    n: usize,
    k: usize,
    block_type: usize,
    w: usize,
    t: usize,
    rows: &[Row],
) -> Result<Why, Refusal> {
    let mut taken = [0; MOST_LIST_INPUTS];
    unsafe {
        raw::irwystl_records_why_not(
            n,
            k,
            block_type,
            w,
            t,
            rows.as_ptr(),
            rows.len(),
            taken.as_mut_ptr(),
        )
    }
    .result(n, &taken)
}
