//! The type of a list or a table: what a missing point means (02, Ticket 2). It
//! is said here, at [`missing`], and nowhere else.

use crate::NO_OUTPUT;

/// The type number of a list that leaves a point under no row open.
pub const FR: usize = 1;

/// The type number of a list whose points under no row have word 0; that of a
/// text without a type line.
pub const FD: usize = 2;

/// The table entry of a point under no row: no output, or word 0.
pub fn missing(block_type: usize) -> u16 {
    if block_type == FR {
        NO_OUTPUT
    } else {
        0
    }
}
