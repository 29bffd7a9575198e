//! Prints the sheet of the block of the README, whose rows it has as records.

use irwystl::{sheet, Row, FD, SHEET_ROOM};
use std::io::Write;

fn main() -> Result<(), Box<dyn std::error::Error>> {
    let row = |mask, values, word| Row { mask, values, word };
    let rows = [row(6, 0, 1), row(6, 6, 1), row(6, 2, 2), row(6, 4, 2)]; // 00- 01, 11- 01, 01- 10, 10- 10
    let mut out = [0; SHEET_ROOM];
    let count = sheet(3, 2, FD, 3, &rows, &mut out)?;
    Ok(std::io::stdout().write_all(&out[..count])?)
}
