//! The sheet and what the program prints (01, The sheet).

use crate::list::{check_method, find, Find, Found};
use crate::text::{push_bits, row_line};
use crate::{checks, read_text, Answer, List, Row, TextHead, PROGRAM_READS, ROWS, SHEET_ROOM};

/// Makes the sheet in the lent bytes, and gives the number of its bytes.
pub fn sheet(
    n: usize,
    k: usize,
    block_type: usize,
    w: usize,
    rows: impl List,
    bytes: &mut [u8],
) -> Answer<usize> {
    answer_sheet(n, k, block_type, w, rows, bytes, find)
}

/// The sheet with this way to find the row method's results.
pub(crate) fn answer_sheet(
    n: usize,
    k: usize,
    block_type: usize,
    w: usize,
    rows: impl List,
    bytes: &mut [u8],
    find: Find,
) -> Answer<usize> {
    let rows = rows.rows();
    let room = || checks::room(bytes.len(), SHEET_ROOM);
    let checked = check_method(n, k, block_type, w, &rows, room);
    let outcome = checked.and_then(|()| find(n, block_type, w, &rows));
    let outcome = outcome.map(|found| {
        let sheet = compose(n, k, w, &found);
        bytes[..sheet.len()].copy_from_slice(sheet.as_bytes());
        sheet.len()
    });
    outcome.into()
}

/// The sheet's text: its sections in order, each after its count.
fn compose(n: usize, k: usize, w: usize, found: &Found) -> String {
    let mut sheet = String::from("sheet 1\n");
    sheet += &format!("size 3\n{n}\n{k}\n{w}\n");
    sheet += &format!("measure 2\n{}\n{}\n", found.before, found.after);
    for (name, numbers) in [("basis", &found.columns), ("sigma", &found.sigma)] {
        sheet += &format!("{name} {n}\n");
        for &number in numbers {
            push_bits(&mut sheet, n, number);
            sheet.push('\n');
        }
    }
    sheet += &format!("table {}\n", found.rows.len());
    for row in &found.rows {
        sheet += &row_line(n, k, row);
    }
    sheet
}

/// What the program prints for these bytes on standard input: the sheet with
/// weight limit 3, or n where n is below 3, or the refusal in one line.
pub fn program(input: &[u8]) -> Vec<u8> {
    print(input, find)
}

/// What the program prints, with this way to find the row method's results.
pub(crate) fn print(input: &[u8], find: Find) -> Vec<u8> {
    print_made(input, SHEET_ROOM, |head, w, rows, bytes| {
        answer_sheet(head.n, head.k, head.block_type, w, rows, bytes, find)
    })
}

/// What is printed for these bytes where `make` writes it, from what the text tells,
/// the weight limit and the rows, into so much room: that, or the refusal in one
/// line.
pub(crate) fn print_made(
    input: &[u8],
    room: usize,
    make: impl FnOnce(TextHead, usize, &[Row], &mut [u8]) -> Answer<usize>,
) -> Vec<u8> {
    let text = &input[..input.len().min(PROGRAM_READS)];
    let mut rows = [Row::default(); ROWS];
    let read = read_text(text, &mut rows[..]);
    if read.number != 0 {
        return refused(read.number, read.a, read.b);
    }
    let head = read.results;
    let mut bytes = vec![0; room];
    let made = make(head, head.n.min(3), &rows[..head.rows], &mut bytes);
    if made.number != 0 {
        return refused(made.number, made.a, made.b);
    }
    bytes.truncate(made.results);
    bytes
}

/// The line that a refusal prints.
fn refused(number: u32, a: u32, b: u32) -> Vec<u8> {
    format!("refused {number} {a} {b}\n").into_bytes()
}
