//! Lists that overlap on purpose (02, Ticket 10), made disjoint: the whole space is halved
//! again and again, as 02 says it. A region is a row whose word says nothing. The disjoint
//! list is of type fd, and no type is asked for: "a point's word is then the OR of all rows
//! over it". And what the program prints of it.

use crate::sheet::print_made;
use crate::{checks, write_text, Answer, List, Refusal, Room, Row, FD, FR};
use crate::{ROWS, ROW_INPUTS, TEXT_ROOM};

/// Makes the disjoint list in the lent room, and gives the number of its rows.
pub fn disjoin(n: usize, k: usize, rows: impl List, mut disjoint: impl Room) -> Answer<usize> {
    let rows = rows.rows();
    if let Err(refusal) = check_disjoin(n, k, &rows, disjoint.room()) {
        return Err(refusal).into();
    }
    let whole_space = Row::default();
    let made = region_rows(n, &rows, whole_space);
    if made.len() > ROWS {
        return Err(Refusal::plain(14)).into();
    }
    disjoint.put(&made);
    Ok(made.len()).into()
}

/// The rows that a region gives, in their order.
fn region_rows(n: usize, rows: &[Row], region: Row) -> Vec<Row> {
    let meeting: Vec<&Row> = rows.iter().filter(|row| row.meets(&region)).collect();
    // "A region that no row meets gives nothing."
    if meeting.is_empty() {
        return Vec::new();
    }
    // "One that lies inside every row meeting it gives one row with their OR."
    if meeting.iter().all(|row| lies_inside(&region, row)) {
        let word = meeting.iter().fold(0, |word, row| word | row.word);
        return vec![Row { word, ..region }];
    }
    // "Any other is halved at its highest free input that is fixed in some row meeting it,
    // 0 half first."
    let fixes = |row: &Row, input: usize| row.mask >> input & 1 == 1;
    let is_cut =
        |&input: &usize| !fixes(&region, input) && meeting.iter().any(|row| fixes(row, input));
    let input = (0..n).rev().find(is_cut);
    let input = input.expect("a row that it does not lie inside fixes a free input");
    let halves = [0, 1].map(|value| half(&region, input, value));
    halves.map(|half| region_rows(n, rows, half)).concat()
}

/// Each point of the region, which shares one with the row, lies under it: the region fixes
/// what the row fixes.
fn lies_inside(region: &Row, row: &Row) -> bool {
    row.mask & !region.mask == 0
}

/// The half of a region where the input has this value.
fn half(region: &Row, input: usize, value: u32) -> Row {
    Row {
        mask: region.mask | 1 << input,
        values: region.values | value << input,
        word: 0,
    }
}

/// What the program prints of the rows of these bytes, made disjoint: row text with the line
/// ".type fd", or the refusal in one line.
pub fn print_disjoint(input: &[u8]) -> Vec<u8> {
    print_by(input, |n, k, rows, room| disjoin(n, k, rows, room))
}

/// What it prints, with this way to make a list disjoint. A text of type fr is refused: the
/// list that comes out is of type fd, and so would have words where the text has none.
pub(crate) fn print_by(
    input: &[u8],
    disjoin: impl FnOnce(usize, usize, &[Row], &mut [Row]) -> Answer<usize>,
) -> Vec<u8> {
    print_made(input, TEXT_ROOM, |head, _, rows, text| {
        if head.block_type == FR {
            return Err(Refusal::plain(3)).into();
        }
        let mut disjoint = [Row::default(); ROWS];
        let got = disjoin(head.n, head.k, rows, &mut disjoint);
        if got.number != 0 {
            return got;
        }
        write_text(head.n, head.k, FD, 1, &disjoint[..got.results], text)
    })
}

/// The refusals before 14: no type, and neither points that rows share nor columns that no
/// row drives are looked for.
pub(crate) fn check_disjoin(n: usize, k: usize, rows: &[Row], room: usize) -> Result<(), Refusal> {
    checks::inputs(n, ROW_INPUTS)?;
    checks::outputs(k)?;
    checks::rows_given(rows.len(), ROWS)?;
    checks::room(room, ROWS)?;
    checks::records(n, k, rows)
}
