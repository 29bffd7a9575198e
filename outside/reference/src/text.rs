//! Row text (01, Row text), with its type line (02, Ticket 2): reading and
//! writing. Neither looks for rows that share a point, nor for columns that no row
//! drives.

use crate::{
    checks, Answer, List, Refusal, Room, Row, TextHead, FD, FR, ROWS, ROW_INPUTS, TEXT_ROOM,
};

/// Each type with its line.
const TYPE_LINES: [(usize, &str); 2] = [(FR, ".type fr"), (FD, ".type fd")];

/// Reads row text: the rows into the lent room, and n, k, the type, whether its
/// line stood there, and the number of rows.
pub fn read_text(text: &[u8], mut room: impl Room) -> Answer<TextHead> {
    let outcome = parse(text, room.room()).map(|(head, rows)| {
        room.put(&rows);
        head
    });
    outcome.into()
}

/// The headings and the rows of a text, or its refusal.
fn parse(text: &[u8], room: usize) -> Result<(TextHead, Vec<Row>), Refusal> {
    let mut lines = Lines::new(text);
    let n = lines.heading(b".i ")?;
    let k = lines.heading(b".o ")?;
    let told = lines.type_line();
    let count = lines.heading(b".p ")?;
    checks::inputs(n, ROW_INPUTS)?;
    checks::outputs(k)?;
    checks::rows_given(count, ROWS)?;
    checks::room(room, count)?;
    let mut rows = Vec::new();
    for _ in 0..count {
        rows.push(lines.row(n, k)?);
    }
    lines.is(".e")?;
    lines.end()?;
    let head = TextHead {
        n,
        k,
        block_type: told.unwrap_or(FD),
        type_line: usize::from(told.is_some()),
        rows: count,
    };
    Ok((head, rows))
}

/// The lines of a text, one after the other.
pub(crate) struct Lines<'a> {
    /// What follows the lines that were taken.
    rest: &'a [u8],
    /// The number of the line taken last, from 1.
    line: usize,
}

impl<'a> Lines<'a> {
    pub(crate) fn new(text: &'a [u8]) -> Lines<'a> {
        Lines {
            rest: text,
            line: 0,
        }
    }

    /// Refusal 10 at the line taken last.
    pub(crate) fn lacks_form(&self) -> Refusal {
        Refusal::at(10, self.line, 0)
    }

    /// Takes the next line, without its LF. Where the text ends first, the line
    /// that was due lacks form.
    pub(crate) fn take(&mut self) -> Result<&'a [u8], Refusal> {
        self.line += 1;
        let length = self.rest.iter().position(|&byte| byte == b'\n');
        let length = length.ok_or(self.lacks_form())?;
        let line = &self.rest[..length];
        self.rest = &self.rest[length + 1..];
        Ok(line)
    }

    /// Takes a heading: these bytes, then a number.
    fn heading(&mut self, start: &[u8]) -> Result<usize, Refusal> {
        let digits = self.take()?.strip_prefix(start);
        digits.and_then(number).ok_or(self.lacks_form())
    }

    /// Takes a type line, if the next line is one, and gives its type.
    fn type_line(&mut self) -> Option<usize> {
        for (block_type, words) in TYPE_LINES {
            let line = format!("{words}\n");
            if let Some(rest) = self.rest.strip_prefix(line.as_bytes()) {
                self.rest = rest;
                self.line += 1;
                return Some(block_type);
            }
        }
        None
    }

    /// Takes a row.
    fn row(&mut self, n: usize, k: usize) -> Result<Row, Refusal> {
        let line = self.take()?;
        row(line, n, k).ok_or(self.lacks_form())
    }

    /// Takes the line that is due.
    pub(crate) fn is(&mut self, due: &str) -> Result<(), Refusal> {
        if self.take()? != due.as_bytes() {
            return Err(self.lacks_form());
        }
        Ok(())
    }

    /// Nothing may follow the lines that were taken.
    pub(crate) fn end(&mut self) -> Result<(), Refusal> {
        if !self.rest.is_empty() {
            self.line += 1;
            return Err(self.lacks_form());
        }
        Ok(())
    }
}

/// A number of 1 to 3 decimal digits without leading zeros.
fn number(digits: &[u8]) -> Option<usize> {
    let has_form = matches!(digits.len(), 1..=3)
        && digits.iter().all(u8::is_ascii_digit)
        && (digits.len() == 1 || digits[0] != b'0');
    let value = |sum, &digit: &u8| sum * 10 + usize::from(digit - b'0');
    has_form.then(|| digits.iter().fold(0, value))
}

/// A row: n of 0, 1, -, one space, k of 0, 1, the highest bit first.
fn row(line: &[u8], n: usize, k: usize) -> Option<Row> {
    if line.len() != n + 1 + k || line[n] != b' ' {
        return None;
    }
    let mut row = Row::default();
    for symbol in &line[..n] {
        let (fixed, value) = match symbol {
            b'0' => (1, 0),
            b'1' => (1, 1),
            b'-' => (0, 0),
            _ => return None,
        };
        row.mask = row.mask << 1 | fixed;
        row.values = row.values << 1 | value;
    }
    for symbol in &line[n + 1..] {
        let bit = match symbol {
            b'0' => 0,
            b'1' => 1,
            _ => return None,
        };
        row.word = row.word << 1 | bit;
    }
    Some(row)
}

/// Writes row text into the lent bytes, and gives the number of its bytes. The
/// type line stands there unless `type_line` is 0.
pub fn write_text(
    n: usize,
    k: usize,
    block_type: usize,
    type_line: usize,
    rows: impl List,
    text: &mut [u8],
) -> Answer<usize> {
    let rows = rows.rows();
    if let Err(refusal) = check_write(n, k, block_type, type_line, &rows, text.len()) {
        return Err(refusal).into();
    }
    let mut written = format!(".i {n}\n.o {k}\n");
    for (told, words) in TYPE_LINES {
        if type_line != 0 && told == block_type {
            written += &format!("{words}\n");
        }
    }
    written += &format!(".p {}\n", rows.len());
    for row in &rows {
        written += &row_line(n, k, row);
    }
    written += ".e\n";
    text[..written.len()].copy_from_slice(written.as_bytes());
    Ok(written.len()).into()
}

/// The refusals of writing text.
fn check_write(
    n: usize,
    k: usize,
    block_type: usize,
    type_line: usize,
    rows: &[Row],
    room: usize,
) -> Result<(), Refusal> {
    checks::inputs(n, ROW_INPUTS)?;
    checks::outputs(k)?;
    checks::block_type(block_type)?;
    checks::type_told(block_type, type_line)?;
    checks::rows_given(rows.len(), ROWS)?;
    checks::room(room, TEXT_ROOM)?;
    checks::records(n, k, rows)
}

/// A row as a line of text, LF included.
pub(crate) fn row_line(n: usize, k: usize, row: &Row) -> String {
    let mut line = String::with_capacity(n + k + 2);
    for i in (0..n).rev() {
        line.push(match (row.mask >> i & 1, row.values >> i & 1) {
            (0, _) => '-',
            (_, 0) => '0',
            _ => '1',
        });
    }
    line.push(' ');
    push_bits(&mut line, k, row.word);
    line.push('\n');
    line
}

/// Writes a number as this many bits, the highest first.
pub(crate) fn push_bits(line: &mut String, bits: usize, number: u32) {
    for i in (0..bits).rev() {
        line.push(if number >> i & 1 == 1 { '1' } else { '0' });
    }
}
