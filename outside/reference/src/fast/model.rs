//! Models in BLIF as one would write them for speed: the length of a model is known
//! from the one-bits of the words, so that it is written once, into the room itself,
//! each pattern's line made once and copied to the outputs that have it; a text is
//! read byte by byte, with no line taken twice.

use super::{find, independent};
use crate::list::{check_method, Found};
use crate::matrix::parity;
use crate::model::{check_read, check_value, patterns_of};
use crate::sheet::print_made;
use crate::{checks, Answer, List, ModelHead, Refusal, MODEL_ROOM, OUTPUTS, ROW_INPUTS};

/// The names of the inputs, of the rows of sigma and of the outputs, a space before
/// each: so many names are a front of it.
const INPUTS: &[u8] = b" x0 x1 x2 x3 x4 x5 x6 x7 x8 x9 x10 x11 x12 x13 x14 x15";
const SIGMA: &[u8] = b" z0 z1 z2 z3 z4 z5 z6 z7 z8 z9 z10 z11 z12 z13 z14 z15";
const WORDS: &[u8] = b" y0 y1 y2 y3 y4 y5 y6 y7 y8 y9 y10 y11 y12 y13 y14";

/// The bytes of so many names with their spaces: three each, from the eleventh on
/// four.
fn length_of_names(count: usize) -> usize {
    3 * count + count.saturating_sub(10)
}

/// So many of the names.
fn names(all: &[u8], count: usize) -> &[u8] {
    &all[..length_of_names(count)]
}

/// Writing.
pub fn write_model(
    n: usize,
    k: usize,
    block_type: usize,
    w: usize,
    rows: impl List,
    bytes: &mut [u8],
) -> Answer<usize> {
    let rows = rows.rows();
    let checked = check_method(n, k, block_type, w, &rows, || Ok(()));
    let found = checked.and_then(|()| find(n, block_type, w, &rows));
    let outcome = found.and_then(|found| {
        let front = front(n, k, &found.sigma);
        let length = front.len() + length_behind(n, k, &found);
        checks::room(bytes.len(), length)?;
        bytes[..front.len()].copy_from_slice(&front);
        put_outputs(n, k, &found, &mut bytes[front.len()..length]);
        Ok(length)
    });
    outcome.into()
}

/// The model up to the cover of the first output.
fn front(n: usize, k: usize, sigma: &[u32]) -> Vec<u8> {
    let mut text = Vec::with_capacity(16_384);
    text.extend_from_slice(b".model block\n.inputs");
    text.extend_from_slice(names(INPUTS, n));
    text.extend_from_slice(b"\n.outputs");
    text.extend_from_slice(names(WORDS, k));
    text.push(b'\n');
    for (i, &row) in sigma.iter().enumerate() {
        let lowest = row.trailing_zeros() as usize;
        let mut rest = row & (row - 1);
        text.extend_from_slice(b".names x");
        push_number(&mut text, lowest);
        if rest == 0 {
            push_part(&mut text, i, 0);
            text.extend_from_slice(b"\n1 1\n");
            continue;
        }
        let mut part = 0;
        while rest != 0 {
            if part > 0 {
                text.extend_from_slice(b".names");
                push_part(&mut text, i, part);
            }
            text.extend_from_slice(b" x");
            push_number(&mut text, rest.trailing_zeros() as usize);
            rest &= rest - 1;
            part += 1;
            push_part(&mut text, i, if rest == 0 { 0 } else { part });
            text.extend_from_slice(b"\n01 1\n10 1\n");
        }
    }
    text
}

/// A space and the name of a part of row i's chain; 0 stands for the row itself.
fn push_part(text: &mut Vec<u8>, i: usize, part: usize) {
    text.extend_from_slice(b" z");
    push_number(text, i);
    if part > 0 {
        text.push(b'_');
        push_number(text, part);
    }
}

/// A number below 100.
fn push_number(text: &mut Vec<u8>, number: usize) {
    if number >= 10 {
        text.push(b'0' + (number / 10) as u8);
    }
    text.push(b'0' + (number % 10) as u8);
}

/// The bytes from the cover of the first output on.
fn length_behind(n: usize, k: usize, found: &Found) -> usize {
    let heads = k * (b".names\n".len() + length_of_names(n)) + length_of_names(k);
    let lines: u32 = found.rows.iter().map(|row| row.word.count_ones()).sum();
    heads + lines as usize * (n + 3) + b".end\n".len()
}

/// Writes the covers of the outputs and the end into their room.
fn put_outputs(n: usize, k: usize, found: &Found, bytes: &mut [u8]) {
    let length = n + 3;
    let mut lines = vec![0; found.rows.len() * length];
    for (line, row) in lines.chunks_exact_mut(length).zip(&found.rows) {
        for (i, symbol) in line[..n].iter_mut().enumerate() {
            let code = row.mask >> i & 1 | (row.values >> i & 1) << 1;
            *symbol = b"-0-1"[code as usize];
        }
        line[n..].copy_from_slice(b" 1\n");
    }
    let mut at = 0;
    let mut put = |part: &[u8]| {
        bytes[at..at + part.len()].copy_from_slice(part);
        at += part.len();
    };
    for j in 0..k {
        put(b".names");
        put(names(SIGMA, n));
        put(&WORDS[length_of_names(j)..length_of_names(j + 1)]);
        put(b"\n");
        for (line, row) in lines.chunks_exact(length).zip(&found.rows) {
            if row.word >> j & 1 == 1 {
                put(line);
            }
        }
    }
    put(b".end\n");
}

/// Reading.
pub fn read_model(
    text: &[u8],
    matrix: &mut [u32],
    counts: &mut [usize],
    masks: &mut [u32],
    values: &mut [u32],
) -> Answer<ModelHead> {
    let room = [matrix.len(), counts.len(), masks.len().min(values.len())];
    let outcome = read(text).and_then(|found| {
        let head = ModelHead {
            n: found.matrix.len(),
            k: found.counts.len(),
            patterns: found.masks.len(),
        };
        check_read(head, room)?;
        independent(&found.matrix)?;
        matrix[..head.n].copy_from_slice(&found.matrix);
        counts[..head.k].copy_from_slice(&found.counts);
        masks[..head.patterns].copy_from_slice(&found.masks);
        values[..head.patterns].copy_from_slice(&found.values);
        Ok(head)
    });
    outcome.into()
}

/// What a text says.
#[derive(Default)]
struct Read {
    matrix: Vec<u32>,
    counts: Vec<usize>,
    masks: Vec<u32>,
    values: Vec<u32>,
}

/// What is left of a text, and the number of the line that is looked at, from 1.
struct Reader<'a> {
    rest: &'a [u8],
    line: usize,
}

/// What a text of the subset says, or refusal 10.
fn read(text: &[u8]) -> Result<Read, Refusal> {
    let mut reader = Reader {
        rest: text,
        line: 1,
    };
    read_lines(&mut reader).ok_or(Refusal::at(10, reader.line, 0))
}

/// The same, where the reader stands at the line that lacks form if there is none.
fn read_lines(reader: &mut Reader) -> Option<Read> {
    let mut found = Read::default();
    reader.pass_line(b".model block\n")?;
    let n = reader.names(b".inputs", INPUTS, ROW_INPUTS)?;
    let k = reader.names(b".outputs", WORDS, OUTPUTS)?;
    for i in 0..n {
        found.matrix.push(reader.row(n, i)?);
    }
    // No text has more patterns than that.
    let most = reader.rest.len() / (n + 3);
    found.masks.reserve(most);
    found.values.reserve(most);
    reader.output(n, 0)?;
    for j in 0..k {
        let before = found.masks.len();
        while !reader.rest.starts_with(b".") {
            let [mask, values] = reader.pattern(n)?;
            found.masks.push(mask);
            found.values.push(values);
        }
        found.counts.push(found.masks.len() - before);
        if j + 1 < k {
            reader.output(n, j + 1)?;
        }
    }
    reader.pass_line(b".end\n")?;
    reader.rest.is_empty().then_some(found)
}

/// What each byte of a pattern stands for: its value, whether it is fixed (2), and
/// whether it is no symbol at all (4).
static SYMBOLS: [u8; 256] = symbols();

const fn symbols() -> [u8; 256] {
    let mut symbols = [4; 256];
    symbols[b'0' as usize] = 2;
    symbols[b'1' as usize] = 3;
    symbols[b'-' as usize] = 0;
    symbols
}

impl Reader<'_> {
    /// Passes these bytes.
    fn pass(&mut self, due: &[u8]) -> Option<()> {
        self.rest = self.rest.strip_prefix(due)?;
        Some(())
    }

    /// Passes this line.
    fn pass_line(&mut self, due: &[u8]) -> Option<()> {
        self.pass(due)?;
        self.line += 1;
        Some(())
    }

    /// Passes a line of one to so many names.
    fn names(&mut self, start: &[u8], all: &[u8], most: usize) -> Option<usize> {
        let line = self.rest.strip_prefix(start)?;
        let length = line.iter().position(|&byte| byte == b'\n')?;
        let count = (1..=most).find(|&count| length_of_names(count) == length)?;
        if &line[..length] != names(all, count) {
            return None;
        }
        self.rest = &line[length + 1..];
        self.line += 1;
        Some(count)
    }

    /// Passes a number below `end`, without a leading zero.
    fn number(&mut self, end: usize) -> Option<usize> {
        let digit = |i: usize| {
            let byte = self.rest.get(i).filter(|byte| byte.is_ascii_digit())?;
            Some(usize::from(byte - b'0'))
        };
        let first = digit(0)?;
        let (number, length) = match digit(1) {
            Some(second) if first > 0 => (10 * first + second, 2),
            _ => (first, 1),
        };
        self.rest = &self.rest[length..];
        (number < end).then_some(number)
    }

    /// Passes the number that is due.
    fn is_number(&mut self, due: usize) -> Option<()> {
        (self.number(due + 1)? == due).then_some(())
    }

    /// Passes the covers of row i of sigma.
    fn row(&mut self, n: usize, i: usize) -> Option<u32> {
        self.pass(b".names x")?;
        let mut highest = self.number(n)?;
        let mut row = 1 << highest;
        if self.rest.starts_with(b" z") {
            self.pass(b" z")?;
            self.is_number(i)?;
            self.pass_line(b"\n")?;
            self.pass_line(b"1 1\n")?;
            return Some(row);
        }
        for part in 1.. {
            if part > 1 {
                self.pass(b".names z")?;
                self.is_number(i)?;
                self.pass(b"_")?;
                self.is_number(part - 1)?;
            }
            self.pass(b" x")?;
            let input = self.number(n).filter(|&input| input > highest)?;
            row |= 1 << input;
            self.pass(b" z")?;
            self.is_number(i)?;
            let goes_on = self.pass(b"_").is_some();
            if goes_on {
                self.is_number(part)?;
                // a part that ends at the last input can't be carried on
                if input + 1 == n {
                    return None;
                }
            }
            self.pass_line(b"\n")?;
            self.pass_line(b"01 1\n")?;
            self.pass_line(b"10 1\n")?;
            if !goes_on {
                break;
            }
            highest = input;
        }
        Some(row)
    }

    /// Passes the line of output j's cover.
    fn output(&mut self, n: usize, j: usize) -> Option<()> {
        self.pass(b".names")?;
        self.pass(names(SIGMA, n))?;
        self.pass(b" y")?;
        self.is_number(j)?;
        self.pass_line(b"\n")
    }

    /// Passes the line of a pattern: its mask and values.
    fn pattern(&mut self, n: usize) -> Option<[u32; 2]> {
        let [mut mask, mut values, mut all] = [0; 3];
        let line = self.rest.get(..n + 3)?;
        for (i, &byte) in line[..n].iter().enumerate() {
            let symbol = u32::from(SYMBOLS[usize::from(byte)]);
            values |= (symbol & 1) << i;
            mask |= (symbol >> 1 & 1) << i;
            all |= symbol;
        }
        if all & 4 != 0 || &line[n..] != b" 1\n" {
            return None;
        }
        self.rest = &self.rest[n + 3..];
        self.line += 1;
        Some([mask, values])
    }
}

/// The word of a model that was read.
pub fn model_value(
    n: usize,
    k: usize,
    x: usize,
    matrix: &[u32],
    counts: &[usize],
    masks: &[u32],
    values: &[u32],
) -> Answer<u64> {
    let patterns = patterns_of(masks, values);
    let checked = check_value([n, k, x], matrix, counts, &patterns);
    let outcome = checked.and_then(|()| {
        independent(matrix)?;
        let rows = matrix.iter().enumerate();
        let z = rows.fold(0, |z, (i, row)| z | parity(row & x as u32) << i);
        let mut word = 0;
        let mut rest = &patterns[..];
        for (j, &count) in counts.iter().enumerate() {
            let (own, others) = rest.split_at(count);
            word |= u64::from(own.iter().any(|pattern| pattern.has(z))) << j;
            rest = others;
        }
        Ok(word)
    });
    outcome.into()
}

/// What the program prints of a model.
pub fn print_model(input: &[u8]) -> Vec<u8> {
    print_made(input, MODEL_ROOM, |head, w, rows, bytes| {
        write_model(head.n, head.k, head.block_type, w, rows, bytes)
    })
}
