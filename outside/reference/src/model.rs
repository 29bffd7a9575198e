//! The block as one model in BLIF (02, Ticket 4): writing it, reading that subset,
//! the word of a model that was read, and what the program prints of a model. What
//! a model's text means in BLIF at large is said in [`crate::blif`].

use crate::list::{check_method, find, Found};
use crate::sheet::print_made;
use crate::text::Lines;
use crate::{checks, matrix, Answer, List, ModelHead, Refusal, MODEL_ROOM, OUTPUTS, ROW_INPUTS};

/// A pattern over z: the mask of its fixed symbols and their values.
#[derive(Clone, Copy, Debug, Default, PartialEq, Eq)]
pub struct Pattern {
    pub mask: u32,
    pub values: u32,
}

impl Pattern {
    /// The pattern has z: z has the fixed values.
    pub fn has(&self, z: u32) -> bool {
        z & self.mask == self.values
    }
}

/// What a model says: the rows of sigma, and for each output, lowest first, its
/// patterns in order.
#[derive(Clone, Debug, Default, PartialEq, Eq)]
pub struct Model {
    pub matrix: Vec<u32>,
    pub outputs: Vec<Vec<Pattern>>,
}

impl Model {
    /// The model of what the row method finds: at each output the smaller rows that
    /// have a 1 there, so that a row of word 0 stands in no cover.
    fn of(k: usize, found: &Found) -> Model {
        let patterns = |j: usize| {
            let driving = found.rows.iter().filter(|row| row.word >> j & 1 == 1);
            let pattern = driving.map(|row| Pattern {
                mask: row.mask,
                values: row.values,
            });
            pattern.collect()
        };
        Model {
            matrix: found.sigma.clone(),
            outputs: (0..k).map(patterns).collect(),
        }
    }

    /// The model's text.
    pub fn text(&self) -> String {
        let [n, k] = [self.matrix.len(), self.outputs.len()];
        let mut text = String::from(".model block\n");
        text += &format!(".inputs {}\n", names('x', n));
        text += &format!(".outputs {}\n", names('y', k));
        for (i, &row) in self.matrix.iter().enumerate() {
            text += &row_covers(i, row);
        }
        for (j, patterns) in self.outputs.iter().enumerate() {
            text += &format!("{}\n", output_line(n, j));
            for pattern in patterns {
                text += &pattern_line(n, pattern);
            }
        }
        text += ".end\n";
        text
    }
}

/// So many names in order, with one space between them.
fn names(letter: char, count: usize) -> String {
    let names: Vec<String> = (0..count).map(|i| format!("{letter}{i}")).collect();
    names.join(" ")
}

/// The covers of row i of sigma: a copy of its input, or a chain of two-input XORs
/// from its lowest input up, each naming the part so far first.
fn row_covers(i: usize, row: u32) -> String {
    let inputs: Vec<usize> = (0..32).filter(|j| row >> j & 1 == 1).collect();
    if let [input] = inputs[..] {
        return format!("{}\n1 1\n", copy_line(input, i));
    }
    let mut covers = String::new();
    let mut so_far = format!("x{}", inputs[0]);
    for part in 1..inputs.len() {
        let ends = part + 1 == inputs.len();
        let name = part_name(i, part, ends);
        covers += &format!(".names {so_far} x{} {name}\n01 1\n10 1\n", inputs[part]);
        so_far = name;
    }
    covers
}

/// The line of the copy of an input as row i.
fn copy_line(input: usize, i: usize) -> String {
    format!(".names x{input} z{i}")
}

/// The name of a part of row i's chain, counted from 1; the last is the row itself.
fn part_name(i: usize, part: usize, ends: bool) -> String {
    if ends {
        format!("z{i}")
    } else {
        format!("z{i}_{part}")
    }
}

/// The line of output j's cover, over all of the z.
fn output_line(n: usize, j: usize) -> String {
    format!(".names {} y{j}", names('z', n))
}

/// A pattern as a line, LF included: z0's symbol stands first.
fn pattern_line(n: usize, pattern: &Pattern) -> String {
    let symbol = |i: usize| match (pattern.mask >> i & 1, pattern.values >> i & 1) {
        (0, _) => '-',
        (_, 0) => '0',
        _ => '1',
    };
    let symbols: String = (0..n).map(symbol).collect();
    format!("{symbols} 1\n")
}

/// Writes the model into the lent bytes, and gives the number of its bytes. Its own
/// length is the room that it asks for, so 5 comes last.
pub fn write_model(
    n: usize,
    k: usize,
    block_type: usize,
    w: usize,
    rows: impl List,
    bytes: &mut [u8],
) -> Answer<usize> {
    let rows = rows.rows();
    let checked = check_method(n, k, block_type, w, &rows, || Ok(()));
    let found = checked.and_then(|()| find(n, block_type, w, &rows));
    let outcome = found.and_then(|found| {
        let text = Model::of(k, &found).text();
        checks::room(bytes.len(), text.len())?;
        bytes[..text.len()].copy_from_slice(text.as_bytes());
        Ok(text.len())
    });
    outcome.into()
}

/// Reads a model: the rows of sigma, the number of patterns of each output, and all
/// patterns in order into the lent rooms, and n, k and the number of patterns.
pub fn read_model(
    text: &[u8],
    matrix: &mut [u32],
    counts: &mut [usize],
    masks: &mut [u32],
    values: &mut [u32],
) -> Answer<ModelHead> {
    let room = [matrix.len(), counts.len(), masks.len().min(values.len())];
    let outcome = parse(text).and_then(|model| {
        let patterns = model.outputs.concat();
        let head = ModelHead {
            n: model.matrix.len(),
            k: model.outputs.len(),
            patterns: patterns.len(),
        };
        check_read(head, room)?;
        checks::independent(&model.matrix)?;
        matrix[..head.n].copy_from_slice(&model.matrix);
        for (count, patterns) in counts.iter_mut().zip(&model.outputs) {
            *count = patterns.len();
        }
        for (i, pattern) in patterns.iter().enumerate() {
            masks[i] = pattern.mask;
            values[i] = pattern.values;
        }
        Ok(head)
    });
    outcome.into()
}

/// 5 of reading: the room for sigma, for the counts and for the patterns.
pub(crate) fn check_read(head: ModelHead, room: [usize; 3]) -> Result<(), Refusal> {
    checks::room(room[0], head.n)?;
    checks::room(room[1], head.k)?;
    checks::room(room[2], head.patterns)
}

/// What a text of the subset says, or refusal 10 at the first line outside it. The
/// subset is what the writer can print: at each line the lines that it could print
/// there are held against the text's.
pub fn parse(text: &[u8]) -> Result<Model, Refusal> {
    let mut lines = Lines::new(text);
    lines.is(".model block")?;
    let n = lines.names(".inputs", 'x', ROW_INPUTS)?;
    let k = lines.names(".outputs", 'y', OUTPUTS)?;
    let mut model = Model::default();
    for i in 0..n {
        model.matrix.push(lines.row_of_sigma(n, i)?);
    }
    lines.is(&output_line(n, 0))?;
    for j in 0..k {
        let next = if j + 1 < k {
            output_line(n, j + 1)
        } else {
            ".end".to_string()
        };
        model.outputs.push(lines.patterns(n, &next)?);
    }
    lines.end()?;
    Ok(model)
}

impl Lines<'_> {
    /// Takes the line of one to so many names, and gives how many there are.
    fn names(&mut self, start: &str, letter: char, most: usize) -> Result<usize, Refusal> {
        let line = self.take()?;
        let is_due =
            |&count: &usize| line == format!("{start} {}", names(letter, count)).as_bytes();
        (1..=most).find(is_due).ok_or(self.lacks_form())
    }

    /// Takes the covers of row i of sigma, and gives the row.
    fn row_of_sigma(&mut self, n: usize, i: usize) -> Result<u32, Refusal> {
        let mut line = self.take()?;
        for input in 0..n {
            if line == copy_line(input, i).as_bytes() {
                self.is("1 1")?;
                return Ok(1 << input);
            }
        }
        let begins = |&lowest: &usize| link(line, n, &format!("x{lowest}"), lowest, [i, 1]);
        let lowest = (0..n).find(|lowest| begins(lowest).is_some());
        let mut highest = lowest.ok_or(self.lacks_form())?;
        let mut so_far = format!("x{highest}");
        let mut row = 1 << highest;
        let mut part = 1;
        loop {
            let next = link(line, n, &so_far, highest, [i, part]);
            let (input, ends) = next.ok_or(self.lacks_form())?;
            self.is("01 1")?;
            self.is("10 1")?;
            row |= 1 << input;
            if ends {
                return Ok(row);
            }
            highest = input;
            so_far = part_name(i, part, false);
            part += 1;
            line = self.take()?;
        }
    }

    /// Takes the patterns of an output and the line after them, which is due.
    fn patterns(&mut self, n: usize, next: &str) -> Result<Vec<Pattern>, Refusal> {
        let mut patterns = Vec::new();
        loop {
            let line = self.take()?;
            if line == next.as_bytes() {
                return Ok(patterns);
            }
            patterns.push(pattern(line, n).ok_or(self.lacks_form())?);
        }
    }
}

/// The input that a line of row i's chain adds to the part so far, which ends at the
/// input `highest`, and whether the chain ends with it. A part that ends at the last
/// input can't be carried on, so no line makes one.
fn link(
    line: &[u8],
    n: usize,
    so_far: &str,
    highest: usize,
    [i, part]: [usize; 2],
) -> Option<(usize, bool)> {
    for input in highest + 1..n {
        for ends in [true, false] {
            let name = part_name(i, part, ends);
            let due = format!(".names {so_far} x{input} {name}");
            if line == due.as_bytes() && (ends || input + 1 < n) {
                return Some((input, ends));
            }
        }
    }
    None
}

/// The pattern of a line: n of 0, 1, -, z0's first, one space, and 1.
fn pattern(line: &[u8], n: usize) -> Option<Pattern> {
    let symbols = line.strip_suffix(b" 1")?;
    if symbols.len() != n {
        return None;
    }
    let mut pattern = Pattern::default();
    for (i, symbol) in symbols.iter().enumerate() {
        let (fixed, value) = match symbol {
            b'0' => (1, 0),
            b'1' => (1, 1),
            b'-' => (0, 0),
            _ => return None,
        };
        pattern.mask |= fixed << i;
        pattern.values |= value << i;
    }
    Some(pattern)
}

/// The word at x of a model that was read: output j is 1 where one of its patterns
/// has sigma x.
pub fn model_value(
    n: usize,
    k: usize,
    x: usize,
    matrix: &[u32],
    counts: &[usize],
    masks: &[u32],
    values: &[u32],
) -> Answer<u64> {
    let patterns = patterns_of(masks, values);
    let checked = check_value([n, k, x], matrix, counts, &patterns);
    let outcome = checked.and_then(|()| {
        checks::independent(matrix)?;
        let z = matrix::times_rows(matrix, x as u32);
        let mut word = 0;
        let mut first = 0;
        for (j, count) in counts.iter().enumerate() {
            let own = &patterns[first..first + count];
            word |= u64::from(own.iter().any(|pattern| pattern.has(z))) << j;
            first += count;
        }
        Ok(word)
    });
    outcome.into()
}

/// The patterns of two slices. Slices of unequal length hold none.
pub(crate) fn patterns_of(masks: &[u32], values: &[u32]) -> Vec<Pattern> {
    if masks.len() != values.len() {
        return Vec::new();
    }
    let both = masks.iter().zip(values);
    both.map(|(&mask, &values)| Pattern { mask, values })
        .collect()
}

/// The refusals of a model's word, but for 8.
pub(crate) fn check_value(
    [n, k, x]: [usize; 3],
    matrix: &[u32],
    counts: &[usize],
    patterns: &[Pattern],
) -> Result<(), Refusal> {
    checks::inputs(n, ROW_INPUTS)?;
    checks::outputs(k)?;
    checks::shift(x, n)?;
    checks::length(matrix.len(), n)?;
    checks::length(counts.len(), k)?;
    // Any counts may come in, and their sum need not fit in one of them.
    let told = counts
        .iter()
        .try_fold(0usize, |sum, &count| sum.checked_add(count));
    checks::length(patterns.len(), told.unwrap_or(usize::MAX))?;
    checks::matrix_rows(n, matrix)?;
    checks::patterns(n, patterns)
}

/// What the program prints of the model of these bytes: the model with weight limit
/// 3, or n where n is below 3, or the refusal in one line.
pub fn print_model(input: &[u8]) -> Vec<u8> {
    print_made(input, MODEL_ROOM, |head, w, rows, bytes| {
        write_model(head.n, head.k, head.block_type, w, rows, bytes)
    })
}
