//! Models in BLIF from a seed: those of lists, those that no list gives, and all of
//! these damaged; with the rooms to read them and what is asked of them.

use super::{any_rows, damage_bytes, matrix_rows, split, uneven, Random};
use crate::model::{parse, Model, Pattern};
use crate::{fast, FD, FR, MODEL_ROOM, OUTPUTS, ROWS, ROW_INPUTS};

/// A number mostly near what is due: one below, exact, a little above, or any up to
/// it.
pub fn near(random: &mut Random, due: usize) -> usize {
    match random.below(8) {
        0 => due.saturating_sub(1),
        1 => due + 1,
        2 => due + random.below(9),
        3 => random.below(due + 1),
        _ => due,
    }
}

/// A pattern over n of the z.
fn pattern(random: &mut Random, n: usize) -> Pattern {
    let mask = random.word(n) | random.pick(&[0, 0, (1 << n) - 1]);
    Pattern {
        mask,
        values: mask & random.word(n),
    }
}

/// A model of any matrix without a zero row, and of any patterns: they may share
/// points or be the same, and an output may have none.
fn any_model(random: &mut Random) -> Model {
    let n = random.between(1, ROW_INPUTS);
    let k = random.between(1, OUTPUTS);
    let mut matrix = matrix_rows(random, n);
    for row in matrix.iter_mut().filter(|row| **row == 0) {
        *row = 1 << random.below(n);
    }
    let most = random.pick(&[0, 1, 3, 9, 40]);
    let patterns = |_| {
        let count = random.below(most + 1);
        (0..count).map(|_| pattern(random, n)).collect()
    };
    Model {
        matrix,
        outputs: (0..k).map(patterns).collect(),
    }
}

/// The model of a drawn list, where the row method answers.
fn list_model(random: &mut Random) -> Option<Model> {
    let n = random.between(1, ROW_INPUTS);
    let k = random.between(1, OUTPUTS);
    let rows = any_rows(random, n, k, ROWS);
    let w = random.between(1, n.min(4));
    let mut bytes = vec![0; MODEL_ROOM];
    let y = random.pick(&[FR, FD]);
    let written = fast::write_model(n, k, y, w, &rows[..], &mut bytes);
    parse(&bytes[..written.results]).ok()
}

/// A model that can be read, but for a dependent row of its matrix.
pub fn model(random: &mut Random) -> Model {
    let of_list = if random.one_in(2) {
        list_model(random)
    } else {
        None
    };
    of_list.unwrap_or_else(|| any_model(random))
}

/// A model's text with one to three damages, which may undo each other or give
/// another model.
pub fn damaged_model(random: &mut Random) -> Vec<u8> {
    let mut text = model(random).text().into_bytes();
    for _ in 0..random.pick(&[1, 1, 1, 2, 3]) {
        damage(random, &mut text);
    }
    text
}

/// A model's text, whole or damaged.
pub fn model_text(random: &mut Random) -> Vec<u8> {
    match random.below(3) {
        0 => model(random).text().into_bytes(),
        _ => damaged_model(random),
    }
}

/// Lines that a model has somewhere, or nearly has.
const LINES: [&str; 16] = [
    ".model block",
    ".model",
    ".inputs x0",
    ".outputs y0",
    ".names x0 z0",
    ".names x0 x1 z0",
    ".names x0 x1 z0_1",
    ".names z0_1 x2 z0",
    ".names z0 y0",
    "1 1",
    "01 1",
    "10 1",
    "-- 1",
    ".end",
    "",
    "# note",
];

/// One damage to a model's text.
fn damage(random: &mut Random, text: &mut Vec<u8>) {
    let mut lines = split(text);
    let [line, other] = [random.below(lines.len()), random.below(lines.len())];
    match random.below(12) {
        // Lines dropped, doubled, exchanged, or one of another place or model.
        0 => drop(lines.remove(line)),
        1 => lines.insert(line, lines[line].clone()),
        2 if line > 0 => lines.swap(line - 1, line),
        3 => lines.swap(line, other),
        4 => lines.insert(other, lines[line].clone()),
        5 => lines.insert(line, random.pick(&LINES).into()),
        // A name or a number more or less, or another.
        6..=8 => {
            let names = lines.iter().position(|line| line.starts_with(b".names"));
            let covers = names.unwrap_or(0);
            let place = match random.below(4) {
                0 => 1 + random.below(2),
                _ => random.between(covers.min(lines.len() - 1), lines.len() - 1),
            };
            if let Some(line) = lines.get_mut(place) {
                rename(random, line);
            }
        }
        // As a part of a chain what is a row, or the other way round.
        9 => {
            let line = &mut lines[line];
            match line.iter().position(|&byte| byte == b'_') {
                Some(place) => line.truncate(place),
                None => line.extend_from_slice(random.pick(&["_1", "_2", "_0"]).as_bytes()),
            }
        }
        _ => return damage_bytes(random, text, b"01- .\n\r\t_xyz23e\0"),
    }
    *text = lines.join(&b'\n');
}

/// Drops, doubles, exchanges or changes words of a line.
fn rename(random: &mut Random, line: &mut Vec<u8>) {
    let words = line.split(|&byte| byte == b' ');
    let mut words: Vec<Vec<u8>> = words.map(<[u8]>::to_vec).collect();
    let [word, other] = [random.below(words.len()), random.below(words.len())];
    match random.below(5) {
        0 => drop(words.remove(word)),
        1 => words.swap(word, other),
        2 => words.push(random.pick(&["x16", "x10", "y15", "y1", "z0", "1"]).into()),
        3 => words.insert(word, words[other].clone()),
        _ => {
            let letter = random.pick(&["x", "y", "z"]);
            let number = random.below(17);
            words[word] = format!("{letter}{number}").into_bytes();
        }
    }
    *line = words.join(&b' ');
}

/// The rooms that reading a text asks for: numbers, counts and patterns.
pub fn rooms_due(text: &[u8]) -> [usize; 3] {
    match parse(text) {
        Ok(model) => [
            model.matrix.len(),
            model.outputs.len(),
            model.outputs.concat().len(),
        ],
        Err(_) => [ROW_INPUTS, OUTPUTS, 64],
    }
}

/// What a word is asked of: n, k, x, and the matrix, the counts and the patterns of a
/// model, with harm at times.
pub struct Asked {
    pub numbers: [usize; 3],
    pub matrix: Vec<u32>,
    pub counts: Vec<usize>,
    pub masks: Vec<u32>,
    pub values: Vec<u32>,
}

pub fn asked(random: &mut Random) -> Asked {
    let model = model(random);
    let [n, k] = [model.matrix.len(), model.outputs.len()];
    let patterns = model.outputs.concat();
    let mut asked = Asked {
        numbers: [n, k, random.below(1 << n)],
        matrix: model.matrix,
        counts: model.outputs.iter().map(Vec::len).collect(),
        masks: patterns.iter().map(|pattern| pattern.mask).collect(),
        values: patterns.iter().map(|pattern| pattern.values).collect(),
    };
    if random.one_in(2) {
        harm(random, &mut asked);
        if random.one_in(4) {
            harm(random, &mut asked);
        }
    }
    asked
}

/// One harm to what a word is asked of.
fn harm(random: &mut Random, asked: &mut Asked) {
    let [n, k, _] = asked.numbers;
    let high = 1 << random.between(n.min(31), 31);
    // A number that was harmed before may be the greatest.
    let next = |number: usize| number.wrapping_add(1);
    match random.below(14) {
        0 => asked.numbers[0] = random.pick(&[0, 17, 24, 32, 64, next(n), usize::MAX]),
        1 => asked.numbers[1] = random.pick(&[0, 16, 32, 64, next(k), usize::MAX]),
        2 => asked.numbers[2] = random.pick(&[1 << n.min(63), 65_536, 1 << 32, usize::MAX]),
        3 => uneven(random, &mut asked.matrix),
        4 => uneven(random, &mut asked.counts),
        5 => uneven(random, &mut asked.masks),
        6 => uneven(random, &mut asked.values),
        // Other counts, some whose sum passes every number; and no patterns at all.
        7 => {
            if let Some(last) = asked.counts.last_mut() {
                *last = random.pick(&[0, next(*last), usize::MAX, 1 << 63, 1 << 32]);
            }
            if let Some(first) = asked.counts.first_mut().filter(|_| random.one_in(3)) {
                *first = random.pick(&[usize::MAX, 1 << 63, next(*first)]);
            }
        }
        8 => {
            asked.counts.fill(0);
            asked.masks.clear();
            if random.one_in(2) {
                asked.values.clear();
            }
        }
        9 => {
            if let Some(row) = any_of(random, &mut asked.matrix) {
                *row |= high;
            }
        }
        10 => {
            if let Some(mask) = any_of(random, &mut asked.masks) {
                *mask |= high;
            }
        }
        11 => {
            if let Some(values) = any_of(random, &mut asked.values) {
                *values |= high;
            }
        }
        12 => {
            if let Some(values) = any_of(random, &mut asked.values) {
                *values |= random.word(n.min(31));
            }
        }
        _ => {
            let sum = asked.matrix.iter().fold(0, |sum, row| sum ^ row);
            if let Some(row) = any_of(random, &mut asked.matrix) {
                *row = random.pick(&[0, *row ^ sum, 1]);
            }
        }
    }
}

/// One of the items, if there are any.
fn any_of<'a, T>(random: &mut Random, items: &'a mut [T]) -> Option<&'a mut T> {
    match items.len() {
        0 => None,
        count => items.get_mut(random.below(count)),
    }
}
