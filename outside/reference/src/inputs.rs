//! Inputs from a seed, the same for the same seed: tables, words of symmetric
//! blocks, lists of disjoint rows, some with many that join, lists that overlap on purpose,
//! numbers that are asked of them, matrices, row texts, models ([`models`]), and all of these
//! damaged; their types; numbers in and out of range; rooms short, exact and long.
//! [`Case::new`] draws a whole call of one operation with everything it is lent.

pub mod models;

use crate::list::Step;
use crate::{
    fast, matrix, missing, write_text, Answer, Flat, FlatRoom, List, ModelHead, Operations, Reason,
    Row, Smaller, TextHead, FD, FILL_ROWS, FR, JOIN_ROWS, MODEL_ROOM, NO_OUTPUT, OUTPUTS, ROWS,
    ROW_INPUTS, SHEET_ROOM, SMALLER_ROWS, TABLE_INPUTS, TEXT_ROOM,
};

/// A source of numbers that depend on the seed alone (SplitMix64).
#[derive(Clone, Debug)]
pub struct Random(u64);

impl Random {
    pub fn new(seed: u64) -> Random {
        Random(seed)
    }

    /// 64 fresh bits.
    pub fn bits(&mut self) -> u64 {
        self.0 = self.0.wrapping_add(0x9E37_79B9_7F4A_7C15);
        let mut z = self.0;
        z = (z ^ z >> 30).wrapping_mul(0xBF58_476D_1CE4_E5B9);
        z = (z ^ z >> 27).wrapping_mul(0x94D0_49BB_1331_11EB);
        z ^ z >> 31
    }

    /// A number below `end`, which is not 0.
    pub fn below(&mut self, end: usize) -> usize {
        (self.bits() % end as u64) as usize
    }

    /// A number from `low` to `high`.
    pub fn between(&mut self, low: usize, high: usize) -> usize {
        low + self.below(high - low + 1)
    }

    /// True once in so many times.
    pub fn one_in(&mut self, times: usize) -> bool {
        self.below(times) == 0
    }

    /// One of the items.
    pub fn pick<T: Copy>(&mut self, items: &[T]) -> T {
        items[self.below(items.len())]
    }

    /// The items in some order.
    pub fn shuffle<T>(&mut self, items: &mut [T]) {
        for end in (1..items.len()).rev() {
            items.swap(end, self.below(end + 1));
        }
    }

    /// A number of at most so many bits.
    pub fn word(&mut self, bits: usize) -> u32 {
        (self.bits() & ((1 << bits) - 1)) as u32
    }
}

/// A few words below 2^k, so that many of a block's words are equal. Word 0 is
/// often among them, and words that differ in their highest bit alone.
pub fn words(random: &mut Random, k: usize) -> Vec<u32> {
    let count = random.pick(&[1, 2, 2, 3, 4, 6]);
    let mut words: Vec<u32> = (0..count).map(|_| random.word(k)).collect();
    if random.one_in(2) {
        words[0] = 0;
    }
    if random.one_in(3) {
        let high = words[0] ^ 1 << (k - 1);
        words.push(high);
    }
    words
}

/// A table: of a few words or of any, with or without points that have no
/// output, with a hidden XOR in it or not.
pub fn table(random: &mut Random, n: usize, k: usize) -> Vec<u16> {
    let pool = if random.one_in(6) {
        (0..64).map(|_| random.word(k)).collect()
    } else {
        words(random, k)
    };
    let holes = random.pick(&[0, 0, 2, 5, 20]);
    // Points with the same hidden number get the same word.
    let hidden = random.between(1, n);
    let forms: Vec<u32> = (0..hidden).map(|_| random.word(n)).collect();
    let by_form: Vec<u32> = (0..1 << hidden).map(|_| random.pick(&pool)).collect();
    let regular = random.one_in(2);
    (0..1u32 << n)
        .map(|x| {
            if holes > 0 && random.one_in(holes) {
                NO_OUTPUT
            } else if regular && !random.one_in(24) {
                by_form[matrix::times_rows(&forms, x) as usize] as u16
            } else {
                random.pick(&pool) as u16
            }
        })
        .collect()
}

/// A word for each number of one-bits from 0 to n: of a few words or of any, with or
/// without numbers that have no output.
pub fn words_by_ones(random: &mut Random, n: usize, k: usize) -> Vec<u16> {
    let pool = if random.one_in(6) {
        (0..=n).map(|_| random.word(k)).collect()
    } else {
        words(random, k)
    };
    let holes = random.pick(&[0, 0, 2, 5]);
    (0..=n)
        .map(|_| {
            if holes > 0 && random.one_in(holes) {
                NO_OUTPUT
            } else {
                random.pick(&pool) as u16
            }
        })
        .collect()
}

/// A table for the question whether it is symmetric: one that is, one that is but for
/// an entry, at times that of the last point, or any.
pub fn table_asked(random: &mut Random, n: usize, k: usize) -> Vec<u16> {
    if random.one_in(4) {
        return table(random, n, k);
    }
    let by_ones = words_by_ones(random, n, k);
    let ones = |x: usize| x.count_ones() as usize;
    let mut table: Vec<u16> = (0..1 << n).map(|x| by_ones[ones(x)]).collect();
    if random.one_in(2) {
        let [any, last] = [random.below(1 << n), (1 << n) - 1];
        let word = random.word(k) as u16;
        table[random.pick(&[any, any, last])] = random.pick(&[word, NO_OUTPUT]);
    }
    table
}

/// Disjoint rows, at most `count`, in some order: the whole space split again
/// and again, with some of the parts left out. They drive every column.
pub fn rows(random: &mut Random, n: usize, k: usize, count: usize) -> Vec<Row> {
    let words = words(random, k);
    let mut rows = vec![Row::default()];
    let left_out = if random.one_in(2) { count / 8 } else { 0 };
    split_to(random, n, &mut rows, count + left_out);
    random.shuffle(&mut rows);
    rows.truncate(count.max(1));
    for row in &mut rows {
        row.word = random.pick(&words);
    }
    drive(random, k, &mut rows);
    rows
}

/// Splits rows into halves with their words until there are so many rows, as far as
/// any of them has an input free.
fn split_to(random: &mut Random, n: usize, rows: &mut Vec<Row>, count: usize) {
    let whole = (1 << n) - 1;
    let mut open = true;
    while open && rows.len() < count {
        open = rows.iter().any(|row| row.mask != whole);
        let index = random.below(rows.len());
        let free = whole & !rows[index].mask;
        if free == 0 {
            continue;
        }
        let positions: Vec<usize> = (0..n).filter(|i| free >> i & 1 == 1).collect();
        let bit = 1 << random.pick(&positions);
        rows[index].mask |= bit;
        let mut half = rows[index];
        half.values |= bit;
        rows.push(half);
    }
}

/// Disjoint rows, at most `count`, with many that join: a list of fewer rows, at times of
/// one, split again and again, with the halves in some order or behind the others.
pub fn split_rows(random: &mut Random, n: usize, k: usize, count: usize) -> Vec<Row> {
    let most = random.pick(&[1, count / 16, count / 4, count]).max(1);
    let start = random.between(1, most);
    let mut rows = rows(random, n, k, start);
    split_to(random, n, &mut rows, count);
    if !random.one_in(4) {
        random.shuffle(&mut rows);
    }
    rows
}

/// All points of n inputs in an order in which they join to one row, where they have one
/// word: the two halves of the space at some input, one behind the other, and each half
/// in such an order of its own.
pub fn halved_points(random: &mut Random, n: usize) -> Vec<u32> {
    fn put(random: &mut Random, free: &[usize], values: u32, points: &mut Vec<u32>) {
        if free.is_empty() {
            points.push(values);
            return;
        }
        let input = random.pick(free);
        let rest: Vec<usize> = free.iter().copied().filter(|&i| i != input).collect();
        let first = random.word(1);
        for value in [first, 1 - first] {
            put(random, &rest, values | value << input, points);
        }
    }
    let mut points = Vec::with_capacity(1 << n);
    put(random, &(0..n).collect::<Vec<_>>(), 0, &mut points);
    points
}

/// The smaller rows of a list with hidden XORs: those that 02 would have joined. The list
/// itself where the row method refuses it.
pub fn smaller_list(random: &mut Random, n: usize, k: usize, count: usize) -> Vec<Row> {
    let rows = hidden_rows(random, n, k, count);
    let w = random.between(1, n.min(3));
    let block_type = random.pick(&[FR, FD]);
    smaller_of([n, k, block_type, w], &rows).unwrap_or(rows)
}

/// At most `count` rows that overlap on purpose: rows of any fixed inputs, rows inside
/// earlier ones, rows that are there twice with any words, at times one over all points, and
/// at times on top of disjoint rows; or disjoint rows alone. Word 0 is often among the words.
pub fn overlapping_rows(random: &mut Random, n: usize, k: usize, count: usize) -> Vec<Row> {
    let start = random.pick(&[0, 0, count / 2, count]);
    let mut list = match start {
        0 => Vec::new(),
        _ => rows(random, n, k, start),
    };
    let words = words(random, k);
    // How many inputs a row fixes: few, so that many rows meet, up to all.
    let fixed = random.pick(&[1, 2, 4, n / 2, n]).clamp(1, n);
    while list.len() < count && start != count {
        let row = match random.below(6) {
            kind @ (0 | 1) if !list.is_empty() => {
                let earlier = random.pick(&list);
                [inside(random, n, earlier), earlier][kind]
            }
            _ => cube(random, n, fixed),
        };
        let word = random.pick(&words);
        list.push(Row { word, ..row });
    }
    if random.one_in(6) {
        let index = random.below(list.len());
        list[index] = Row {
            word: random.pick(&words),
            ..Row::default()
        };
    }
    list
}

/// A row that fixes so many inputs, of word 0.
fn cube(random: &mut Random, n: usize, fixed: usize) -> Row {
    let mut inputs: Vec<usize> = (0..n).collect();
    random.shuffle(&mut inputs);
    let mask = inputs[..fixed]
        .iter()
        .fold(0, |mask, input| mask | 1 << input);
    let values = random.word(n) & mask;
    Row {
        mask,
        values,
        word: 0,
    }
}

/// A row within this one: it fixes one input more, where there is one.
fn inside(random: &mut Random, n: usize, row: Row) -> Row {
    let bit = 1 << random.below(n);
    let value = random.word(n) & bit & !row.mask;
    Row {
        mask: row.mask | bit,
        values: row.values | value,
        word: row.word,
    }
}

/// At most 128 rows of 8 inputs or more that give a disjoint list of exactly `out` rows,
/// about 128: points, some of them two at a time in one row that leaves the highest input
/// free; and at times points of these again, as many as there is room for.
pub fn exact_rows(random: &mut Random, n: usize, k: usize, out: usize) -> Vec<Row> {
    let [whole, high] = [(1 << n) - 1, 1 << (n - 1)];
    let row = |random: &mut Random, mask: u32, point: u32| Row {
        mask,
        values: point & mask,
        word: random.word(k),
    };
    // Which points both halves of the space have, and which the one half or the other.
    let mut below: Vec<u32> = (0..high).collect();
    random.shuffle(&mut below);
    let pairs = out.saturating_sub(ROWS) + random.below(4);
    let (both, ones) = below.split_at(pairs);
    let mut list = Vec::with_capacity(ROWS);
    list.extend(both.iter().map(|&point| row(random, whole & !high, point)));
    let ones = &ones[..out - 2 * pairs];
    let half = |random: &mut Random| random.pick(&[0, high]);
    for &point in ones {
        let point = point | half(random);
        list.push(row(random, whole, point));
    }
    let more = random.below(ROWS - list.len() + 1);
    for _ in 0..more {
        let again = random.pick(&list);
        let point = again.values | half(random) & !again.mask;
        list.push(row(random, whole, point));
    }
    random.shuffle(&mut list);
    list
}

/// The columns that no row has a 1 in, as the bits of a number.
pub fn undriven_columns(k: usize, rows: &[Row]) -> u32 {
    let driven = rows.iter().fold(0, |columns, row| columns | row.word);
    ((1 << k) - 1) & !driven
}

/// Puts a 1 into every column that has none: into one of the words, wherever it stands,
/// so that the words that were equal still are, and no others. Word 0 stays where there
/// is another; where there is none, one row alone gets the new word.
fn drive(random: &mut Random, k: usize, rows: &mut [Row]) {
    let undriven = undriven_columns(k, rows);
    let words: Vec<u32> = rows.iter().map(|row| row.word).collect();
    let not_0: Vec<u32> = words.iter().copied().filter(|&word| word != 0).collect();
    if not_0.is_empty() {
        let index = random.below(rows.len());
        rows[index].word = undriven;
        return;
    }
    let word = random.pick(&not_0);
    for row in rows.iter_mut().filter(|row| row.word == word) {
        row.word |= undriven;
    }
}

/// Makes columns 0 in every row: one, at times the lowest or the highest, some, all but
/// one, or all.
pub fn undrive(random: &mut Random, k: usize, rows: &mut [Row]) {
    let any = 1 << random.below(k);
    let all = (1 << k) - 1;
    let some = random.word(k);
    let columns = random.pick(&[any, any, 1, 1 << (k - 1), some, some, all & !any, all]);
    for row in rows {
        row.word &= !columns;
    }
}

/// Puts a column that is 0 in every row among the k columns, so that words are equal
/// where they were.
pub fn mislay_column(random: &mut Random, k: usize, rows: &mut [Row]) {
    let below = (1 << random.below(k + 1)) - 1;
    for row in rows {
        row.word = row.word & below | (row.word & !below) << 1;
    }
}

/// Disjoint rows with hidden XORs: a list of at most `count` rows carried
/// through steps of its own, as long as it stays within `count`. They drive every column.
pub fn hidden_rows(random: &mut Random, n: usize, k: usize, count: usize) -> Vec<Row> {
    let start = random.between(1, (count + 1) / 2);
    let mut rows = rows(random, n, k, start);
    let mut positions: Vec<usize> = (0..n).collect();
    random.shuffle(&mut positions);
    for position in positions {
        let number = 1 << position | 1 << random.below(n) | 1 << random.below(n);
        let step = Step::new(position, number);
        let next: Vec<Row> = rows.iter().flat_map(|&row| step.row(row)).collect();
        if next.len() <= count {
            rows = next;
        }
    }
    rows
}

/// A list whose number of smaller rows is near 512, on either side of it, with
/// its n, k, type and w: the nearest of so many drawn.
pub fn rows_near_512(random: &mut Random, draws: usize) -> ([usize; 4], Vec<Row>) {
    let block_type = random.pick(&[FR, FD]);
    let draw = |_| {
        let n = random.between(12, ROW_INPUTS);
        let k = random.between(1, OUTPUTS);
        let w = random.between(2, 4);
        let count = random.between(110, ROWS);
        let list = hidden_rows(random, n, k, count);
        // Where the list passes 512 its length is not known; it counts as
        // somewhat far.
        let after = smaller_of([n, k, block_type, w], &list);
        let distance = after.map_or(40, |after| SMALLER_ROWS - after.len());
        (distance, ([n, k, block_type, w], list))
    };
    let nearest = (0..draws).map(draw).min_by_key(|(distance, _)| *distance);
    nearest.expect("at least one list is drawn").1
}

/// The smaller rows, where the row method answers.
fn smaller_of([n, k, block_type, w]: [usize; 4], rows: &[Row]) -> Option<Vec<Row>> {
    let mut smaller = vec![Row::default(); SMALLER_ROWS];
    let [mut columns, mut sigma] = [[0; ROW_INPUTS]; 2];
    let room = &mut smaller[..];
    let [t, s] = [&mut columns, &mut sigma];
    let answer = fast::row_method(n, k, block_type, w, rows, room, t, s);
    smaller.truncate(answer.results.rows);
    (answer.number == 0).then_some(smaller)
}

/// A number below 2^n for the question why it was not taken, with weight limit w, where
/// these were: one of them, the XOR of two or three of them, one with as many one-bits as
/// the limit allows or one more, or any.
pub fn asked_number(random: &mut Random, n: usize, w: usize, taken: &[u32]) -> usize {
    let xor_of = |random: &mut Random, count| {
        let numbers = (0..count).map(|_| random.pick(taken));
        numbers.fold(0, |sum, number| sum ^ number)
    };
    let t = match random.below(6) {
        0 => random.pick(taken),
        1 => xor_of(random, 2),
        2 => xor_of(random, 3),
        3 | 4 => {
            let mut positions: Vec<usize> = (0..n).collect();
            random.shuffle(&mut positions);
            let ones = random.pick(&[w, w, w + 1]);
            let ones = positions.iter().take(ones);
            ones.fold(0, |sum, position| sum | 1 << position)
        }
        _ => random.word(n),
    };
    t as usize
}

/// A matrix of n rows: nonsingular, or any numbers below 2^n, or with one row
/// an XOR of earlier ones.
pub fn matrix_rows(random: &mut Random, n: usize) -> Vec<u32> {
    if random.one_in(5) {
        return (0..n).map(|_| random.word(n)).collect();
    }
    let mut rows: Vec<u32> = (0..n).map(|i| 1 << i).collect();
    random.shuffle(&mut rows);
    for _ in 0..3 * n {
        let [to, from] = [random.below(n), random.below(n)];
        if to != from {
            rows[to] ^= rows[from];
        }
    }
    if random.one_in(4) {
        let index = random.below(n);
        let set = random.bits();
        rows[index] = (0..index)
            .filter(|i| set >> i & 1 == 1)
            .fold(0, |sum, i| sum ^ rows[i]);
    }
    rows
}

/// A number mostly from `low` to `high`, at times just outside or far outside.
pub fn number(random: &mut Random, low: usize, high: usize) -> usize {
    match random.below(24) {
        0 => random.pick(&[low.wrapping_sub(1), high.wrapping_add(1)]),
        1 => random.pick(&[0, 24, 31, 32, 63, 64, 255, 256, 65_536, 1 << 32, usize::MAX]),
        2 => low,
        3 => high,
        _ => random.between(low, high),
    }
}

/// A type number, mostly that of fr or fd.
pub fn any_type(random: &mut Random) -> usize {
    match random.below(24) {
        0 => random.pick(&[0, 3, 4, 255, 256, 257, 65_537, (1 << 32) + 1, usize::MAX]),
        _ => random.pick(&[FR, FD]),
    }
}

/// A length of room mostly enough for what is due, at times short of it.
pub fn room(random: &mut Random, due: usize) -> usize {
    match random.below(24) {
        0 => due.saturating_sub(1),
        1 => random.below(due + 1),
        2 => due + 1,
        3 => due + random.below(9),
        _ => due,
    }
}

/// Harms one record: a bit too high, a value outside the mask, any numbers.
pub fn harm_record(random: &mut Random, n: usize, k: usize, rows: &mut [Row]) {
    if rows.is_empty() {
        return;
    }
    let n = n.min(31);
    let row = &mut rows[random.below(rows.len())];
    match random.below(6) {
        0 => row.mask |= 1 << n,
        1 => {
            row.mask |= 1 << n;
            row.values |= 1 << n;
        }
        2 => row.word |= 1 << k.min(31),
        3 => row.mask &= !row.values,
        4 => row.values |= random.word(n),
        _ => {
            row.mask = random.word(32);
            row.values = random.word(32);
            row.word = random.word(32);
        }
    }
}

/// Makes rows share points: frees an input of one, or repeats one.
pub fn overlap(random: &mut Random, n: usize, rows: &mut Vec<Row>) {
    if rows.is_empty() {
        return;
    }
    let index = random.below(rows.len());
    if random.one_in(3) {
        let row = rows[index];
        let place = random.below(rows.len() + 1);
        rows.insert(place, row);
    } else {
        let bit = 1 << random.below(n.clamp(1, 31));
        rows[index].mask &= !bit;
        rows[index].values &= !bit;
    }
}

/// The text of a list within its ranges, with this type and type line.
pub fn text_of(head: TextHead, rows: &[Row]) -> Vec<u8> {
    let mut text = vec![0; TEXT_ROOM];
    let [block_type, type_line] = [head.block_type, head.type_line];
    let written = write_text(head.n, head.k, block_type, type_line, rows, &mut text);
    assert_eq!(written.number, 0, "the list is within its ranges");
    text.truncate(written.results);
    text
}

/// A row text that has form and ranges, with a type line or without; its rows may
/// share points, and they may leave columns undriven.
pub fn text(random: &mut Random) -> Vec<u8> {
    let undriven = random.one_in(8);
    text_with(random, undriven, any_rows)
}

/// The same with every column driven, for timing.
pub fn driven_text(random: &mut Random) -> Vec<u8> {
    text_with(random, false, any_rows)
}

/// The same with many rows that join.
pub fn joining_text(random: &mut Random) -> Vec<u8> {
    let undriven = random.one_in(8);
    text_with(random, undriven, |random, n, k, most| {
        let count = any_count(random, most);
        split_rows(random, n, k, count)
    })
}

/// The same with rows that overlap on purpose.
pub fn overlapping_text(random: &mut Random) -> Vec<u8> {
    let undriven = random.one_in(8);
    text_with(random, undriven, any_overlapping)
}

/// A row text whose rows are drawn so, for n, k and the most of them.
fn text_with(
    random: &mut Random,
    undriven: bool,
    draw: impl Fn(&mut Random, usize, usize, usize) -> Vec<Row>,
) -> Vec<u8> {
    let n = random.between(1, ROW_INPUTS);
    let k = random.between(1, OUTPUTS);
    let mut rows = draw(random, n, k, ROWS);
    if undriven {
        undrive(random, k, &mut rows);
    }
    if random.one_in(12) {
        overlap(random, n, &mut rows);
        rows.truncate(ROWS);
    }
    let [block_type, type_line] = random.pick(&[[FR, 1], [FD, 1], [FD, 0]]);
    let head = TextHead {
        n,
        k,
        block_type,
        type_line,
        rows: rows.len(),
    };
    text_of(head, &rows)
}

/// A row text with one to three damages, which may undo each other.
pub fn damaged_text(random: &mut Random) -> Vec<u8> {
    let text = text(random);
    damaged(random, text)
}

/// The text with these damages.
fn damaged(random: &mut Random, mut text: Vec<u8>) -> Vec<u8> {
    for _ in 0..random.pick(&[1, 1, 1, 2, 3]) {
        damage(random, &mut text);
    }
    text
}

/// One damage to the bytes of a text, for which these are usual.
fn damage_bytes(random: &mut Random, text: &mut Vec<u8>, usual: &[u8]) {
    let place = random.below(text.len() + 1);
    match random.below(9) {
        // A byte flipped, another byte, one more, one less.
        0 if place < text.len() => text[place] ^= 1 << random.below(8),
        1 if place < text.len() => text[place] = random.pick(usual),
        2 => text.insert(place, random.pick(usual)),
        3 if place < text.len() => drop(text.remove(place)),
        // Cut short, or its last LF gone.
        4 => text.truncate(place),
        5 => drop(text.pop()),
        // Something after the end, up to past what the program reads.
        6 => text.push(random.pick(b"\n .0\0")),
        7 => {
            let more = random.pick(&[1, 100, 5_000, 9_000]);
            let byte = random.pick(b"\n01");
            text.splice(place..place, vec![byte; more]);
        }
        // CR before each LF.
        _ => {
            let lines = text.split(|&byte| byte == b'\n');
            *text = lines.collect::<Vec<_>>().join(&b"\r\n"[..]);
        }
    }
}

/// One damage to a text.
fn damage(random: &mut Random, text: &mut Vec<u8>) {
    match random.below(16) {
        0..=8 => damage_bytes(random, text, b"01- .\n\r\t2e\0"),
        // A heading's number replaced by one that has form, or has not.
        9..=11 => {
            let line = random.below(4);
            let number = match random.below(3) {
                0 => random.pick(&["0", "16", "17", "129", "130", "512", "999"]),
                1 => random.pick(&["1", "2", "9", "12", "15", "99", "127", "128"]),
                _ => random.pick(&[
                    "00",
                    "01",
                    "016",
                    "1000",
                    "-1",
                    "+1",
                    "1 ",
                    " 1",
                    "",
                    "x",
                    "0x1",
                    "18446744073709551617",
                ]),
            };
            edit_line(text, line, |line| {
                line.truncate(3);
                line.extend_from_slice(number.as_bytes());
            });
        }
        // A type line more, near its place or anywhere: so one is doubled,
        // misplaced, misspelt, or stands where it may.
        12 | 13 => {
            let line = random.pick(&TYPE_LINES);
            let place = random.pick(&[0, 1, 2, 2, 2, 3, 4, usize::MAX]);
            insert_line(random, text, place, line);
        }
        // A line inserted, or a line gone.
        14 => {
            let extra = random.pick(&["", "# note", ".e", ".i 3", "0 1", "-"]);
            insert_line(random, text, usize::MAX, extra);
        }
        _ => {
            let mut lines = split(text);
            lines.remove(random.below(lines.len()));
            *text = lines.join(&b'\n');
        }
    }
}

/// Type lines, sound and misspelt.
const TYPE_LINES: [&str; 16] = [
    ".type fr",
    ".type fd",
    ".type fr",
    ".type fd",
    ".type f",
    ".type fdr",
    ".type",
    ".type ",
    ".type  fr",
    ".type fr ",
    ".type FD",
    " .type fd",
    ".type\tfr",
    ".type fr\r",
    ".type 1",
    ".Type fd",
];

/// Inserts a line before the one of this index, or anywhere where there is none.
fn insert_line(random: &mut Random, text: &mut Vec<u8>, line: usize, extra: &str) {
    let mut lines = split(text);
    let place = if line < lines.len() {
        line
    } else {
        random.below(lines.len())
    };
    lines.insert(place, extra.into());
    *text = lines.join(&b'\n');
}

/// The lines of a text, the part after its last LF included.
fn split(text: &[u8]) -> Vec<Vec<u8>> {
    let lines = text.split(|&byte| byte == b'\n');
    lines.map(<[u8]>::to_vec).collect()
}

/// Edits one line of a text, if it has that many.
fn edit_line(text: &mut Vec<u8>, line: usize, edit: impl FnOnce(&mut Vec<u8>)) {
    let mut lines = split(text);
    if let Some(line) = lines.get_mut(line) {
        edit(line);
    }
    *text = lines.join(&b'\n');
}

/// Disjoint rows of one of the kinds above, at most `most`, at times near that. They
/// drive every column.
fn any_rows(random: &mut Random, n: usize, k: usize, most: usize) -> Vec<Row> {
    let count = any_count(random, most);
    if random.one_in(3) {
        hidden_rows(random, n, k, count)
    } else {
        rows(random, n, k, count)
    }
}

/// Rows that overlap on purpose, at times such that about 128 come out.
fn any_overlapping(random: &mut Random, n: usize, k: usize, most: usize) -> Vec<Row> {
    if n >= 8 && random.one_in(3) {
        let out = random.between(127, 130);
        return exact_rows(random, n, k, out);
    }
    let count = any_count(random, most);
    overlapping_rows(random, n, k, count)
}

/// A number of rows, at times near the most.
fn any_count(random: &mut Random, most: usize) -> usize {
    match random.below(6) {
        0 => random.between(most - most / 16, most),
        1 => random.between(1, most),
        _ => random.between(1, 24),
    }
}

/// Rows as they are lent in flat slices, lengths equal or not.
#[derive(Clone, Debug, Default, PartialEq, Eq)]
pub struct LentRows {
    pub masks: Vec<u32>,
    pub values: Vec<u32>,
    pub words: Vec<u32>,
}

impl LentRows {
    pub fn new(rows: &[Row]) -> LentRows {
        LentRows {
            masks: rows.iter().map(|row| row.mask).collect(),
            values: rows.iter().map(|row| row.values).collect(),
            words: rows.iter().map(|row| row.word).collect(),
        }
    }

    /// The rows as a list.
    pub fn list(&self) -> Flat<'_> {
        Flat {
            masks: &self.masks,
            values: &self.values,
            words: &self.words,
        }
    }

    /// The rows as room.
    pub fn room(&mut self) -> FlatRoom<'_> {
        FlatRoom {
            masks: &mut self.masks,
            values: &mut self.values,
            words: &mut self.words,
        }
    }

    /// The rows as records, where the lengths are equal.
    pub fn records(&self) -> Option<Vec<Row>> {
        let count = self.masks.len();
        (self.values.len() == count && self.words.len() == count).then(|| self.list().rows())
    }

    /// Shortens or lengthens one of the slices.
    fn uneven(&mut self, random: &mut Random) {
        let slices = [&mut self.masks, &mut self.values, &mut self.words];
        let index = random.below(slices.len());
        for (i, slice) in slices.into_iter().enumerate() {
            if i == index && random.one_in(2) {
                slice.pop();
            } else if i == index {
                slice.push(0);
            }
        }
    }
}

/// A call of one operation with everything it is lent.
#[derive(Clone, Debug, PartialEq, Eq)]
pub enum Case {
    TableValue {
        n: usize,
        k: usize,
        block_type: usize,
        t: usize,
        table: Vec<u16>,
    },
    TableSpectrum {
        n: usize,
        k: usize,
        block_type: usize,
        table: Vec<u16>,
        values: Vec<u32>,
        working: Vec<i32>,
    },
    TableMethod {
        n: usize,
        k: usize,
        block_type: usize,
        w: usize,
        table: Vec<u16>,
        smaller: Vec<u16>,
        columns: Vec<u32>,
        sigma: Vec<u32>,
    },
    Restore {
        n: usize,
        k: usize,
        block_type: usize,
        sigma: Vec<u32>,
        smaller: Vec<u16>,
        table: Vec<u16>,
    },
    SymmetricBlock {
        n: usize,
        k: usize,
        block_type: usize,
        words: Vec<u16>,
        table: Vec<u16>,
        smaller: Vec<u16>,
    },
    TableSymmetric {
        n: usize,
        k: usize,
        block_type: usize,
        table: Vec<u16>,
    },
    RowValue {
        n: usize,
        k: usize,
        block_type: usize,
        t: usize,
        rows: LentRows,
    },
    RowMethod {
        n: usize,
        k: usize,
        block_type: usize,
        w: usize,
        rows: LentRows,
        smaller: LentRows,
        columns: Vec<u32>,
        sigma: Vec<u32>,
    },
    WhyNot {
        n: usize,
        k: usize,
        block_type: usize,
        w: usize,
        t: usize,
        rows: LentRows,
        taken: [u32; ROW_INPUTS],
    },
    Join {
        n: usize,
        k: usize,
        rows: LentRows,
    },
    Disjoin {
        n: usize,
        k: usize,
        rows: LentRows,
        disjoint: LentRows,
    },
    Fill {
        n: usize,
        k: usize,
        block_type: usize,
        rows: LentRows,
        table: Vec<u16>,
    },
    ReadText {
        text: Vec<u8>,
        rows: LentRows,
    },
    WriteText {
        n: usize,
        k: usize,
        block_type: usize,
        type_line: usize,
        rows: LentRows,
        text: Vec<u8>,
    },
    Sheet {
        n: usize,
        k: usize,
        block_type: usize,
        w: usize,
        rows: LentRows,
        bytes: Vec<u8>,
    },
    Program {
        input: Vec<u8>,
    },
    WriteModel {
        n: usize,
        k: usize,
        block_type: usize,
        w: usize,
        rows: LentRows,
        bytes: Vec<u8>,
    },
    ReadModel {
        text: Vec<u8>,
        matrix: Vec<u32>,
        counts: Vec<usize>,
        masks: Vec<u32>,
        values: Vec<u32>,
    },
    ModelValue {
        n: usize,
        k: usize,
        x: usize,
        matrix: Vec<u32>,
        counts: Vec<usize>,
        masks: Vec<u32>,
        values: Vec<u32>,
    },
    PrintModel {
        input: Vec<u8>,
    },
    PrintJoined {
        input: Vec<u8>,
    },
    PrintDisjoint {
        input: Vec<u8>,
    },
}

impl Case {
    /// The case of a seed.
    pub fn new(seed: u64) -> Case {
        let random = &mut Random::new(seed);
        match random.below(22) {
            0 => {
                let ([n, k, block_type], table) = any_table(random);
                let t = number(random, 0, (1 << n.min(16)) - 1);
                Case::TableValue {
                    n,
                    k,
                    block_type,
                    t,
                    table,
                }
            }
            1 => {
                let ([n, k, block_type], table) = any_table(random);
                Case::TableMethod {
                    n,
                    k,
                    block_type,
                    w: number(random, 1, n.clamp(1, 16)),
                    table,
                    smaller: entries(random, 1 << n.min(16)),
                    columns: numbers(random, n.min(64)),
                    sigma: numbers(random, n.min(64)),
                }
            }
            2 => {
                let ([n, k, block_type], smaller) = any_table(random);
                let mut sigma = matrix_rows(random, n.clamp(1, 16));
                if random.one_in(12) {
                    let index = random.below(sigma.len());
                    sigma[index] |= 1 << random.between(n.min(31), 31);
                }
                if random.one_in(16) {
                    uneven(random, &mut sigma);
                }
                let table = entries(random, 1 << n.min(16));
                Case::Restore {
                    n,
                    k,
                    block_type,
                    sigma,
                    smaller,
                    table,
                }
            }
            3 => {
                let ([n, k, block_type], rows) = any_list(random, ROW_INPUTS, ROWS);
                let t = number(random, 0, (1 << n.min(16)) - 1);
                Case::RowValue {
                    n,
                    k,
                    block_type,
                    t,
                    rows,
                }
            }
            4 => {
                let ([n, k, block_type, w], rows) = method_list(random);
                let smaller = lent_rows(random, SMALLER_ROWS);
                Case::RowMethod {
                    n,
                    k,
                    block_type,
                    w,
                    rows,
                    smaller,
                    columns: numbers(random, n.min(64)),
                    sigma: numbers(random, n.min(64)),
                }
            }
            5 => {
                let ([n, k, block_type], rows) = any_list(random, TABLE_INPUTS, FILL_ROWS);
                let table = entries(random, 1 << n.min(16));
                Case::Fill {
                    n,
                    k,
                    block_type,
                    rows,
                    table,
                }
            }
            6 => {
                let text = any_text(random);
                // The .p count where the text still has it, else any.
                let due = split(&text)
                    .iter()
                    .find_map(|line| line.strip_prefix(b".p "))
                    .and_then(|digits| std::str::from_utf8(digits).ok()?.parse().ok())
                    .map_or(ROWS, |due: usize| due.min(1_000));
                let rows = lent_rows(random, due);
                Case::ReadText { text, rows }
            }
            7 => {
                let ([n, k, block_type], rows) = any_list(random, ROW_INPUTS, ROWS);
                // Under fr the line is asked for; any number but 0 asks for it.
                let least = usize::from(block_type == FR && !random.one_in(12));
                let type_line = random.pick(&[least, 1, 1, 2, usize::MAX]);
                let text = bytes(random, TEXT_ROOM);
                Case::WriteText {
                    n,
                    k,
                    block_type,
                    type_line,
                    rows,
                    text,
                }
            }
            8 => {
                let ([n, k, block_type, w], rows) = method_list(random);
                let bytes = bytes(random, SHEET_ROOM);
                Case::Sheet {
                    n,
                    k,
                    block_type,
                    w,
                    rows,
                    bytes,
                }
            }
            9 => Case::Program {
                input: any_text(random),
            },
            10 => {
                let ([n, k, block_type, w], rows) = method_list(random);
                let mut bytes = vec![0; MODEL_ROOM];
                let written = fast::write_model(n, k, block_type, w, rows.list(), &mut bytes);
                // The model's own length, or any where there is no model.
                let due = match written.number {
                    0 => written.results,
                    _ => random.below(999),
                };
                let room = models::near(random, due);
                Case::WriteModel {
                    n,
                    k,
                    block_type,
                    w,
                    rows,
                    bytes: (0..room).map(|_| random.word(8) as u8).collect(),
                }
            }
            11 => {
                let text = models::model_text(random);
                let [n, k, patterns] = models::rooms_due(&text);
                let mut lent = |due: usize| -> Vec<u32> {
                    let room = models::near(random, due);
                    (0..room).map(|_| random.word(32)).collect()
                };
                let [matrix, counts, masks] = [lent(n), lent(k), lent(patterns)];
                let mut values = masks.clone();
                if random.one_in(12) {
                    uneven(random, &mut values);
                }
                Case::ReadModel {
                    text,
                    matrix,
                    counts: counts.into_iter().map(|count| count as usize).collect(),
                    masks,
                    values,
                }
            }
            12 => {
                let models::Asked {
                    numbers: [n, k, x],
                    matrix,
                    counts,
                    masks,
                    values,
                } = models::asked(random);
                Case::ModelValue {
                    n,
                    k,
                    x,
                    matrix,
                    counts,
                    masks,
                    values,
                }
            }
            13 => Case::PrintModel {
                input: any_text(random),
            },
            14 => {
                let ([n, k, block_type], table) = spectrum_table(random);
                Case::TableSpectrum {
                    n,
                    k,
                    block_type,
                    table,
                    values: numbers(random, 1 << n.min(16)),
                    working: signed(random, 1 << n.min(16)),
                }
            }
            15 => {
                let ([n, k, block_type], words) = any_entries(random, words_by_ones);
                Case::SymmetricBlock {
                    n,
                    k,
                    block_type,
                    words,
                    table: entries(random, 1 << n.min(16)),
                    smaller: entries(random, 1 << n.min(16)),
                }
            }
            16 => {
                let ([n, k, block_type], table) = any_entries(random, table_asked);
                Case::TableSymmetric {
                    n,
                    k,
                    block_type,
                    table,
                }
            }
            17 => {
                let (numbers, rows) = method_list(random);
                let [n, k, block_type, w] = numbers;
                let t = any_asked(random, numbers, &rows);
                Case::WhyNot {
                    n,
                    k,
                    block_type,
                    w,
                    t,
                    rows,
                    taken: [(); ROW_INPUTS].map(|()| random.word(32)),
                }
            }
            18 => {
                let ([n, k], rows) = joining_list(random);
                Case::Join { n, k, rows }
            }
            19 => Case::PrintJoined {
                input: any_joining_text(random),
            },
            20 => {
                let ([n, k], rows) = overlapping_list(random);
                let disjoint = lent_rows(random, ROWS);
                Case::Disjoin {
                    n,
                    k,
                    rows,
                    disjoint,
                }
            }
            _ => Case::PrintDisjoint {
                input: any_overlapping_text(random),
            },
        }
    }

    /// Runs the call on flat slices: number, A, B and the results in order; what
    /// was lent then holds what the operation left in it. What the program
    /// prints takes the place of its input.
    pub fn run<O: Operations>(&mut self) -> Answer<Vec<u64>> {
        match self {
            Case::TableValue {
                n,
                k,
                block_type,
                t,
                table,
            } => flat(O::table_value(*n, *k, *block_type, *t, table), |value| {
                vec![value]
            }),
            Case::TableSpectrum {
                n,
                k,
                block_type,
                table,
                values,
                working,
            } => flat(
                O::table_spectrum(*n, *k, *block_type, table, values, working),
                |()| vec![],
            ),
            Case::TableMethod {
                n,
                k,
                block_type,
                w,
                table,
                smaller,
                columns,
                sigma,
            } => flat(
                O::table_method(*n, *k, *block_type, *w, table, smaller, columns, sigma),
                |measures| vec![measures.before, measures.after],
            ),
            Case::Restore {
                n,
                k,
                block_type,
                sigma,
                smaller,
                table,
            } => flat(
                O::restore(*n, *k, *block_type, sigma, smaller, table),
                |()| vec![],
            ),
            Case::SymmetricBlock {
                n,
                k,
                block_type,
                words,
                table,
                smaller,
            } => flat(
                O::symmetric_block(*n, *k, *block_type, words, table, smaller),
                |measures| vec![measures.before, measures.after],
            ),
            Case::TableSymmetric {
                n,
                k,
                block_type,
                table,
            } => flat(O::table_symmetric(*n, *k, *block_type, table), |is| {
                vec![u64::from(is)]
            }),
            Case::RowValue {
                n,
                k,
                block_type,
                t,
                rows,
            } => flat(
                O::row_value(*n, *k, *block_type, *t, rows.list()),
                |value| vec![value],
            ),
            Case::RowMethod {
                n,
                k,
                block_type,
                w,
                rows,
                smaller,
                columns,
                sigma,
            } => flat(
                O::row_method(
                    *n,
                    *k,
                    *block_type,
                    *w,
                    rows.list(),
                    smaller.room(),
                    columns,
                    sigma,
                ),
                smaller_results,
            ),
            Case::WhyNot {
                n,
                k,
                block_type,
                w,
                t,
                rows,
                taken,
            } => flat(
                O::why_not(*n, *k, *block_type, *w, *t, rows.list(), taken),
                reason_results,
            ),
            Case::Join { n, k, rows } => {
                flat(O::join(*n, *k, rows.room()), |left| vec![left as u64])
            }
            Case::Disjoin {
                n,
                k,
                rows,
                disjoint,
            } => flat(O::disjoin(*n, *k, rows.list(), disjoint.room()), |count| {
                vec![count as u64]
            }),
            Case::Fill {
                n,
                k,
                block_type,
                rows,
                table,
            } => flat(
                O::fill(*n, *k, *block_type, rows.list(), table),
                |()| vec![],
            ),
            Case::ReadText { text, rows } => flat(O::read_text(text, rows.room()), head_results),
            Case::WriteText {
                n,
                k,
                block_type,
                type_line,
                rows,
                text,
            } => flat(
                O::write_text(*n, *k, *block_type, *type_line, rows.list(), text),
                |count| vec![count as u64],
            ),
            Case::Sheet {
                n,
                k,
                block_type,
                w,
                rows,
                bytes,
            } => flat(
                O::sheet(*n, *k, *block_type, *w, rows.list(), bytes),
                |count| vec![count as u64],
            ),
            Case::Program { input } => {
                *input = O::program(input);
                Answer::default()
            }
            Case::WriteModel {
                n,
                k,
                block_type,
                w,
                rows,
                bytes,
            } => flat(
                O::write_model(*n, *k, *block_type, *w, rows.list(), bytes),
                |count| vec![count as u64],
            ),
            Case::ReadModel {
                text,
                matrix,
                counts,
                masks,
                values,
            } => flat(
                O::read_model(text, matrix, counts, masks, values),
                model_results,
            ),
            Case::ModelValue {
                n,
                k,
                x,
                matrix,
                counts,
                masks,
                values,
            } => flat(
                O::model_value(*n, *k, *x, matrix, counts, masks, values),
                |word| vec![word],
            ),
            Case::PrintModel { input } => {
                *input = O::print_model(input);
                Answer::default()
            }
            Case::PrintJoined { input } => {
                *input = O::print_joined(input);
                Answer::default()
            }
            Case::PrintDisjoint { input } => {
                *input = O::print_disjoint(input);
                Answer::default()
            }
        }
    }

    /// Runs the call on records, where the operation has that form and the lent
    /// slices have equal lengths.
    pub fn run_records<O: Operations>(&mut self) -> Option<Answer<Vec<u64>>> {
        let answer = match self {
            Case::RowValue {
                n,
                k,
                block_type,
                t,
                rows,
            } => {
                let rows = rows.records()?;
                flat(
                    O::row_value_records(*n, *k, *block_type, *t, &rows),
                    |value| vec![value],
                )
            }
            Case::RowMethod {
                n,
                k,
                block_type,
                w,
                rows,
                smaller,
                columns,
                sigma,
            } => {
                let [rows, mut room] = [rows.records()?, smaller.records()?];
                let answer = O::row_method_records(
                    *n,
                    *k,
                    *block_type,
                    *w,
                    &rows,
                    &mut room,
                    columns,
                    sigma,
                );
                *smaller = LentRows::new(&room);
                flat(answer, smaller_results)
            }
            Case::WhyNot {
                n,
                k,
                block_type,
                w,
                t,
                rows,
                taken,
            } => {
                let rows = rows.records()?;
                flat(
                    O::why_not_records(*n, *k, *block_type, *w, *t, &rows, taken),
                    reason_results,
                )
            }
            Case::Join { n, k, rows } => {
                let mut list = rows.records()?;
                let answer = O::join_records(*n, *k, &mut list);
                *rows = LentRows::new(&list);
                flat(answer, |left| vec![left as u64])
            }
            Case::Disjoin {
                n,
                k,
                rows,
                disjoint,
            } => {
                let [rows, mut room] = [rows.records()?, disjoint.records()?];
                let answer = O::disjoin_records(*n, *k, &rows, &mut room);
                *disjoint = LentRows::new(&room);
                flat(answer, |count| vec![count as u64])
            }
            Case::Fill {
                n,
                k,
                block_type,
                rows,
                table,
            } => {
                let rows = rows.records()?;
                flat(
                    O::fill_records(*n, *k, *block_type, &rows, table),
                    |()| vec![],
                )
            }
            Case::ReadText { text, rows } => {
                let mut room = rows.records()?;
                let answer = O::read_text_records(text, &mut room);
                *rows = LentRows::new(&room);
                flat(answer, head_results)
            }
            Case::WriteText {
                n,
                k,
                block_type,
                type_line,
                rows,
                text,
            } => {
                let rows = rows.records()?;
                flat(
                    O::write_text_records(*n, *k, *block_type, *type_line, &rows, text),
                    |count| vec![count as u64],
                )
            }
            Case::Sheet {
                n,
                k,
                block_type,
                w,
                rows,
                bytes,
            } => {
                let rows = rows.records()?;
                flat(
                    O::sheet_records(*n, *k, *block_type, *w, &rows, bytes),
                    |count| vec![count as u64],
                )
            }
            Case::WriteModel {
                n,
                k,
                block_type,
                w,
                rows,
                bytes,
            } => {
                let rows = rows.records()?;
                flat(
                    O::write_model_records(*n, *k, *block_type, *w, &rows, bytes),
                    |count| vec![count as u64],
                )
            }
            _ => return None,
        };
        Some(answer)
    }
}

/// An answer with its results as plain numbers.
fn flat<R>(answer: Answer<R>, results: impl FnOnce(R) -> Vec<u64>) -> Answer<Vec<u64>> {
    Answer {
        number: answer.number,
        a: answer.a,
        b: answer.b,
        results: results(answer.results),
    }
}

fn smaller_results(smaller: Smaller) -> Vec<u64> {
    vec![smaller.before, smaller.after, smaller.rows as u64]
}

/// Which reason it is, from 1 in 02's order, with its step and its set; all 0 with a
/// refusal.
fn reason_results(reason: Option<Reason>) -> Vec<u64> {
    match reason {
        None => vec![0, 0, 0],
        Some(Reason::Zero) => vec![1, 0, 0],
        Some(Reason::Over) => vec![2, 0, 0],
        Some(Reason::Taken { step }) => vec![3, step as u64, 0],
        Some(Reason::Xor { set }) => vec![4, 0, u64::from(set)],
    }
}

fn head_results(head: TextHead) -> Vec<u64> {
    let TextHead {
        n,
        k,
        block_type,
        type_line,
        rows,
    } = head;
    [n, k, block_type, type_line, rows]
        .map(|result| result as u64)
        .to_vec()
}

fn model_results(head: ModelHead) -> Vec<u64> {
    let ModelHead { n, k, patterns } = head;
    [n, k, patterns].map(|result| result as u64).to_vec()
}

/// n, k, the type and a table, mostly within their ranges.
fn any_table(random: &mut Random) -> ([usize; 3], Vec<u16>) {
    any_entries(random, table)
}

/// The same for the entries that `draw` gives for n and k, of a table or of another
/// kind. At times they have 65,535 where that is malformed.
fn any_entries(
    random: &mut Random,
    draw: fn(&mut Random, usize, usize) -> Vec<u16>,
) -> ([usize; 3], Vec<u16>) {
    let most = random.pick(&[4, 6, 8, TABLE_INPUTS]);
    let n = number(random, 1, most);
    let k = number(random, 1, OUTPUTS);
    let block_type = any_type(random);
    let mut entries = draw(random, n.clamp(1, 13), k.clamp(1, OUTPUTS));
    if !random.one_in(8) {
        for entry in entries.iter_mut().filter(|entry| **entry == NO_OUTPUT) {
            *entry = missing(block_type);
        }
    }
    if random.one_in(12) {
        let index = random.below(entries.len());
        let above = 1u16.checked_shl(k as u32).unwrap_or(40_000);
        let any = random.word(16) as u16;
        entries[index] = random.pick(&[65_534, 32_768, above, any]);
    }
    if random.one_in(16) {
        uneven(random, &mut entries);
    }
    ([n, k, block_type], entries)
}

/// The same for the spectrum. Up to 8 inputs one table in four has any words, about
/// as many as there are points; with more inputs the plain form takes long on these.
fn spectrum_table(random: &mut Random) -> ([usize; 3], Vec<u16>) {
    let ([n, k, block_type], mut table) = any_table(random);
    if n <= 8 && random.one_in(4) {
        let outputs = k.clamp(1, OUTPUTS);
        for entry in table.iter_mut().filter(|entry| **entry < 1 << outputs) {
            *entry = random.word(outputs) as u16;
        }
    }
    ([n, k, block_type], table)
}

/// n, k, the type and a list, mostly within their ranges and disjoint.
fn any_list(random: &mut Random, inputs: usize, most: usize) -> ([usize; 3], LentRows) {
    let n = number(random, 1, inputs);
    let k = number(random, 1, OUTPUTS);
    let mut rows = any_rows(random, n.clamp(1, 20), k.clamp(1, OUTPUTS), most);
    let lent = harmed(random, n, k, most, &mut rows);
    ([n, k, any_type(random)], lent)
}

/// n, k, the type, w and a list for the row method, at times with about 512
/// smaller rows.
fn method_list(random: &mut Random) -> ([usize; 4], LentRows) {
    if random.one_in(12) {
        let ([n, k, block_type, w], mut rows) = rows_near_512(random, 24);
        // With a column more that is 0 in every row R and T are the same, so that a list
        // that passes 512 rows still would.
        if k < OUTPUTS && random.one_in(4) {
            mislay_column(random, k, &mut rows);
            return ([n, k + 1, block_type, w], LentRows::new(&rows));
        }
        return ([n, k, block_type, w], LentRows::new(&rows));
    }
    let ([n, k, block_type], rows) = any_list(random, ROW_INPUTS, ROWS);
    // Few cases with many candidates, for they take long.
    let most = if n < 14 && random.one_in(20) { n } else { 4 };
    let w = number(random, 1, n.min(most).max(1));
    ([n, k, block_type, w], rows)
}

/// n, k and a list to be joined, mostly within their ranges and disjoint, and with many
/// rows that join.
pub fn joining_list(random: &mut Random) -> ([usize; 2], LentRows) {
    let n = number(random, 1, ROW_INPUTS);
    let k = number(random, 1, OUTPUTS);
    let [inputs, outputs] = [n.clamp(1, 20), k.clamp(1, OUTPUTS)];
    let count = match random.below(12) {
        0 => JOIN_ROWS,
        _ => any_count(random, JOIN_ROWS),
    };
    let mut rows = match random.below(8) {
        0 => any_rows(random, inputs, outputs, JOIN_ROWS),
        1 => smaller_list(random, inputs.min(ROW_INPUTS), outputs, count.min(ROWS)),
        _ => split_rows(random, inputs, outputs, count),
    };
    let lent = harmed(random, n, k, JOIN_ROWS, &mut rows);
    ([n, k], lent)
}

/// n, k and a list that overlaps on purpose, mostly within their ranges.
pub fn overlapping_list(random: &mut Random) -> ([usize; 2], LentRows) {
    let n = number(random, 1, ROW_INPUTS);
    let k = number(random, 1, OUTPUTS);
    let mut rows = any_overlapping(random, n.clamp(1, 20), k.clamp(1, OUTPUTS), ROWS);
    let lent = harmed(random, n, k, ROWS, &mut rows);
    ([n, k], lent)
}

/// A t for the question why it was not taken, mostly below 2^n and near what was taken;
/// of a list that is refused any numbers are.
fn any_asked(random: &mut Random, [n, k, block_type, w]: [usize; 4], rows: &LentRows) -> usize {
    let inputs = n.clamp(1, ROW_INPUTS);
    if random.one_in(4) {
        return number(random, 0, (1 << inputs) - 1);
    }
    let mut taken = [(); ROW_INPUTS].map(|()| random.word(inputs));
    fast::why_not(n, k, block_type, w, 0, rows.list(), &mut taken);
    asked_number(random, inputs, w.min(inputs), &taken[..inputs])
}

/// The list with harm at times: columns undriven, and beside that too many rows or none,
/// records, overlaps, unequal lengths.
fn harmed(random: &mut Random, n: usize, k: usize, most: usize, rows: &mut Vec<Row>) -> LentRows {
    if random.one_in(6) {
        undrive(random, k.clamp(1, OUTPUTS), rows);
    }
    match random.below(32) {
        0 => rows.clear(),
        1 => rows.resize(most + 1, Row::default()),
        2 | 3 => harm_record(random, n, k, rows),
        4 | 5 => overlap(random, n, rows),
        6 => {
            overlap(random, n, rows);
            harm_record(random, n, k, rows);
        }
        _ => (),
    }
    let mut lent = LentRows::new(rows);
    if random.one_in(24) {
        lent.uneven(random);
    }
    lent
}

/// A text for the reader, whole or damaged.
fn any_text(random: &mut Random) -> Vec<u8> {
    if random.one_in(2) {
        text(random)
    } else {
        damaged_text(random)
    }
}

/// A text whose rows are to be joined, mostly with many that join, whole or damaged.
pub fn any_joining_text(random: &mut Random) -> Vec<u8> {
    let text = match random.below(4) {
        0 => text(random),
        _ => joining_text(random),
    };
    if random.one_in(2) {
        text
    } else {
        damaged(random, text)
    }
}

/// A text whose rows are to be made disjoint, whole or damaged.
pub fn any_overlapping_text(random: &mut Random) -> Vec<u8> {
    let text = overlapping_text(random);
    if random.one_in(2) {
        text
    } else {
        damaged(random, text)
    }
}

/// Takes the last item away or puts it there twice.
fn uneven<T: Copy>(random: &mut Random, items: &mut Vec<T>) {
    match items.last().copied() {
        Some(last) if random.one_in(2) => items.push(last),
        _ => drop(items.pop()),
    }
}

/// Lent table entries with any contents.
fn entries(random: &mut Random, due: usize) -> Vec<u16> {
    let count = room(random, due);
    (0..count).map(|_| random.word(16) as u16).collect()
}

/// Lent numbers with any contents.
fn numbers(random: &mut Random, due: usize) -> Vec<u32> {
    let count = room(random, due);
    (0..count).map(|_| random.word(32)).collect()
}

/// Lent room for rows with any contents, mostly of equal lengths.
fn lent_rows(random: &mut Random, due: usize) -> LentRows {
    let masks = numbers(random, due);
    let mut rows = LentRows {
        values: masks.clone(),
        words: masks.clone(),
        masks,
    };
    if random.one_in(16) {
        rows.uneven(random);
    }
    rows
}

/// Lent signed numbers with any contents, the ends of their range among them.
fn signed(random: &mut Random, due: usize) -> Vec<i32> {
    let count = room(random, due);
    let any = |random: &mut Random| match random.below(8) {
        0 => random.pick(&[i32::MIN, i32::MAX, -1, 0, 1]),
        _ => random.word(32) as i32,
    };
    (0..count).map(|_| any(random)).collect()
}

/// Lent bytes with any contents.
fn bytes(random: &mut Random, due: usize) -> Vec<u8> {
    let count = room(random, due);
    (0..count).map(|_| random.word(8) as u8).collect()
}
