//! What 02 asks to be shown of answers together, on inputs from a seed, for any
//! implementation: symmetric blocks (Ticket 6), why a number was not taken (Ticket
//! 7), columns that no row drives (Ticket 8), joined lists (Ticket 9) and disjoint ones
//! (Ticket 10), what is printed of either among these, on any text. Not here: the demands on
//! both methods, which are in tests/agree.rs.

use crate::inputs::{self, LentRows, Random};
use crate::{checks, matrix, missing, symmetric, Fast, Measures, Operations, Plain, Reason, Row};
use crate::{TextHead, FD, FR, JOIN_ROWS, MODEL_ROOM, NO_OUTPUT, PROGRAM_READS, ROWS};
use crate::{ROW_INPUTS, SHEET_ROOM, SMALLER_ROWS, TEXT_ROOM};

/// A symmetric block of n inputs: its table is called symmetric, and with another entry
/// it is not; R is equal at all numbers with as many one-bits; the measures are the sums
/// of R at the units and at the columns, and the second is not below the first; and
/// restoring with the inverse of the columns, whose row j is 2^n - 2^j, gives the table
/// back. R is worked out by the reference.
pub fn symmetric_block<O: Operations>(n: usize, seed: u64) {
    let name = format!("{n} inputs, seed {seed}");
    let random = &mut Random::new(seed);
    let (k, y, words) = drawn_words(random, n);
    let size = 1 << n;
    let [mut table, mut smaller] = [vec![7; size], vec![7; size]];
    let got = O::symmetric_block(n, k, y, &words, &mut table, &mut smaller);
    assert_eq!(got.number, 0, "{name}");

    let is_symmetric = |table: &[u16]| {
        let got = O::table_symmetric(n, k, y, table);
        assert_eq!(got.number, 0, "{name}");
        got.results
    };
    assert!(is_symmetric(&table), "{name}");
    // All points but the first and the last have others with as many one-bits.
    for x in (1..size - 1).filter(|&x| x < 9 || x + 9 > size) {
        let mut other = table.clone();
        other[x] = u16::from(other[x] != 1);
        assert!(!is_symmetric(&other), "{name}, point {x}");
    }

    let mut values = vec![0; size];
    Fast::table_spectrum(n, k, y, &table, &mut values, &mut vec![0; size]);
    for t in 1..size {
        let least = (1 << t.count_ones()) - 1;
        assert_eq!(values[t], values[least], "{name}, t {t}");
    }
    let sum = |numbers: &[u32]| {
        let values = numbers.iter().map(|&t| u64::from(values[t as usize]));
        values.sum::<u64>()
    };
    let units: Vec<u32> = (0..n).map(|j| 1 << j).collect();
    let columns = symmetric::columns(n);
    let Measures { before, after } = got.results;
    assert_eq!([before, after], [sum(&units), sum(&columns)], "{name}");
    assert!(before <= after, "{name}");

    let sigma: Vec<u32> = (0..n).map(|j| (1 << n) - (1 << j)).collect();
    assert_eq!(sigma, matrix::inverse(&columns), "{name}");
    let mut restored = vec![7; size];
    let back = O::restore(n, k, y, &sigma, &smaller, &mut restored);
    assert_eq!(back.number, 0, "{name}");
    assert!(restored == table, "{name}");
}

/// k, the type, and a word for each number of one-bits, none malformed under that type.
fn drawn_words(random: &mut Random, n: usize) -> (usize, usize, Vec<u16>) {
    let k = random.between(1, 15);
    let mut words = inputs::words_by_ones(random, n, k);
    let block_type = random.pick(&[FR, FD]);
    if block_type == FD {
        let open = words.iter_mut().filter(|word| **word == NO_OUTPUT);
        open.for_each(|word| *word = 0);
    }
    (k, block_type, words)
}

/// What the numbers that an operation takes are lent before the call.
const HELD: u32 = 0xABCD_1234;

/// A list of n inputs and numbers that are asked of it, every one below 2^n up to 8
/// inputs: each has the first of 02's reasons that holds of it, exactly where that holds;
/// the set that is named is the only one of taken numbers with that XOR, and each number
/// of it stands before t. The numbers that were taken come with every answer, the same
/// ones, and are the columns of T. R is worked out by the reference.
pub fn reasons<O: Operations>(n: usize, seed: u64) {
    let random = &mut Random::new(seed);
    let (numbers, rows) = drawn_list(random, n);
    let [k, y, w] = numbers;
    let name = format!("{n} inputs, seed {seed}");
    let flat = LentRows::new(&rows);
    let value = |t: u32| Fast::row_value_records(n, k, y, t as usize, &rows).results;
    let place = |t: u32| matrix::place(t, value(t));
    let ask = |t: u32| {
        let [mut taken, mut same] = [[HELD; ROW_INPUTS]; 2];
        let got = O::why_not_records(n, k, y, w, t as usize, &rows, &mut taken);
        let also = O::why_not(n, k, y, w, t as usize, flat.list(), &mut same);
        assert_eq!((got, taken), (also, same), "{name}, t {t}");
        assert_eq!(got.number, 0, "{name}, t {t}");
        assert!(taken[n..].iter().all(|&number| number == HELD), "{name}");
        (got.results.expect("an answer has a reason"), taken)
    };

    let (_, lent) = ask(0);
    let taken = &lent[..n];
    let candidates: Vec<(u32, u64)> = matrix::candidates(n, w).map(|t| (t, value(t))).collect();
    assert_eq!(taken, matrix::basis(n, &candidates), "{name}");
    // entry z is the XOR of the numbers taken at the steps of the set z
    let sums: Vec<u32> = (0..1 << n)
        .map(|z| matrix::times_columns(taken, z))
        .collect();

    let asked: Vec<u32> = match n {
        0..=8 => (0..1 << n).collect(),
        _ => (0..24)
            .map(|_| inputs::asked_number(random, n, w, taken) as u32)
            .collect(),
    };
    for t in asked {
        let name = format!("{name}, t {t}");
        let (reason, same) = ask(t);
        assert_eq!(same, lent, "{name}");
        let over = t.count_ones() as usize > w;
        let step = (1..=n).find(|&step| taken[step - 1] == t);
        assert_eq!(reason == Reason::Zero, t == 0, "{name}");
        assert_eq!(reason == Reason::Over, over, "{name}");
        match (reason, step) {
            (Reason::Taken { step }, due) => assert_eq!(Some(step), due, "{name}"),
            (_, step) => assert_eq!(step, None, "{name}"),
        }
        if let Reason::Xor { set } = reason {
            let sets: Vec<usize> = (0..1 << n).filter(|&z| sums[z] == t).collect();
            assert_eq!(sets, [set as usize], "{name}");
            let in_set = (0..n).filter(|j| set >> j & 1 == 1);
            let own = place(t);
            for number in in_set.map(|j| taken[j]) {
                assert!(place(number) < own, "{name}, {number}");
            }
        }
    }
}

/// k, the type, a weight limit and a list of n inputs; with many of these the limit is at
/// most 4, for more numbers take long.
fn drawn_list(random: &mut Random, n: usize) -> ([usize; 3], Vec<Row>) {
    let k = random.between(1, 15);
    let y = random.pick(&[FR, FD]);
    let w = random.between(1, if n < 10 { n } else { 4 });
    let count = random.pick(&[8, 24, ROWS]);
    let count = random.between(1, count);
    let rows = match random.below(2) {
        0 => inputs::rows(random, n, k, count),
        _ => inputs::hidden_rows(random, n, k, count),
    };
    ([k, y, w], rows)
}

/// A list of at most 12 inputs with columns taken away, or none: where a column is 0 in
/// every row, all six operations that look for it answer 11 with the lowest such output
/// bit, and writing its text does not; else the smaller rows drive the same columns as the
/// rows given, and they are filled.
pub fn driven_columns<O: Operations>(seed: u64) {
    let name = format!("seed {seed}");
    let random = &mut Random::new(seed);
    let n = random.between(1, 12);
    let ([k, y, w], mut rows) = drawn_list(random, n);
    if random.one_in(2) {
        inputs::undrive(random, k, &mut rows);
    }
    // The bits from the lowest one that are driven, counted: k where all are.
    let ones = |rows: &[Row]| rows.iter().fold(0, |ones, row| ones | row.word);
    let lowest = ones(&rows).trailing_ones();
    let due = match lowest as usize == k {
        true => [0, 0, 0],
        false => [11, lowest, 0],
    };

    let mut text = vec![0; TEXT_ROOM];
    let wrote = O::write_text_records(n, k, y, 1, &rows, &mut text);
    assert_eq!(wrote.number, 0, "{name}");
    let t = random.below(1 << n);
    let value = O::row_value_records(n, k, y, t, &rows);
    assert_eq!([value.number, value.a, value.b], due, "{name}");
    let why = O::why_not_records(n, k, y, w, t, &rows, &mut [0; ROW_INPUTS]);
    assert_eq!([why.number, why.a, why.b], due, "{name}");
    let fill = |rows: &[Row]| {
        let mut table = vec![0; 1 << n];
        let filled = O::fill_records(n, k, y, rows, &mut table);
        [filled.number, filled.a, filled.b]
    };
    assert_eq!(fill(&rows), due, "{name}");

    // The list may pass 512 rows where all columns are driven.
    let due = |number| match (due, number) {
        ([0, ..], 9) => None,
        _ => Some(due),
    };
    let mut smaller = vec![Row::default(); SMALLER_ROWS];
    let [mut columns, mut sigma] = [[0; ROW_INPUTS]; 2];
    let [t, s] = [&mut columns, &mut sigma];
    let moved = O::row_method_records(n, k, y, w, &rows, &mut smaller, t, s);
    let sheet = O::sheet_records(n, k, y, w, &rows, &mut vec![0; SHEET_ROOM]);
    let model = O::write_model_records(n, k, y, w, &rows, &mut vec![0; MODEL_ROOM]);
    for got in [
        [moved.number, moved.a, moved.b],
        [sheet.number, sheet.a, sheet.b],
        [model.number, model.a, model.b],
    ] {
        assert_eq!(got, due(got[0]).unwrap_or(got), "{name}");
    }
    if moved.number == 0 {
        let smaller = &smaller[..moved.results.rows];
        assert_eq!(ones(smaller), ones(&rows), "{name}");
        assert_eq!(fill(smaller), [0, 0, 0], "{name}");
    }
}

/// A list of n inputs, joined: no two rows that are left join, the rows are well formed
/// and disjoint, the block is the same at each point under either type, there are never
/// more rows, and fewer exactly where two of them joined; each row that was given lies in
/// one that is left, and these stand in the order of the first given row that they hold.
/// The freed records are zeros, and joining what is left changes nothing.
pub fn joined<O: Operations>(n: usize, seed: u64) {
    let name = format!("{n} inputs, seed {seed}");
    let random = &mut Random::new(seed);
    let k = random.between(1, 15);
    let count = random.pick(&[8, 24, ROWS, JOIN_ROWS]);
    let count = random.between(1, count);
    let mut given = match random.below(3) {
        0 => inputs::smaller_list(random, n, k, count.min(ROWS)),
        _ => inputs::split_rows(random, n, k, count),
    };
    // Columns that no row drives are not looked for.
    if random.one_in(4) {
        inputs::undrive(random, k, &mut given);
    }
    let (left, freed) = join_of::<O>(&name, [n, k], &given);
    assert!(!left.is_empty(), "{name}");
    assert!(freed.iter().all(|row| *row == Row::default()), "{name}");
    assert_eq!(any_join(&given), !freed.is_empty(), "{name}");
    assert!(!any_join(&left), "{name}");
    assert_eq!(checks::records(n, k, &left), Ok(()), "{name}");
    assert_eq!(checks::disjoint(&left), Ok(()), "{name}");
    for y in [FR, FD] {
        let [before, after] = [&given, &left].map(|rows| block(n, y, rows));
        assert!(before == after, "{name}, type {y}");
    }

    let lies_in = |part: &Row, row: &Row| {
        part.word == row.word && part.mask & row.mask == row.mask && row.covers(part.values)
    };
    let holder = |part: &Row| left.iter().position(|row| lies_in(part, row));
    let holders: Vec<usize> = given.iter().filter_map(holder).collect();
    assert_eq!(holders.len(), given.len(), "{name}");
    // Each holder is met first after those before it.
    let mut next = 0;
    for holder in holders {
        assert!(holder <= next, "{name}");
        next = next.max(holder + 1);
    }
    assert_eq!(next, left.len(), "{name}");

    let (again, more) = join_of::<O>(&name, [n, k], &left);
    assert!(again == left && more.is_empty(), "{name}");
}

/// Every list of one or two inputs with up to four rows, each with word 0 or 1, disjoint or
/// not, joined as the plain operation has it.
pub fn small_joins<O: Operations>() {
    for n in 1..=2 {
        for given in small_lists(n, 4, &[0, 1]) {
            let [mut due, mut got] = [given.clone(), given.clone()];
            let mut flat = LentRows::new(&given);
            let answer = Plain::join_records(n, 1, &mut due);
            assert_eq!(O::join_records(n, 1, &mut got), answer, "{given:?}");
            assert_eq!(O::join(n, 1, flat.room()), answer, "{given:?}");
            assert!(got == due && flat == LentRows::new(&due), "{given:?}");
        }
    }
}

/// Every list of n inputs with one to `most` rows, each with one of the words.
fn small_lists(n: usize, most: usize, words: &[u32]) -> Vec<Vec<Row>> {
    let mut kinds = Vec::new();
    for mask in 0..1 << n {
        for values in (0..=mask).filter(|values| values & !mask == 0) {
            kinds.extend(words.iter().map(|&word| Row { mask, values, word }));
        }
    }
    let longer = |list: &Vec<Row>, row: &Row| [&list[..], &[*row]].concat();
    let mut all: Vec<Vec<Row>> = Vec::new();
    let mut lists = vec![Vec::new()];
    for _ in 0..most {
        let with_each = |list| kinds.iter().map(move |row| longer(list, row));
        lists = lists.iter().flat_map(with_each).collect();
        all.extend_from_slice(&lists);
    }
    all
}

/// What is printed of a text's joined rows, which is given. The text is refused where its
/// sheet is, but for 9 and 11, and with the same line. Else row text is printed, which
/// begins as the text does, up to its number of rows, and which is printed again as it is.
/// The block is the same, so that the sheet is too, up to its table, and so is 11. The
/// sheets are the fast operation's, for the plain one takes long.
pub fn printed_joined<O: Operations>(name: &str, text: &[u8]) -> String {
    let string = |bytes: Vec<u8>| String::from_utf8(bytes).expect("ASCII");
    let sheet = string(Fast::program(text));
    let printed = string(O::print_joined(text));
    let [passed, undriven] = ["refused 9 ", "refused 11 "].map(|line| sheet.starts_with(line));
    if sheet.starts_with("refused") && !passed && !undriven {
        assert_eq!(printed, sheet, "{name}");
        return printed;
    }
    let (front, _) = printed.split_once(".p ").expect("row text");
    assert!(text.starts_with(format!("{front}.p ").as_bytes()), "{name}");
    assert!(printed.len() <= text.len(), "{name}");
    let again = string(O::print_joined(printed.as_bytes()));
    assert_eq!(again, printed, "{name}");

    let after = string(Fast::program(printed.as_bytes()));
    let up_to_table = |sheet: &str| sheet.split("table ").next().map(str::to_string);
    if !passed && !after.starts_with("refused 9 ") {
        assert_eq!(up_to_table(&after), up_to_table(&sheet), "{name}");
    }
    printed
}

/// A list of n inputs that overlaps on purpose, made disjoint: the word at each point is the
/// OR of all rows over it, and 0 where there is none; no two rows share a point, and the
/// rows are well formed; the points under them are those under some row of the list; each
/// lies inside every row that meets it; and they stand in the order of their values, for the
/// 0 half comes first. A list that was disjoint has the same block under fd. Made disjoint
/// again, the rows are the same; their sheet is refused with 9 and 11 alone. Gives the number
/// of rows, none where more than 128 would come out.
pub fn disjoint<O: Operations>(n: usize, seed: u64) -> Option<usize> {
    let name = format!("{n} inputs, seed {seed}");
    let random = &mut Random::new(seed);
    let k = random.between(1, 15);
    let count = random.pick(&[4, 8, 24, ROWS]);
    let count = random.between(1, count);
    let given = match n >= 8 && random.one_in(6) {
        true => inputs::exact_rows(random, n, k, ROWS),
        false => inputs::overlapping_rows(random, n, k, count),
    };
    let rows = disjoin_of::<O>(&name, [n, k], &given)?;
    assert_eq!(checks::records(n, k, &rows), Ok(()), "{name}");
    assert_eq!(checks::disjoint(&rows), Ok(()), "{name}");
    let after = block(n, FD, &rows);
    assert!(after == ors(n, &given), "{name}");
    if checks::disjoint(&given).is_ok() {
        assert!(after == block(n, FD, &given), "{name}");
    }
    let covered = |rows: &[Row], x| rows.iter().any(|row| row.covers(x));
    let differ = |x: &u32| covered(&given, *x) != covered(&rows, *x);
    assert_eq!((0..1 << n).find(differ), None, "{name}");
    for row in &rows {
        let outside = |over: &&Row| over.meets(row) && over.mask & !row.mask != 0;
        assert_eq!(given.iter().find(outside), None, "{name}");
    }
    assert!(
        rows.windows(2).all(|two| two[0].values < two[1].values),
        "{name}"
    );
    let again = disjoin_of::<O>(&name, [n, k], &rows);
    assert!(again.as_ref() == Some(&rows), "{name}");

    let undriven = inputs::undriven_columns(k, &rows) != 0;
    let w = n.min(2);
    let sheet = O::sheet_records(n, k, FD, w, &rows, &mut vec![0; SHEET_ROOM]);
    let may: &[u32] = if undriven { &[11] } else { &[0, 9] };
    assert!(may.contains(&sheet.number), "{name}");
    Some(rows.len())
}

/// Every list of one input with up to four rows, of two with up to three and of three with
/// up to two, with the words 0, 1 and 2, and drawn ones of up to seven inputs: what comes out
/// is what 02's words give where a region is its points.
pub fn disjoint_by_points<O: Operations>() {
    for (n, most) in [(1, 4), (2, 3), (3, 2)] {
        for given in small_lists(n, most, &[0, 1, 2]) {
            by_points::<O>(n, &given);
        }
    }
    for seed in 0..600 {
        let random = &mut Random::new(seed);
        let n = random.between(3, 7);
        let count = random.between(1, 12);
        let given = inputs::overlapping_rows(random, n, 2, count);
        by_points::<O>(n, &given);
    }
}

/// The list, of two outputs, made disjoint, beside what the points of regions give.
fn by_points<O: Operations>(n: usize, given: &[Row]) {
    let name = format!("{n} inputs, {given:?}");
    let all: Vec<u32> = (0..1 << n).collect();
    let due = points_rows(n, given, &all);
    let got = disjoin_of::<O>(&name, [n, 2], given);
    assert_eq!(got, (due.len() <= ROWS).then_some(due), "{name}");
}

/// The rows that a region of these points gives. An input is free in it where it has points
/// with either value.
fn points_rows(n: usize, given: &[Row], points: &[u32]) -> Vec<Row> {
    let meeting: Vec<&Row> = given
        .iter()
        .filter(|row| points.iter().any(|&x| row.covers(x)))
        .collect();
    let free = |input: &usize| {
        let value = |x: &u32| x >> input & 1;
        points.iter().any(|x| value(x) != value(&points[0]))
    };
    let lies_inside = |row: &&&Row| points.iter().all(|&x| row.covers(x));
    if meeting.is_empty() {
        return Vec::new();
    }
    if meeting.iter().filter(lies_inside).count() == meeting.len() {
        let mask = (0..n).filter(|input| !free(input)).map(|input| 1 << input);
        let mask = mask.sum();
        let word = meeting.iter().fold(0, |word, row| word | row.word);
        let values = points[0] & mask;
        return vec![Row { mask, values, word }];
    }
    let fixed = |input: &usize| meeting.iter().any(|row| row.mask >> input & 1 == 1);
    let cut = (0..n).filter(free).filter(fixed).max();
    let cut = cut.expect("an input to halve at");
    let (ones, zeros) = points.iter().partition(|&&x| x >> cut & 1 == 1);
    let [ones, zeros]: [Vec<u32>; 2] = [ones, zeros];
    [zeros, ones]
        .map(|half| points_rows(n, given, &half))
        .concat()
}

/// What is printed of a text's rows made disjoint, which is given. The text is refused where
/// the reader refuses it, and with the same line; then with 3 where it is of type fr, and
/// with 14. Else row text with the line ".type fd" is printed, which has the OR of all rows
/// at each point, which is printed again as it is, and whose sheet is refused with 9 and 11
/// alone.
pub fn printed_disjoint<O: Operations>(name: &str, text: &[u8]) -> String {
    let string = |bytes: Vec<u8>| String::from_utf8(bytes).expect("ASCII");
    let printed = string(O::print_disjoint(text));
    let (told, given) = match read_of(text) {
        Ok(read) => read,
        Err(refused) => {
            assert_eq!(printed, refused, "{name}");
            return printed;
        }
    };
    let [n, k] = [told.n, told.k];
    if told.block_type == FR {
        assert_eq!(printed, "refused 3 0 0\n", "{name}");
        return printed;
    }
    if disjoin_of::<O>(name, [n, k], &given).is_none() {
        assert_eq!(printed, "refused 14 0 0\n", "{name}");
        return printed;
    }
    let front = format!(".i {n}\n.o {k}\n.type fd\n.p ");
    assert!(printed.starts_with(&front), "{name}");
    let (_, rows) = read_of(printed.as_bytes()).expect("row text");
    assert!(block(n, FD, &rows) == ors(n, &given), "{name}");
    let again = string(O::print_disjoint(printed.as_bytes()));
    assert_eq!(again, printed, "{name}");
    let sheet = string(Fast::program(printed.as_bytes()));
    let may = ["sheet 1\n", "refused 9 ", "refused 11 "];
    assert!(may.iter().any(|begins| sheet.starts_with(begins)), "{name}");
    printed
}

/// What a text tells and its rows, at most 8,192 bytes of it, or the line that refuses it.
fn read_of(text: &[u8]) -> Result<(TextHead, Vec<Row>), String> {
    let mut rows = vec![Row::default(); ROWS];
    let text = &text[..text.len().min(PROGRAM_READS)];
    let read = Plain::read_text_records(text, &mut rows);
    rows.truncate(read.results.rows);
    match read.number {
        0 => Ok((read.results, rows)),
        number => Err(format!("refused {number} {} {}\n", read.a, read.b)),
    }
}

/// What the room for a disjoint list is lent before the call.
const HELD_ROW: Row = Row {
    mask: HELD,
    values: HELD,
    word: HELD,
};

/// The rows of the disjoint list, the same of records and of flat slices, with what lies
/// beyond them as it was; none where more than 128 would come out, and then all is as it was.
fn disjoin_of<O: Operations>(name: &str, [n, k]: [usize; 2], given: &[Row]) -> Option<Vec<Row>> {
    let mut room = vec![HELD_ROW; ROWS + 2];
    let [list, mut flat] = [given, &room].map(LentRows::new);
    let got = O::disjoin_records(n, k, given, &mut room);
    let same = O::disjoin(n, k, list.list(), flat.room());
    assert_eq!(got, same, "{name}");
    assert_eq!(flat, LentRows::new(&room), "{name}");
    let beyond = room.split_off(got.results);
    assert!(beyond.iter().all(|row| *row == HELD_ROW), "{name}");
    match [got.number, got.a, got.b] {
        [0, 0, 0] => Some(room),
        refused => {
            assert_eq!((refused, got.results), ([14, 0, 0], 0), "{name}");
            None
        }
    }
}

/// The OR of all rows over each point.
fn ors(n: usize, rows: &[Row]) -> Vec<u16> {
    let word = |x| {
        let over = rows.iter().filter(|row| row.covers(x));
        over.fold(0, |word, row| word | row.word as u16)
    };
    (0..1 << n).map(word).collect()
}

/// The rows that are left of an answered list, and the records that are freed, which are
/// the same of records and of flat slices.
fn join_of<O: Operations>(name: &str, [n, k]: [usize; 2], given: &[Row]) -> (Vec<Row>, Vec<Row>) {
    let mut rows = given.to_vec();
    let mut flat = LentRows::new(given);
    let got = O::join_records(n, k, &mut rows);
    assert_eq!(got, O::join(n, k, flat.room()), "{name}");
    assert_eq!(flat, LentRows::new(&rows), "{name}");
    assert_eq!([got.number, got.a, got.b], [0, 0, 0], "{name}");
    let freed = rows.split_off(got.results);
    (rows, freed)
}

/// Two rows of the list join.
fn any_join(rows: &[Row]) -> bool {
    let later = |i: usize| rows[i + 1..].iter().any(|other| rows[i].joins(other));
    (0..rows.len()).any(later)
}

/// The word at each point.
fn block(n: usize, block_type: usize, rows: &[Row]) -> Vec<u16> {
    let word = |x| {
        let row = rows.iter().find(|row| row.covers(x));
        row.map_or(missing(block_type), |row| row.word as u16)
    };
    (0..1 << n).map(word).collect()
}
