//! The calls that are timed, the same in every run, one table for each question.

use crate::calls::Call;
use reference::inputs::models::rooms_due;
use reference::inputs::{
    driven_text, halved_points, hidden_rows, overlapping_rows, rows, table, Case, LentRows, Random,
};
use reference::{
    checks, Fast, Operations, Reason, Row, TextHead, FD, FR, MODEL_ROOM, OUTPUTS, ROWS, ROW_INPUTS,
    SHEET_ROOM, SMALLER_ROWS,
};
use std::ops::Range;

/// Calls whose times are shown together.
pub struct Table {
    pub title: &'static str,
    pub calls: Vec<Call>,
}

/// Every table.
pub fn tables() -> Vec<Table> {
    vec![
        operations(),
        joining(),
        disjoining(),
        spectra(),
        by_type(),
        text_parts(),
        by_rows(),
        by_inputs(),
        by_weight(),
    ]
}

/// Each operation on large inputs of type fr.
fn operations() -> Table {
    let few_words = hidden();
    let one_word = list(16, 128, &[FR], &[3, 16], 128, |random| {
        worded(rows(random, 16, 15, 128), 0..1)
    });
    // R is the same at every t, so that the one-bits decide each comparison.
    let whole = LentRows::new(&worded(vec![Row::default()], 0..1));
    let rows_12 = rows(&mut Random::new(12), 12, 12, 512);
    let table_12 = table(&mut Random::new(3), 12, 12);
    Table {
        title: "operations",
        calls: vec![
            Call::new(
                "row method, 128 rows, 16 inputs, w 3",
                row_method(16, FR, 3, &few_words),
            ),
            Call::on_records("the same on records", row_method(16, FR, 3, &few_words)),
            Call::new(
                "its model in BLIF, row method and writing",
                write_model([16, 15, FR, 3], &few_words),
            ),
            Call::new(
                "reading that model",
                read_model(&model([16, 15, FR, 3], &few_words)),
            ),
            Call::new(
                "a word of that model",
                model_value(&model([16, 15, FR, 3], &few_words)),
            ),
            Call::new(
                "why a number was not taken, the same rows, w 3",
                why_not(3, &few_words),
            ),
            Call::new(
                "row method, the same rows, w 16",
                row_method(16, FR, 16, &few_words),
            ),
            Call::new(
                "row method, 128 rows of one word, w 3",
                row_method(16, FR, 3, &one_word),
            ),
            Call::new(
                "row method, the same rows, w 16",
                row_method(16, FR, 16, &one_word),
            ),
            Call::new(
                "row method, one row over all points, w 3",
                row_method(16, FR, 3, &whole),
            ),
            Call::new(
                "row method, the same row, w 16",
                row_method(16, FR, 16, &whole),
            ),
            Call::new(
                "single value, 128 rows, 16 inputs",
                row_value(FR, &few_words),
            ),
            Call::new("table method, 12 inputs, w 12", table_method(&table_12, 12)),
            Call::new(
                "table method, the same table, w 3",
                table_method(&table_12, 3),
            ),
            Call::new("single value, table of 12 inputs", table_value(&table_12)),
            Call::new("filling, 512 rows, 12 inputs", fill(FR, &rows_12)),
            Call::new("restoring, 12 inputs", restore(&table_12)),
            Call::new("symmetric block, 12 inputs", symmetric_block()),
            Call::new("is a table symmetric, 12 inputs", table_symmetric()),
            Call::all("300 row texts to sheets", texts(300)),
        ],
    }
}

/// 128 rows of 16 inputs with hidden XORs, that have many smaller rows.
fn hidden() -> LentRows {
    list(16, 128, &[FR], &[3, 16], 256, |random| {
        hidden_rows(random, 16, 15, 128)
    })
}

/// Joining rows: all points of 9 inputs with one word, in an order in which they end as
/// one row and in any; the 512 of which the last two alone join, so that every pair is
/// looked at twice; the smaller rows of 128, and the 128. Beside stands plain Rust that
/// looks for each pair anew, as 02 says it.
fn joining() -> Table {
    let random = &mut Random::new(9);
    let halved = halved_points(random, 9);
    let mut any: Vec<u32> = (0..512).collect();
    let in_turn = any.clone();
    random.shuffle(&mut any);
    // The parity of a point differs from that of each neighbour.
    let last_two = |x: u32| if x < 510 { x.count_ones() % 2 } else { 2 };
    let rows = hidden();
    let calls = [
        ("512 points in halves", 9, points(&halved, |_| 1)),
        ("512 points in any order", 9, points(&any, |_| 1)),
        ("512 points, the last two", 9, points(&in_turn, last_two)),
        ("smaller rows", 16, smaller(3, &rows)),
        ("128 rows, 16 inputs", 16, rows),
    ];
    Table {
        title: "joining rows",
        calls: calls.map(|(name, n, rows)| join(name, n, rows)).into(),
    }
}

/// Joining a list, with how many rows it has and ends as in its name.
fn join(name: &str, n: usize, rows: LentRows) -> Call {
    let given = rows.masks.len();
    let case = Case::Join { n, k: 15, rows };
    let left = case.clone().run::<Fast>().results[0];
    Call::new(format!("{name}: {given} to {left}"), case).beside_plain()
}

/// These points of 9 inputs as rows, with their words.
fn points(points: &[u32], word: impl Fn(u32) -> u32) -> LentRows {
    let row = |&values: &u32| Row {
        mask: 511,
        values,
        word: word(values),
    };
    LentRows::new(&points.iter().map(row).collect::<Vec<_>>())
}

/// The smaller rows of a list of 16 inputs.
fn smaller(w: usize, rows: &LentRows) -> LentRows {
    let mut smaller = vec![Row::default(); SMALLER_ROWS];
    let [mut columns, mut sigma] = [[0; ROW_INPUTS]; 2];
    let [t, s] = [&mut columns, &mut sigma];
    let records = rows.records().expect("slices of equal length");
    let found = Fast::row_method_records(16, 15, FR, w, &records, &mut smaller, t, s);
    LentRows::new(&smaller[..found.results.rows])
}

/// Making lists of 16 inputs disjoint, beside plain Rust and plain Rust that goes through
/// all regions with all rows, as 02 says it.
///
/// The first list has the most regions of all that are answered, 2,559: a row comes out of
/// each region that is halved, so that there are at most 128 of one size, and the whole space
/// has no more than 2^d of those with d inputs fixed; the 128 points stand apart as early as
/// may be. The second has 2,575, the most there are before a list is refused: its 129th row
/// comes out of the last.
fn disjoining() -> Table {
    let deep = deep_points();
    let mut late = deep.clone();
    // The last region of all, and one of the lower half, in one row.
    late[127] = Row {
        mask: 32_767,
        values: 32_767,
        word: 1,
    };
    late[63].values = 32_766;
    // Of 2^16 points all but one lie under a row, and each is a region.
    let units: Vec<Row> = (0..16).map(|i| row_of(1 << i, 1 << i)).collect();
    let calls = [
        ("128 points, the most regions", deep),
        ("the same, the last too many", late),
        ("one input fixed in each row", units),
        ("drawn, 96 to 128 rows out", crossing()),
        ("128 times a row over all", vec![row_of(0, 0); 128]),
    ];
    Table {
        title: "lists that overlap on purpose",
        calls: calls.map(|(name, rows)| disjoin(name, &rows)).into(),
    }
}

/// Making a list disjoint, with how many rows it has and how many come out in its name; a
/// list that is refused with 14 is timed too, for that takes the longest.
fn disjoin(name: &str, rows: &[Row]) -> Call {
    let case = Case::Disjoin {
        n: 16,
        k: 15,
        rows: LentRows::new(rows),
        disjoint: LentRows::new(&[Row::default(); ROWS]),
    };
    let answer = case.clone().run::<Fast>();
    let out = match answer.number {
        0 => format!("to {}", answer.results[0]),
        14 => "refused with 14".to_string(),
        other => panic!("{name} is refused with {other}"),
    };
    Call::all(format!("{name}: {} {out}", rows.len()), vec![case]).beside_plain()
}

/// A row of word 1.
fn row_of(mask: u32, values: u32) -> Row {
    Row {
        mask,
        values,
        word: 1,
    }
}

/// 128 points of 16 inputs, each with seven highest inputs of its own.
fn deep_points() -> Vec<Row> {
    let random = &mut Random::new(7);
    let point = |high: u32| row_of(65_535, high << 9 | random.word(9));
    (0..128).map(point).collect()
}

/// The first list drawn of 24 rows, some of which share points, of which 96 to 128 rows come
/// out.
fn crossing() -> Vec<Row> {
    let gives = |rows: &Vec<Row>| {
        let mut room = [Row::default(); ROWS];
        let made = Fast::disjoin_records(16, 15, rows, &mut room);
        made.number == 0 && made.results >= 96 && checks::disjoint(rows).is_err()
    };
    (1..)
        .map(|seed| overlapping_rows(&mut Random::new(seed), 16, 15, 24))
        .find(gives)
        .expect("some seed gives one")
}

/// R at every t of a table of 12 inputs with more and more words, each on as many
/// points: by the spectrum, beside what our other engine takes, which counts. The
/// table method with weight limit 12 counts R at every t but 0, and then chooses; a
/// single value counts it at one t.
fn spectra() -> Table {
    let mut points: Vec<u16> = (0..4_096).collect();
    Random::new(5).shuffle(&mut points);
    let call = |(words, name): (u16, &str)| {
        let table: Vec<u16> = points.iter().map(|point| point % words).collect();
        Call::new(name, table_spectrum(&table)).beside(vec![
            Call::new("our table method", table_method(&table, 12)),
            Call::every_t("our single values", table_value(&table)),
        ])
    };
    let words = [
        (2, "2 words"),
        (16, "16 words"),
        (256, "256 words"),
        (4_096, "4,096 words"),
    ];
    Table {
        title: "R at every t of a table of 12 inputs, by its spectrum",
        calls: words.map(call).into(),
    }
}

/// Lists of either type, with more and more different words; each has missing
/// points, and no row of word 0. Then the other operations on lists.
fn by_type() -> Table {
    let both = |name: &str, case: &dyn Fn(usize) -> Case| {
        [(FR, "fr"), (FD, "fd")].map(|(block_type, word)| {
            let name = format!("{name}, {word}");
            Call::new(name, case(block_type))
        })
    };
    let rows_of = |words: u32| {
        list(16, 128, &[FR, FD], &[3], 128, |random| {
            worded(rows_with_missing(random), 1..words + 1)
        })
    };
    let [one, eight, each] = [1, 8, 128].map(rows_of);
    let mut rows_12 = rows(&mut Random::new(12), 12, 12, 512);
    rows_12.truncate(480);
    let calls = [
        both("row method, rows of 1 word", &|y| {
            row_method(16, y, 3, &one)
        }),
        both("row method, 8 words", &|y| row_method(16, y, 3, &eight)),
        both("row method, 128 words", &|y| row_method(16, y, 3, &each)),
        both("single value, 8 words", &|y| row_value(y, &eight)),
        both("filling, 480 rows, 12 inputs", &|y| fill(y, &rows_12)),
    ];
    Table {
        title: "lists by type, 128 rows, 16 inputs, w 3",
        calls: calls.into_iter().flatten().collect(),
    }
}

/// 128 rows of 16 inputs that leave points out.
fn rows_with_missing(random: &mut Random) -> Vec<Row> {
    let rows = rows(random, 16, 15, 128);
    let covered: u32 = rows
        .iter()
        .map(|row| 1 << (16 - row.mask.count_ones()))
        .sum();
    match covered {
        65_536 => rows_with_missing(random),
        _ => rows,
    }
}

/// What the way from 300 row texts to sheets is made of.
fn text_parts() -> Table {
    let read: Vec<(TextHead, LentRows)> = (0..300).map(read).collect();
    let each = |case: fn(&(TextHead, LentRows)) -> Case| read.iter().map(case).collect();
    let block = |head: &TextHead| [head.n, head.k, head.block_type, 3.min(head.n)];
    // Lists that the row method refuses have no model.
    let models = read
        .iter()
        .map(|(head, rows)| model(block(head), rows))
        .filter(|text| !text.is_empty());
    Table {
        title: "300 row texts, part by part",
        calls: vec![
            Call::all("reading them", (0..300).map(reading).collect()),
            Call::all(
                "single value of each list, at 1",
                each(|(head, rows)| Case::RowValue {
                    n: head.n,
                    k: head.k,
                    block_type: head.block_type,
                    t: 1,
                    rows: rows.clone(),
                }),
            ),
            Call::all(
                "row method on each list",
                read.iter()
                    .map(|(head, rows)| method(block(head), rows))
                    .collect(),
            ),
            Call::all(
                "sheet of each list",
                each(|(head, rows)| Case::Sheet {
                    n: head.n,
                    k: head.k,
                    block_type: head.block_type,
                    w: 3.min(head.n),
                    rows: rows.clone(),
                    bytes: vec![0; SHEET_ROOM],
                }),
            ),
            Call::all(
                "model of each list",
                read.iter()
                    .map(|(head, rows)| write_model(block(head), rows))
                    .collect(),
            ),
            Call::all(
                "reading each model",
                models.map(|text| read_model(&text)).collect(),
            ),
        ],
    }
}

/// How the row method grows with the rows.
fn by_rows() -> Table {
    let call = |count| {
        Call::new(
            format!("{count} rows"),
            row_method(16, FR, 3, &plain(16, count, &[3])),
        )
    };
    Table {
        title: "row method by rows, 16 inputs, w 3",
        calls: [16, 32, 64, 128].map(call).into(),
    }
}

/// How it grows with the inputs. Four have 16 points, and no list of more rows.
fn by_inputs() -> Table {
    let call = |n| {
        let count = if n == 4 { 16 } else { 64 };
        Call::new(
            format!("{n} inputs, {count} rows"),
            row_method(n, FR, 3, &plain(n, count, &[3])),
        )
    };
    Table {
        title: "row method by inputs, 64 rows, w 3",
        calls: [4, 8, 12, 16].map(call).into(),
    }
}

/// How it grows with the weight limit.
fn by_weight() -> Table {
    let limits = [1, 2, 3, 4, 8, 16];
    let rows = plain(16, 128, &limits);
    Table {
        title: "row method by weight limit, 128 rows, 16 inputs",
        calls: limits
            .map(|w| Call::new(format!("w {w}"), row_method(16, FR, w, &rows)))
            .into(),
    }
}

/// So many rows, with eight words in turn, so that lists of different lengths have the
/// same share of pairs with equal words.
fn plain(n: usize, count: usize, limits: &[usize]) -> LentRows {
    list(n, count, &[FR], limits, 1, |random| {
        worded(rows(random, n, 15, count), 0..8)
    })
}

/// The rows with these words in turn; in place of the last of them stands the one that
/// drives all 15 columns, for a list with a column that no row drives is refused.
fn worded(mut rows: Vec<Row>, words: Range<u32>) -> Vec<Row> {
    let last = words.end - 1;
    for (row, word) in rows.iter_mut().zip(words.cycle()) {
        row.word = if word == last { 32_767 } else { word };
    }
    rows
}

/// The first list drawn that has so many rows, and for which the row method
/// gives at least so many smaller rows under each of the types with each of the
/// weight limits.
fn list(
    n: usize,
    count: usize,
    types: &[usize],
    limits: &[usize],
    least: u64,
    draw: impl Fn(&mut Random) -> Vec<Row>,
) -> LentRows {
    let grows = |rows: &LentRows, block_type: usize, w: usize| {
        let answer = row_method(n, block_type, w, rows).run::<Fast>();
        answer.number == 0 && answer.results[2] >= least
    };
    let all_grow = |rows: &LentRows| {
        let with_limits = |&y: &usize| limits.iter().all(|&w| grows(rows, y, w));
        types.iter().all(with_limits)
    };
    (1..)
        .map(|seed| draw(&mut Random::new(seed)))
        .filter(|rows| rows.len() == count)
        .map(|rows| LentRows::new(&rows))
        .find(all_grow)
        .expect("some seed gives one")
}

fn row_method(n: usize, block_type: usize, w: usize, rows: &LentRows) -> Case {
    method([n, 15, block_type, w], rows)
}

fn method([n, k, block_type, w]: [usize; 4], rows: &LentRows) -> Case {
    Case::RowMethod {
        n,
        k,
        block_type,
        w,
        rows: rows.clone(),
        smaller: LentRows::new(&[Row::default(); SMALLER_ROWS]),
        columns: vec![0; n],
        sigma: vec![0; n],
    }
}

/// Why a number was not taken, of a list of 16 inputs: the first number that is the XOR
/// of taken ones.
fn why_not(w: usize, rows: &LentRows) -> Case {
    let is_xor = |t: &usize| {
        let mut taken = [0; ROW_INPUTS];
        let why = Fast::why_not(16, 15, FR, w, *t, rows.list(), &mut taken);
        matches!(why.results, Some(Reason::Xor { .. }))
    };
    Case::WhyNot {
        n: 16,
        k: 15,
        block_type: FR,
        w,
        t: (1..1 << 16)
            .find(is_xor)
            .expect("not all are taken or over"),
        rows: rows.clone(),
        taken: [0; ROW_INPUTS],
    }
}

/// The model of a list, or nothing where it is refused.
fn model([n, k, block_type, w]: [usize; 4], rows: &LentRows) -> Vec<u8> {
    let mut bytes = vec![0; MODEL_ROOM];
    let written = Fast::write_model(n, k, block_type, w, rows.list(), &mut bytes);
    bytes.truncate(written.results);
    bytes
}

/// Writing the model of a list, into room for it.
fn write_model([n, k, block_type, w]: [usize; 4], rows: &LentRows) -> Case {
    Case::WriteModel {
        n,
        k,
        block_type,
        w,
        rows: rows.clone(),
        bytes: vec![0; model([n, k, block_type, w], rows).len()],
    }
}

/// Reading a model, into room for what it holds.
fn read_model(text: &[u8]) -> Case {
    let [n, k, patterns] = rooms_due(text);
    Case::ReadModel {
        text: text.to_vec(),
        matrix: vec![0; n],
        counts: vec![0; k],
        masks: vec![0; patterns],
        values: vec![0; patterns],
    }
}

/// The word of a model at one point.
fn model_value(text: &[u8]) -> Case {
    let (mut matrix, mut counts) = (vec![0; ROW_INPUTS], vec![0; OUTPUTS]);
    let [mut masks, mut values] = [vec![0; text.len()], vec![0; text.len()]];
    let read = Fast::read_model(text, &mut matrix, &mut counts, &mut masks, &mut values);
    let head = read.results;
    matrix.truncate(head.n);
    counts.truncate(head.k);
    masks.truncate(head.patterns);
    values.truncate(head.patterns);
    Case::ModelValue {
        n: head.n,
        k: head.k,
        x: 0b1010_0000,
        matrix,
        counts,
        masks,
        values,
    }
}

fn row_value(block_type: usize, rows: &LentRows) -> Case {
    Case::RowValue {
        n: 16,
        k: 15,
        block_type,
        t: 0b1010_0000,
        rows: rows.clone(),
    }
}

fn table_method(table: &[u16], w: usize) -> Case {
    Case::TableMethod {
        n: 12,
        k: 12,
        block_type: FR,
        w,
        table: table.to_vec(),
        smaller: vec![0; table.len()],
        columns: vec![0; 12],
        sigma: vec![0; 12],
    }
}

fn table_spectrum(table: &[u16]) -> Case {
    Case::TableSpectrum {
        n: 12,
        k: 12,
        block_type: FR,
        table: table.to_vec(),
        values: vec![0; table.len()],
        working: vec![0; table.len()],
    }
}

fn table_value(table: &[u16]) -> Case {
    Case::TableValue {
        n: 12,
        k: 12,
        block_type: FR,
        t: 0b1010_0000,
        table: table.to_vec(),
    }
}

fn fill(block_type: usize, rows: &[Row]) -> Case {
    Case::Fill {
        n: 12,
        k: 12,
        block_type,
        rows: LentRows::new(rows),
        table: vec![0; 1 << 12],
    }
}

/// Restoring with the sigma and the smaller table that the table method gives.
fn restore(table: &[u16]) -> Case {
    let mut smaller = vec![0; table.len()];
    let [mut columns, mut sigma] = [vec![0; 12], vec![0; 12]];
    let [t, s] = [&mut columns, &mut sigma];
    Fast::table_method(12, 12, FR, 12, table, &mut smaller, t, s);
    Case::Restore {
        n: 12,
        k: 12,
        block_type: FR,
        sigma,
        smaller,
        table: vec![0; table.len()],
    }
}

/// A word for each count of ones of 12 inputs: a counter's, no two equal.
fn counter() -> Vec<u16> {
    (0..=12).collect()
}

fn symmetric_block() -> Case {
    Case::SymmetricBlock {
        n: 12,
        k: 12,
        block_type: FR,
        words: counter(),
        table: vec![0; 1 << 12],
        smaller: vec![0; 1 << 12],
    }
}

/// A table that is symmetric, so that each entry has to be looked at.
fn table_symmetric() -> Case {
    let [mut table, mut smaller] = [vec![0; 1 << 12], vec![0; 1 << 12]];
    Fast::symmetric_block(12, 12, FR, &counter(), &mut table, &mut smaller);
    Case::TableSymmetric {
        n: 12,
        k: 12,
        block_type: FR,
        table,
    }
}

/// The row text of a seed.
fn row_text(seed: u64) -> Vec<u8> {
    driven_text(&mut Random::new(seed))
}

/// The program's input for so many lists.
fn texts(count: u64) -> Vec<Case> {
    (0..count)
        .map(|seed| Case::Program {
            input: row_text(seed),
        })
        .collect()
}

/// Reading the text of a seed, into room for any.
fn reading(seed: u64) -> Case {
    Case::ReadText {
        text: row_text(seed),
        rows: LentRows::new(&[Row::default(); 128]),
    }
}

/// What the text of a seed says: its headings and the rows.
fn read(seed: u64) -> (TextHead, LentRows) {
    let mut room = LentRows::new(&[Row::default(); 128]);
    let head = Fast::read_text(&row_text(seed), room.room()).results;
    for slice in [&mut room.masks, &mut room.values, &mut room.words] {
        slice.truncate(head.rows);
    }
    (head, room)
}
