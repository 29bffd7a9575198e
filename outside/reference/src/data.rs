//! An implementation against cases with their answers (outside/CASES.md): the
//! files of `crates/run_operations/data` have one operation a line with its answer,
//! `crates/run_texts/data` texts for the program with what it prints, and
//! `crates/run_models/data` both for models. All but `ranges.txt`, `why_ranges.txt`,
//! `undriven_ranges.txt`, `join_ranges.txt`, `disjoin_ranges.txt` and a few texts are worked
//! out by a third program. Lent storage is looked at in full: what an answer does not write
//! holds what it held.

use crate::blif::{self, Network};
use crate::inputs::LentRows;
use crate::{read_text, Answer, Flat, FlatRoom, ModelHead, Operations, Reason, Row, TextHead};
use crate::{FD, FR, OUTPUTS, ROWS, ROW_INPUTS};
use std::fmt::{Debug, Display};
use std::fs;
use std::path::PathBuf;
use std::str::FromStr;

/// What lent numbers hold before the call.
const HELD: u32 = 0xABCD_1234;

/// What lent signed numbers hold before the call.
const HELD_SIGNED: i32 = HELD as i32;

/// What lent records hold before the call.
const HELD_ROW: Row = Row {
    mask: HELD,
    values: HELD,
    word: HELD,
};

/// What lent table entries hold before the call.
const HELD_ENTRY: u16 = 0xABCD;

/// What lent bytes hold before the call.
const HELD_BYTE: u8 = 0xAB;

/// What lent counts hold before the call.
const HELD_COUNT: usize = 0xABCD_1234_ABCD;

/// Where the cases of models are.
const MODELS: &str = "../../crates/run_models/data";

fn from_here(path: &str) -> PathBuf {
    PathBuf::from(env!("CARGO_MANIFEST_DIR")).join(path)
}

fn parse<T: FromStr>(word: &str) -> T
where
    T::Err: Debug,
{
    word.parse().unwrap()
}

fn numbers<T: FromStr>(word: &str) -> Vec<T>
where
    T::Err: Debug,
{
    match word {
        "-" => Vec::new(),
        _ => word.split(',').map(parse).collect(),
    }
}

fn rows(word: &str) -> Vec<Row> {
    let row = |record: &str| {
        let parts: Vec<u32> = record.split(':').map(parse).collect();
        Row {
            mask: parts[0],
            values: parts[1],
            word: parts[2],
        }
    };
    match word {
        "-" => Vec::new(),
        _ => word.split(',').map(row).collect(),
    }
}

fn joined<T: Display>(items: &[T]) -> String {
    match items {
        [] => "-".to_string(),
        _ => {
            let words: Vec<String> = items.iter().map(T::to_string).collect();
            words.join(",")
        }
    }
}

fn joined_rows(rows: &[Row]) -> String {
    let record = |row: &Row| format!("{}:{}:{}", row.mask, row.values, row.word);
    joined(&rows.iter().map(record).collect::<Vec<_>>())
}

/// The first `count` entries; those beyond must hold what they held.
fn written<T: PartialEq + Debug>(lent: &[T], count: usize, held: T) -> &[T] {
    let (written, beyond) = lent.split_at(count);
    assert!(beyond.iter().all(|entry| *entry == held));
    written
}

/// A type as a line has it: `other` is the number after those of fr and fd, and
/// any number stands for itself.
fn type_of(word: &str) -> usize {
    match word {
        "fr" => FR,
        "fd" => FD,
        "other" => FD + 1,
        _ => parse(word),
    }
}

/// A text as a line has it, in one word: `/` is LF, `_` a space, `%HH` the byte
/// HH, `-` alone the empty text.
fn text_of(word: &str) -> Vec<u8> {
    let mut text = Vec::new();
    let mut rest = if word == "-" { "" } else { word };
    while let Some(first) = rest.chars().next() {
        let length = if first == '%' { 3 } else { 1 };
        text.push(match first {
            '/' => b'\n',
            '_' => b' ',
            '%' => u8::from_str_radix(&rest[1..length], 16).unwrap(),
            _ => first as u8,
        });
        rest = &rest[length..];
    }
    text
}

/// Number and places of an answer.
fn places<R>(got: &Answer<R>) -> String {
    format!("{} {} {}", got.number, got.a, got.b)
}

/// The answer to the operation on a line, in the line's form. A text that is
/// written comes as its bytes, after the words.
fn answer<O: Operations>(line: &str) -> (String, Option<Vec<u8>>) {
    let words: Vec<&str> = line.split(' ').collect();
    let block = || [parse(words[1]), parse(words[2]), type_of(words[3])];
    let said = match words[0] {
        "table_value" => {
            let [n, k, block_type] = block();
            let got = O::table_value(n, k, block_type, parse(words[4]), &numbers(words[5]));
            format!("{} {}", places(&got), got.results)
        }
        "row_value" => {
            let [n, k, block_type] = block();
            let list = rows(words[5]);
            let t = parse(words[4]);
            let got = O::row_value_records(n, k, block_type, t, &list);
            let flat = LentRows::new(&list);
            assert_eq!(got, O::row_value(n, k, block_type, t, flat.list()));
            format!("{} {}", places(&got), got.results)
        }
        "spectrum" => spectrum_answer::<O>(block(), &words),
        "table_method" => table_method_answer::<O>(block(), &words),
        "row_method" => row_method_answer::<O>(block(), &words),
        "fill" => {
            let [n, k, block_type] = block();
            let list = rows(words[5]);
            let mut table = vec![HELD_ENTRY; parse(words[4])];
            let mut same = table.clone();
            let got = O::fill_records(n, k, block_type, &list, &mut table);
            let flat = LentRows::new(&list);
            assert_eq!(got, O::fill(n, k, block_type, flat.list(), &mut same));
            assert_eq!(table, same);
            let size = if got.number == 0 { 1 << n } else { 0 };
            let entries = joined(written(&table, size, HELD_ENTRY));
            format!("{} {entries}", places(&got))
        }
        "restore" => {
            let [n, k, block_type] = block();
            let mut table = vec![HELD_ENTRY; parse(words[4])];
            let (sigma, smaller) = (numbers(words[5]), numbers(words[6]));
            let got = O::restore(n, k, block_type, &sigma, &smaller, &mut table);
            let size = if got.number == 0 { 1 << n } else { 0 };
            let entries = joined(written(&table, size, HELD_ENTRY));
            format!("{} {entries}", places(&got))
        }
        "gray" => gray_answer::<O>(block(), &words),
        "symmetric" => {
            let [n, k, block_type] = block();
            let got = O::table_symmetric(n, k, block_type, &numbers(words[4]));
            let said = if got.results { "yes" } else { "no" };
            format!("{} {said}", places(&got))
        }
        "why" => why_answer::<O>(block(), &words),
        "join" => join_answer::<O>(&words),
        "disjoin" => disjoin_answer::<O>(&words),
        "read" => read_answer::<O>(parse(words[1]), &text_of(words[2])),
        "write" => {
            let [n, k, block_type] = block();
            let line = parse(words[4]);
            return text_answer(
                parse(words[5]),
                &rows(words[6]),
                |rows, out| O::write_text_records(n, k, block_type, line, rows, out),
                |rows, out| O::write_text(n, k, block_type, line, rows, out),
            );
        }
        "sheet" => {
            let [n, k, block_type] = block();
            let w = parse(words[4]);
            return text_answer(
                parse(words[5]),
                &rows(words[6]),
                |rows, out| O::sheet_records(n, k, block_type, w, rows, out),
                |rows, out| O::sheet(n, k, block_type, w, rows, out),
            );
        }
        "blif_write" => {
            let [n, k, block_type] = block();
            let w = parse(words[4]);
            return text_answer(
                parse(words[5]),
                &rows(words[6]),
                |rows, out| O::write_model_records(n, k, block_type, w, rows, out),
                |rows, out| O::write_model(n, k, block_type, w, rows, out),
            );
        }
        "blif_read" => {
            let room = [parse(words[1]), parse(words[2]), parse(words[3])];
            let (got, model) = read_model::<O>(&model_file(words[4]), room);
            let head = got.results;
            format!(
                "{} {} {} {} {}",
                places(&got),
                head.n,
                head.k,
                head.patterns,
                model.joined(),
            )
        }
        "blif_value" => {
            let model = model_file(words[2]);
            let (read, held) = read_model::<O>(&model, [ROW_INPUTS, OUTPUTS, model.len()]);
            let ModelHead { n, k, .. } = read.results;
            assert_eq!(read.number, 0);
            let Held {
                matrix,
                counts,
                masks,
                values,
            } = held;
            let x = parse(words[1]);
            let got = O::model_value(n, k, x, &matrix, &counts, &masks, &values);
            // what the model's text says in BLIF at large
            let network = Network::read(&String::from_utf8(model).unwrap()).unwrap();
            assert_eq!(blif::word(&network, x as u32), Ok(got.results as u32));
            format!("{} {}", places(&got), got.results)
        }
        other => panic!("no operation {other}"),
    };
    (said, None)
}

/// A file of a model.
fn model_file(name: &str) -> Vec<u8> {
    fs::read(from_here(MODELS).join(name)).unwrap()
}

/// What reading a model wrote.
struct Held {
    matrix: Vec<u32>,
    counts: Vec<usize>,
    masks: Vec<u32>,
    values: Vec<u32>,
}

impl Held {
    /// Matrix, counts and patterns, as a line has them.
    fn joined(&self) -> String {
        let patterns = self.masks.iter().zip(&self.values);
        let patterns: Vec<String> = patterns.map(|(m, v)| format!("{m}:{v}")).collect();
        let [matrix, counts] = [joined(&self.matrix), joined(&self.counts)];
        format!("{matrix} {counts} {}", joined(&patterns))
    }
}

/// The answer of reading a model, into room for so many numbers, counts and
/// patterns, and what it wrote.
fn read_model<O: Operations>(text: &[u8], room: [usize; 3]) -> (Answer<ModelHead>, Held) {
    let mut matrix = vec![HELD; room[0]];
    let mut counts = vec![HELD_COUNT; room[1]];
    let [mut masks, mut values] = [vec![HELD; room[2]], vec![HELD; room[2]]];
    let got = O::read_model(text, &mut matrix, &mut counts, &mut masks, &mut values);
    let ModelHead { n, k, patterns } = got.results;
    let held = Held {
        matrix: written(&matrix, n, HELD).to_vec(),
        counts: written(&counts, k, HELD_COUNT).to_vec(),
        masks: written(&masks, patterns, HELD).to_vec(),
        values: written(&values, patterns, HELD).to_vec(),
    };
    (got, held)
}

/// The spectrum, whose working room ends at 0 in its first 2^n entries.
fn spectrum_answer<O: Operations>([n, k, block_type]: [usize; 3], words: &[&str]) -> String {
    let mut values = vec![HELD; parse(words[4])];
    let mut working = vec![HELD_SIGNED; parse(words[5])];
    let table = numbers(words[6]);
    let got = O::table_spectrum(n, k, block_type, &table, &mut values, &mut working);
    let size = if got.number == 0 { 1 << n } else { 0 };
    let worked = written(&working, size, HELD_SIGNED);
    assert!(worked.iter().all(|&number| number == 0));
    let entries = joined(written(&values, size, HELD));
    format!("{} {entries}", places(&got))
}

/// A symmetric block, both tables of it.
fn gray_answer<O: Operations>([n, k, block_type]: [usize; 3], words: &[&str]) -> String {
    let mut table = vec![HELD_ENTRY; parse(words[4])];
    let mut smaller = vec![HELD_ENTRY; parse(words[5])];
    let by_count = numbers(words[6]);
    let got = O::symmetric_block(n, k, block_type, &by_count, &mut table, &mut smaller);
    let size = if got.number == 0 { 1 << n } else { 0 };
    format!(
        "{} {} {} {} {}",
        places(&got),
        got.results.before,
        got.results.after,
        joined(written(&table, size, HELD_ENTRY)),
        joined(written(&smaller, size, HELD_ENTRY)),
    )
}

fn table_method_answer<O: Operations>([n, k, block_type]: [usize; 3], words: &[&str]) -> String {
    let mut smaller = vec![HELD_ENTRY; parse(words[5])];
    let mut columns = vec![HELD; parse(words[6])];
    let mut sigma = vec![HELD; parse(words[7])];
    let got = O::table_method(
        n,
        k,
        block_type,
        parse(words[4]),
        &numbers(words[8]),
        &mut smaller,
        &mut columns,
        &mut sigma,
    );
    let [size, n] = if got.number == 0 { [1 << n, n] } else { [0, 0] };
    format!(
        "{} {} {} {} {} {}",
        places(&got),
        got.results.before,
        got.results.after,
        joined(written(&columns, n, HELD)),
        joined(written(&sigma, n, HELD)),
        joined(written(&smaller, size, HELD_ENTRY)),
    )
}

/// The row method on records and on flat slices, which must agree.
fn row_method_answer<O: Operations>([n, k, block_type]: [usize; 3], words: &[&str]) -> String {
    let w = parse(words[4]);
    let list = rows(words[8]);
    let mut smaller = vec![HELD_ROW; parse(words[5])];
    let mut columns = vec![HELD; parse(words[6])];
    let mut sigma = vec![HELD; parse(words[7])];
    let mut same_smaller = LentRows::new(&smaller);
    let [mut same_columns, mut same_sigma] = [columns.clone(), sigma.clone()];

    let [t, s] = [&mut columns, &mut sigma];
    let got = O::row_method_records(n, k, block_type, w, &list, &mut smaller, t, s);

    let flat = LentRows::new(&list);
    let room = same_smaller.room();
    let [t, s] = [&mut same_columns, &mut same_sigma];
    let same = O::row_method(n, k, block_type, w, flat.list(), room, t, s);
    assert_eq!(got, same);
    assert_eq!(LentRows::new(&smaller), same_smaller);
    assert_eq!((&columns, &sigma), (&same_columns, &same_sigma));

    let n = if got.number == 0 { n } else { 0 };
    format!(
        "{} {} {} {} {} {} {}",
        places(&got),
        got.results.before,
        got.results.after,
        got.results.rows,
        joined(written(&columns, n, HELD)),
        joined(written(&sigma, n, HELD)),
        joined_rows(written(&smaller, got.results.rows, HELD_ROW)),
    )
}

/// Why a number was not taken, of records and of flat slices, which must agree. The
/// line has the numbers of the set; all that were taken stand in the room.
fn why_answer<O: Operations>([n, k, block_type]: [usize; 3], words: &[&str]) -> String {
    let [w, t] = [parse(words[4]), parse(words[5])];
    let list = rows(words[6]);
    let [mut taken, mut same_taken] = [[HELD; ROW_INPUTS]; 2];
    let got = O::why_not_records(n, k, block_type, w, t, &list, &mut taken);
    let flat = LentRows::new(&list);
    let same = O::why_not(n, k, block_type, w, t, flat.list(), &mut same_taken);
    assert_eq!((got, taken), (same, same_taken));
    let n = if got.number == 0 { n } else { 0 };
    let taken = written(&taken, n, HELD);
    let (word, step, set) = match got.results {
        None => ("-", 0, 0),
        Some(Reason::Zero) => ("zero", 0, 0),
        Some(Reason::Over) => ("over", 0, 0),
        Some(Reason::Taken { step }) => ("taken", step, 0),
        Some(Reason::Xor { set }) => ("xor", 0, set),
    };
    let in_set = (0..n).filter(|j| set >> j & 1 == 1).map(|j| taken[j]);
    let numbers = joined(&in_set.collect::<Vec<_>>());
    format!("{} {word} {step} {set} {numbers}", places(&got))
}

/// Joining records and flat slices in place, which must agree. The line has the whole list,
/// freed records too; it is lent with more records behind it, and with a refusal it holds
/// what it held.
fn join_answer<O: Operations>(words: &[&str]) -> String {
    let [n, k] = [parse(words[1]), parse(words[2])];
    let given = rows(words[3]);
    let count = given.len();
    let mut list = [&given[..], &[HELD_ROW; 8]].concat();
    let mut same_list = LentRows::new(&list);
    let got = O::join_records(n, k, &mut list[..count]);
    let LentRows {
        masks,
        values,
        words,
    } = &mut same_list;
    let lent = FlatRoom {
        masks: &mut masks[..count],
        values: &mut values[..count],
        words: &mut words[..count],
    };
    assert_eq!(got, O::join(n, k, lent));
    assert_eq!(LentRows::new(&list), same_list);
    let after = written(&list, count, HELD_ROW);
    let said = match got.number {
        0 => joined_rows(after),
        _ => {
            assert_eq!(after, given);
            "-".to_string()
        }
    };
    format!("{} {} {said}", places(&got), got.results)
}

/// Making records and flat slices disjoint, which must agree.
fn disjoin_answer<O: Operations>(words: &[&str]) -> String {
    let [n, k] = [parse(words[1]), parse(words[2])];
    let given = rows(words[4]);
    let mut disjoint = vec![HELD_ROW; parse(words[3])];
    let mut same = LentRows::new(&disjoint);
    let got = O::disjoin_records(n, k, &given, &mut disjoint);
    let flat = LentRows::new(&given);
    assert_eq!(got, O::disjoin(n, k, flat.list(), same.room()));
    assert_eq!(LentRows::new(&disjoint), same);
    let said = joined_rows(written(&disjoint, got.results, HELD_ROW));
    format!("{} {} {said}", places(&got), got.results)
}

/// Reading into records and into flat slices, which must agree.
fn read_answer<O: Operations>(room: usize, text: &[u8]) -> String {
    let mut rows = vec![HELD_ROW; room];
    let mut same_rows = LentRows::new(&rows);
    let got = O::read_text_records(text, &mut rows);
    assert_eq!(got, O::read_text(text, same_rows.room()));
    assert_eq!(LentRows::new(&rows), same_rows);
    let head = got.results;
    let type_word = match head.block_type {
        FR => "fr",
        FD => "fd",
        _ => "0",
    };
    format!(
        "{} {} {} {type_word} {} {} {}",
        places(&got),
        head.n,
        head.k,
        head.type_line,
        head.rows,
        joined_rows(written(&rows, head.rows, HELD_ROW)),
    )
}

/// A text written from records and from flat slices, which must agree, into room
/// for so many bytes.
fn text_answer(
    room: usize,
    rows: &[Row],
    of_records: impl FnOnce(&[Row], &mut [u8]) -> Answer<usize>,
    of_flat: impl FnOnce(Flat, &mut [u8]) -> Answer<usize>,
) -> (String, Option<Vec<u8>>) {
    let mut text = vec![HELD_BYTE; room];
    let mut same = text.clone();
    let got = of_records(rows, &mut text);
    assert_eq!(got, of_flat(LentRows::new(rows).list(), &mut same));
    assert_eq!(text, same);
    let bytes = written(&text, got.results, HELD_BYTE).to_vec();
    (format!("{} {}", places(&got), got.results), Some(bytes))
}

/// A line with each `V*COUNT` of its lists written out.
fn written_out(line: &str) -> String {
    let items = |word: &str| {
        let each = word.split(',').map(|item| match item.split_once('*') {
            Some((value, count)) => vec![value; count.parse().unwrap()].join(","),
            None => item.to_string(),
        });
        each.collect::<Vec<_>>().join(",")
    };
    line.split(' ').map(items).collect::<Vec<_>>().join(" ")
}

/// Whether what an operation answered is what a line has. A model stands in a file
/// that the line names.
fn is_due((said, text): &(String, Option<Vec<u8>>), due: &str) -> bool {
    let text_due = |word: &str| match word.ends_with(".blif") {
        true => model_file(word),
        false => text_of(word),
    };
    match text {
        None => said == due,
        Some(bytes) => {
            let word = due.strip_prefix(&format!("{said} "));
            word.map(text_due).as_ref() == Some(bytes)
        }
    }
}

/// Every operation of `crates/run_operations/data` has the answer that stands beside it.
pub fn check_operations<O: Operations>() {
    for (name, cases) in [
        ("operations.txt", 300),
        ("order_lists.txt", 106),
        ("order_tables.txt", 87),
        ("type_lists.txt", 106),
        ("type_tables.txt", 80),
        ("type_texts.txt", 102),
        ("spectrum.txt", 170),
        ("symmetric.txt", 200),
        ("why.txt", 190),
        ("ranges.txt", 252),
        ("why_ranges.txt", 41),
        ("undriven.txt", 156),
        ("undriven_texts.txt", 41),
        ("undriven_ranges.txt", 236),
        ("join.txt", 65),
        ("join_more.txt", 125),
        ("join_ranges.txt", 217),
        ("disjoin.txt", 190),
        ("disjoin_ranges.txt", 264),
    ] {
        check_file::<O>("../../crates/run_operations/data", name, cases);
    }
}

/// Every line of a file, so many, has the answer that stands beside it.
fn check_file<O: Operations>(folder: &str, name: &str, cases: usize) {
    let text = fs::read_to_string(from_here(folder).join(name)).unwrap();
    let mut count = 0;
    for (index, line) in text.lines().enumerate() {
        let line = written_out(line);
        let (given, due) = line.split_once(" => ").unwrap();
        let got = answer::<O>(given);
        assert!(
            is_due(&got, due),
            "{name}, line {}: {given}: {got:?}",
            index + 1
        );
        count += 1;
    }
    assert_eq!(count, cases, "{name}");
}

/// Every operation on models of `crates/run_models/data` has the answer that stands
/// beside it; every list there has its model, or the refusal, and every text that
/// is no model its refusal.
pub fn check_models<O: Operations>() {
    check_file::<O>(MODELS, "operations-04.txt", 241);
    check_file::<O>(MODELS, "operations-08.txt", 33);
    let [mut models, mut refused, mut bad] = [0; 3];
    for entry in fs::read_dir(from_here(MODELS)).unwrap() {
        let path = entry.unwrap().path();
        let text = || fs::read(&path).unwrap();
        let answer = || fs::read_to_string(path.with_extension("answer")).unwrap();
        let end = path.extension().and_then(|end| end.to_str());
        let (got, due) = match end {
            // A model beside a refused list is of a list that was accepted once: it is
            // still read.
            Some("list") if path.with_extension("answer").exists() => {
                refused += 1;
                (O::print_model(&text()), answer())
            }
            Some("list") => {
                models += 1;
                let due = fs::read_to_string(path.with_extension("blif")).unwrap();
                (O::print_model(&text()), due)
            }
            Some("bad") => {
                bad += 1;
                let text = text();
                let (got, _) = read_model::<O>(&text, [ROW_INPUTS, OUTPUTS, text.len()]);
                let said = format!("refused {}\n", places(&got));
                (said.into_bytes(), answer())
            }
            _ => continue,
        };
        assert_eq!(String::from_utf8_lossy(&got), due, "{}", path.display());
    }
    assert_eq!([models, refused, bad], [36, 10, 43]);
}

/// The texts of `crates/run_texts/data`, each after its file.
pub fn texts() -> Vec<(PathBuf, Vec<u8>)> {
    let mut texts = Vec::new();
    for entry in fs::read_dir(from_here("../../crates/run_texts/data")).unwrap() {
        let path = entry.unwrap().path();
        if path.extension().map_or(false, |end| end == "txt") {
            let text = fs::read(&path).unwrap();
            texts.push((path, text));
        }
    }
    assert_eq!(texts.len(), 319);
    texts
}

/// Every text of `crates/run_texts/data` has the sheet, or the refusal, that stands beside it.
pub fn check_lists<O: Operations>() {
    for (path, text) in texts() {
        let due = fs::read(path.with_extension("sheet")).unwrap();
        let printed = O::program(&text);
        assert_eq!(
            String::from_utf8_lossy(&printed),
            String::from_utf8_lossy(&due),
            "{}",
            path.display()
        );
    }
}

/// The lists of `crates/run_texts/data` whose smaller rows pass 512 with weight limit 3, so
/// that 9 stands beside their texts, with what these tell.
pub fn lists_past_512() -> Vec<(TextHead, Vec<Row>)> {
    let mut lists = Vec::new();
    for (path, text) in texts() {
        let printed = fs::read_to_string(path.with_extension("sheet")).unwrap();
        if printed.starts_with("refused 9 ") {
            let mut rows = vec![Row::default(); ROWS];
            let head = read_text(&text, &mut rows[..]).results;
            rows.truncate(head.rows);
            lists.push((head, rows));
        }
    }
    assert_eq!(lists.len(), 19);
    lists
}
