//! The functions of this crate on the cases with answers (outside/CASES.md) and on
//! drawn calls against the independent implementation: answers and all lent storage.

use irwystl::flat::{self, Room, Rows};
use irwystl::{Headings, Refusal, Why, MODEL_ROOM, SHEET_ROOM, TEXT_ROOM};
use reference::data::{check_lists, check_models, check_operations, texts};
use reference::demands;
use reference::inputs::{any_joining_text, any_overlapping_text, models, Case, Random};
use reference::{Answer, Flat, FlatRoom, Measures, ModelHead, Operations, Plain, Reason, Row};
use reference::{Smaller, TextHead, ROW_INPUTS};

/// This crate as one more implementation of 01 and 02.
struct Safe;

fn answer<R, S: Default>(outcome: Result<R, Refusal>, results: impl Fn(R) -> S) -> Answer<S> {
    let refused = outcome.as_ref().err().map(|refusal| refusal.numbers());
    let (number, a, b) = refused.unwrap_or_default();
    Answer {
        number,
        a: a as u32,
        b: b as u32,
        results: outcome.map(results).unwrap_or_default(),
    }
}

fn smaller_of(found: irwystl::Smaller) -> Smaller {
    Smaller {
        before: found.before,
        after: found.after,
        rows: found.count,
    }
}

fn head_of(told: Headings) -> TextHead {
    TextHead {
        n: told.n,
        k: told.k,
        block_type: told.block_type,
        type_line: told.type_line,
        rows: told.count,
    }
}

/// The reason as a number's set has it. The numbers that were taken go to the front of
/// the room, and those of the set are among them, at the steps that are named.
fn why_of(outcome: Result<Why, Refusal>, taken: &mut [u32; ROW_INPUTS]) -> Answer<Option<Reason>> {
    if let Ok(why) = &outcome {
        taken[..why.taken.len()].copy_from_slice(&why.taken);
    }
    answer(outcome, |why| {
        Some(match why.reason {
            irwystl::Reason::Zero => Reason::Zero,
            irwystl::Reason::Over => Reason::Over,
            irwystl::Reason::Taken { step } => Reason::Taken { step },
            irwystl::Reason::Xor { of } => {
                let named = |one: &irwystl::Taken| why.taken[one.step - 1] == one.number;
                assert!(of.iter().all(named));
                let set = of.iter().fold(0, |set, one| set | 1 << (one.step - 1));
                Reason::Xor { set }
            }
        })
    })
}

fn records(rows: &[Row]) -> Vec<irwystl::Row> {
    let record = |row: &Row| irwystl::Row {
        mask: row.mask,
        values: row.values,
        word: row.word,
    };
    rows.iter().map(record).collect()
}

/// What a call makes of room for records.
fn lent<R>(room: &mut [Row], call: impl FnOnce(&mut [irwystl::Row]) -> R) -> R {
    let mut held = records(room);
    let outcome = call(&mut held);
    for (row, held) in room.iter_mut().zip(held) {
        [row.mask, row.values, row.word] = [held.mask, held.values, held.word];
    }
    outcome
}

fn given(rows: Flat<'_>) -> Rows<'_> {
    Rows {
        masks: rows.masks,
        values: rows.values,
        words: rows.words,
    }
}

fn room_of(room: FlatRoom<'_>) -> Room<'_> {
    Room {
        masks: room.masks,
        values: room.values,
        words: room.words,
    }
}

impl Operations for Safe {
    fn table_value(n: usize, k: usize, block_type: usize, t: usize, table: &[u16]) -> Answer<u64> {
        answer(irwystl::table_value(n, k, block_type, t, table), |value| {
            value
        })
    }

    fn table_spectrum(
        n: usize,
        k: usize,
        block_type: usize,
        table: &[u16],
        values: &mut [u32],
        working: &mut [i32],
    ) -> Answer<()> {
        answer(
            irwystl::table_spectrum(n, k, block_type, table, values, working),
            |()| (),
        )
    }

    fn table_method(
        n: usize,
        k: usize,
        block_type: usize,
        w: usize,
        table: &[u16],
        smaller: &mut [u16],
        columns: &mut [u32],
        sigma: &mut [u32],
    ) -> Answer<Measures> {
        let found = irwystl::table_method(n, k, block_type, w, table, columns, sigma, smaller);
        answer(found, |found| Measures {
            before: found.before,
            after: found.after,
        })
    }

    fn restore(
        n: usize,
        k: usize,
        block_type: usize,
        sigma: &[u32],
        smaller: &[u16],
        table: &mut [u16],
    ) -> Answer<()> {
        answer(
            irwystl::restore_table(n, k, block_type, sigma, smaller, table),
            |()| (),
        )
    }

    fn symmetric_block(
        n: usize,
        k: usize,
        block_type: usize,
        words: &[u16],
        table: &mut [u16],
        smaller: &mut [u16],
    ) -> Answer<Measures> {
        let found = irwystl::symmetric_block(n, k, block_type, words, table, smaller);
        answer(found, |found| Measures {
            before: found.before,
            after: found.after,
        })
    }

    fn table_symmetric(n: usize, k: usize, block_type: usize, table: &[u16]) -> Answer<bool> {
        answer(irwystl::table_symmetric(n, k, block_type, table), |is| is)
    }

    fn row_value(n: usize, k: usize, block_type: usize, t: usize, rows: Flat) -> Answer<u64> {
        answer(flat::row_value(n, k, block_type, t, given(rows)), |value| {
            value
        })
    }

    fn row_value_records(
        n: usize,
        k: usize,
        block_type: usize,
        t: usize,
        rows: &[Row],
    ) -> Answer<u64> {
        answer(
            irwystl::row_value(n, k, block_type, t, &records(rows)),
            |value| value,
        )
    }

    fn row_method(
        n: usize,
        k: usize,
        block_type: usize,
        w: usize,
        rows: Flat,
        smaller: FlatRoom,
        columns: &mut [u32],
        sigma: &mut [u32],
    ) -> Answer<Smaller> {
        let room = room_of(smaller);
        answer(
            flat::row_method(n, k, block_type, w, given(rows), columns, sigma, room),
            smaller_of,
        )
    }

    fn row_method_records(
        n: usize,
        k: usize,
        block_type: usize,
        w: usize,
        rows: &[Row],
        smaller: &mut [Row],
        columns: &mut [u32],
        sigma: &mut [u32],
    ) -> Answer<Smaller> {
        let rows = records(rows);
        let found = lent(smaller, |room| {
            irwystl::row_method(n, k, block_type, w, &rows, columns, sigma, room)
        });
        answer(found, smaller_of)
    }

    fn why_not(
        n: usize,
        k: usize,
        block_type: usize,
        w: usize,
        t: usize,
        rows: Flat,
        taken: &mut [u32; ROW_INPUTS],
    ) -> Answer<Option<Reason>> {
        why_of(flat::why_not(n, k, block_type, w, t, given(rows)), taken)
    }

    fn why_not_records(
        n: usize,
        k: usize,
        block_type: usize,
        w: usize,
        t: usize,
        rows: &[Row],
        taken: &mut [u32; ROW_INPUTS],
    ) -> Answer<Option<Reason>> {
        let why = irwystl::why_not(n, k, block_type, w, t, &records(rows));
        why_of(why, taken)
    }

    fn join(n: usize, k: usize, rows: FlatRoom) -> Answer<usize> {
        answer(flat::join_rows(n, k, room_of(rows)), |left| left)
    }

    fn join_records(n: usize, k: usize, rows: &mut [Row]) -> Answer<usize> {
        let left = lent(rows, |rows| irwystl::join_rows(n, k, rows));
        answer(left, |left| left)
    }

    fn disjoin(n: usize, k: usize, rows: Flat, disjoint: FlatRoom) -> Answer<usize> {
        let made = flat::disjoin_rows(n, k, given(rows), room_of(disjoint));
        answer(made, |count| count)
    }

    fn disjoin_records(n: usize, k: usize, rows: &[Row], disjoint: &mut [Row]) -> Answer<usize> {
        let rows = records(rows);
        let made = lent(disjoint, |disjoint| {
            irwystl::disjoin_rows(n, k, &rows, disjoint)
        });
        answer(made, |count| count)
    }

    fn fill(n: usize, k: usize, block_type: usize, rows: Flat, table: &mut [u16]) -> Answer<()> {
        answer(
            flat::fill_table(n, k, block_type, given(rows), table),
            |()| (),
        )
    }

    fn fill_records(
        n: usize,
        k: usize,
        block_type: usize,
        rows: &[Row],
        table: &mut [u16],
    ) -> Answer<()> {
        answer(
            irwystl::fill_table(n, k, block_type, &records(rows), table),
            |()| (),
        )
    }

    fn read_text(text: &[u8], room: FlatRoom) -> Answer<TextHead> {
        answer(flat::read_text(text, room_of(room)), head_of)
    }

    fn read_text_records(text: &[u8], room: &mut [Row]) -> Answer<TextHead> {
        let told = lent(room, |rows| irwystl::read_text(text, rows));
        answer(told, head_of)
    }

    fn write_text(
        n: usize,
        k: usize,
        block_type: usize,
        type_line: usize,
        rows: Flat,
        text: &mut [u8],
    ) -> Answer<usize> {
        answer(
            flat::write_text(n, k, block_type, type_line, given(rows), text),
            |count| count,
        )
    }

    fn write_text_records(
        n: usize,
        k: usize,
        block_type: usize,
        type_line: usize,
        rows: &[Row],
        text: &mut [u8],
    ) -> Answer<usize> {
        let written = irwystl::write_text(n, k, block_type, type_line, &records(rows), text);
        answer(written, |count| count)
    }

    fn sheet(
        n: usize,
        k: usize,
        block_type: usize,
        w: usize,
        rows: Flat,
        bytes: &mut [u8],
    ) -> Answer<usize> {
        answer(
            flat::sheet(n, k, block_type, w, given(rows), bytes),
            |count| count,
        )
    }

    fn sheet_records(
        n: usize,
        k: usize,
        block_type: usize,
        w: usize,
        rows: &[Row],
        bytes: &mut [u8],
    ) -> Answer<usize> {
        let written = irwystl::sheet(n, k, block_type, w, &records(rows), bytes);
        answer(written, |count| count)
    }

    fn program(input: &[u8]) -> Vec<u8> {
        let mut out = [0; SHEET_ROOM];
        let count = irwystl::print_text(input, &mut out);
        out[..count].to_vec()
    }

    fn write_model(
        n: usize,
        k: usize,
        block_type: usize,
        w: usize,
        rows: Flat,
        bytes: &mut [u8],
    ) -> Answer<usize> {
        answer(
            flat::write_model(n, k, block_type, w, given(rows), bytes),
            |count| count,
        )
    }

    fn write_model_records(
        n: usize,
        k: usize,
        block_type: usize,
        w: usize,
        rows: &[Row],
        bytes: &mut [u8],
    ) -> Answer<usize> {
        let written = irwystl::write_model(n, k, block_type, w, &records(rows), bytes);
        answer(written, |count| count)
    }

    fn read_model(
        text: &[u8],
        matrix: &mut [u32],
        counts: &mut [usize],
        masks: &mut [u32],
        values: &mut [u32],
    ) -> Answer<ModelHead> {
        let size = flat::read_model(text, matrix, counts, masks, values);
        answer(size, |size| ModelHead {
            n: size.n,
            k: size.k,
            patterns: size.patterns,
        })
    }

    fn model_value(
        n: usize,
        k: usize,
        x: usize,
        matrix: &[u32],
        counts: &[usize],
        masks: &[u32],
        values: &[u32],
    ) -> Answer<u64> {
        answer(
            flat::model_value(n, k, x, matrix, counts, masks, values),
            |word| word,
        )
    }

    fn print_model(input: &[u8]) -> Vec<u8> {
        let mut out = [0; MODEL_ROOM];
        let count = irwystl::print_model(input, &mut out);
        out[..count].to_vec()
    }

    fn print_joined(input: &[u8]) -> Vec<u8> {
        let mut out = [0; TEXT_ROOM];
        let count = irwystl::print_joined(input, &mut out);
        out[..count].to_vec()
    }

    fn print_disjoint(input: &[u8]) -> Vec<u8> {
        let mut out = [0; TEXT_ROOM];
        let count = irwystl::print_disjoint(input, &mut out);
        out[..count].to_vec()
    }
}

#[test]
fn every_operation_has_the_answer_due() {
    check_operations::<Safe>();
}

#[test]
fn every_list_has_the_sheet_due() {
    check_lists::<Safe>();
}

#[test]
fn every_model_is_the_one_due() {
    check_models::<Safe>();
}

/// A malformed word of a symmetric block is told by its count.
#[test]
fn a_word_is_named_by_its_count() {
    let mut rooms = [[7; 4]; 2];
    let [table, smaller] = &mut rooms;
    let refused = irwystl::symmetric_block(2, 1, irwystl::FR, &[0, 1, 2], table, smaller);
    assert_eq!(refused, Err(Refusal::Word { count: 2 }));
    let said = refused.unwrap_err().to_string();
    assert_eq!(said, "the word for count 2 is malformed");
    assert_eq!(rooms, [[7; 4]; 2]);
}

/// A column that no row drives is told by its output bit, of either type.
#[test]
fn an_undriven_column_is_named_by_its_bit() {
    let rows = [irwystl::Row {
        mask: 0,
        values: 0,
        word: 0b1011,
    }];
    for y in [irwystl::FR, irwystl::FD] {
        let refused = irwystl::row_value(1, 4, y, 0, &rows);
        assert_eq!(refused, Err(Refusal::UndrivenColumn { bit: 2 }));
        let said = refused.unwrap_err().to_string();
        assert_eq!(said, "no row drives output bit 2");
    }
    let text = b".i 1\n.o 2\n.p 1\n- 01\n.e\n";
    let refused = Refusal::UndrivenColumn { bit: 1 };
    assert_eq!(irwystl::sheet_of(text), Err(refused));
    assert_eq!(irwystl::model_of(text), Err(refused));
}

/// What 02, Ticket 8, says of columns that no row drives.
#[test]
fn undriven_columns_are_refused_as_02_has_them() {
    for seed in 0..60 {
        demands::driven_columns::<Safe>(seed);
    }
}

/// What 02, Ticket 9, says of joined lists.
#[test]
fn joined_lists_are_as_02_has_them() {
    demands::small_joins::<Safe>();
    for n in 1..=16 {
        for seed in 0..if n < 13 { 12 } else { 3 } {
            demands::joined::<Safe>(n, seed);
        }
    }
}

/// What is printed where so many bytes were written, or the call was refused.
fn text_or_line(written: Result<usize, Refusal>, out: &[u8]) -> Vec<u8> {
    match written {
        Ok(count) => out[..count].to_vec(),
        Err(refusal) => {
            let (number, a, b) = refusal.numbers();
            format!("refused {number} {a} {b}\n").into_bytes()
        }
    }
}

/// What is printed of a text's joined rows is what reading, joining and writing give, and
/// what the independent implementation prints.
fn printed_joined(name: &str, text: &[u8]) {
    let mut rows = [irwystl::Row::default(); irwystl::MOST_ROWS];
    let mut out = [0; TEXT_ROOM];
    let written = irwystl::read_text(text, &mut rows).and_then(|told| {
        let rows = &mut rows[..told.count];
        let left = irwystl::join_rows(told.n, told.k, rows)?;
        let [block_type, line] = [told.block_type, told.type_line];
        irwystl::write_text(told.n, told.k, block_type, line, &rows[..left], &mut out)
    });
    let due = text_or_line(written, &out);
    let printed = demands::printed_joined::<Safe>(name, text);
    assert_eq!(printed.as_bytes(), due, "{name}");
    assert_eq!(printed.as_bytes(), Plain::print_joined(text), "{name}");
}

/// The texts with answers, and drawn ones.
#[test]
fn joined_texts_are_as_02_has_them() {
    for (path, text) in texts() {
        printed_joined(&path.display().to_string(), &text);
    }
    for seed in 0..600 {
        let text = any_joining_text(&mut Random::new(seed));
        printed_joined(&format!("seed {seed}"), &text);
    }
}

/// What 02, Ticket 10, says of lists that overlap on purpose.
#[test]
fn disjoint_lists_are_as_02_has_them() {
    demands::disjoint_by_points::<Safe>();
    for n in 1..=16 {
        for seed in 0..if n < 13 { 12 } else { 3 } {
            demands::disjoint::<Safe>(n, seed);
        }
    }
}

/// The refusal of a list of which too many rows would come out, in words.
#[test]
fn too_many_disjoint_rows_are_refused() {
    // eight rows that fix one input each come apart into 255
    let units = [1, 2, 4, 8, 16, 32, 64, 128].map(|bit| irwystl::Row {
        mask: bit,
        values: bit,
        word: 1,
    });
    let mut room = [irwystl::Row::default(); irwystl::MOST_ROWS];
    let refused = irwystl::disjoin_rows(8, 1, &units, &mut room);
    assert_eq!(refused, Err(Refusal::TooManyDisjoint));
    let said = refused.unwrap_err().to_string();
    assert_eq!(
        said,
        "more than 128 rows would come out of the disjoint list"
    );
}

/// What is printed of a text made disjoint is what reading, disjoining and writing give,
/// where it is not of type fr, and what the independent implementation prints.
fn printed_disjoint(name: &str, text: &[u8]) {
    let mut rows = [irwystl::Row::default(); irwystl::MOST_ROWS];
    let mut disjoint = rows;
    let mut out = [0; TEXT_ROOM];
    let written = irwystl::read_text(text, &mut rows).and_then(|told| {
        if told.block_type == irwystl::FR {
            return Err(Refusal::Limit);
        }
        let rows = &rows[..told.count];
        let count = irwystl::disjoin_rows(told.n, told.k, rows, &mut disjoint)?;
        let rows = &disjoint[..count];
        irwystl::write_text(told.n, told.k, irwystl::FD, 1, rows, &mut out)
    });
    let due = text_or_line(written, &out);
    let printed = demands::printed_disjoint::<Safe>(name, text);
    assert_eq!(printed.as_bytes(), due, "{name}");
    assert_eq!(printed.as_bytes(), Plain::print_disjoint(text), "{name}");
}

/// The texts with answers, and drawn ones.
#[test]
fn disjoint_texts_are_as_02_has_them() {
    for (path, text) in texts() {
        printed_disjoint(&path.display().to_string(), &text);
    }
    for seed in 0..600 {
        let text = any_overlapping_text(&mut Random::new(seed));
        printed_disjoint(&format!("seed {seed}"), &text);
    }
}

/// Each reason in words.
#[test]
fn reasons_in_words() {
    // one row over both points of one input, and over all points of three
    let whole = [irwystl::Row {
        word: 1,
        ..irwystl::Row::default()
    }];
    let said = |n, w, t| {
        let why = irwystl::why_not(n, 1, irwystl::FD, w, t, &whole).unwrap();
        why.reason.to_string()
    };
    assert_eq!(said(1, 1, 0), "t is 0");
    assert_eq!(said(3, 1, 6), "t has more one-bits than the weight limit");
    assert_eq!(said(3, 3, 4), "t was taken at step 3");
    let due =
        "t is the XOR of 1 (step 1), 2 (step 2) and 4 (step 3), each of which stands before t";
    assert_eq!(said(3, 3, 7), due);
}

/// What 02, Ticket 7, says of the reasons holds of those that an owner gets.
#[test]
fn reasons_are_as_02_has_them() {
    for n in 1..=16 {
        for seed in 0..if n < 7 { 6 } else { 1 } {
            demands::reasons::<Safe>(n, seed);
        }
    }
}

/// A model as an owner has it: read without rooms of the caller's, with the patterns
/// of each output apart, and its words.
#[test]
fn drawn_models() {
    let [mut read, mut refused] = [0, 0];
    for seed in 0..600 {
        let random = &mut Random::new(seed);
        let text = models::model_text(random);
        let (mut matrix, mut counts) = (vec![0; 16], vec![0; 15]);
        let [mut masks, mut values] = [vec![0; text.len()], vec![0; text.len()]];
        let due = Plain::read_model(&text, &mut matrix, &mut counts, &mut masks, &mut values);
        let model = match irwystl::read_model(&text) {
            Ok(model) => model,
            Err(refusal) => {
                let due = (due.number, due.a as usize, due.b as usize);
                assert_eq!(refusal.numbers(), due, "seed {seed}");
                refused += 1;
                continue;
            }
        };
        let ModelHead { n, k, patterns } = due.results;
        assert_eq!((due.number, model.inputs(), model.outputs()), (0, n, k));
        assert_eq!(model.matrix(), &matrix[..n]);
        assert_eq!(model.counts(), &counts[..k]);
        let all: Vec<_> = (0..k + 1).flat_map(|j| model.patterns(j)).collect();
        let [masks, values] = [&masks[..patterns], &values[..patterns]];
        assert!(all.iter().map(|pattern| &pattern.mask).eq(masks));
        assert!(all.iter().map(|pattern| &pattern.values).eq(values));
        for _ in 0..8 {
            let x = random.below(1 << n);
            let due = Plain::model_value(n, k, x, &matrix[..n], &counts[..k], masks, values);
            assert_eq!(model.word(x).map(u64::from), Ok(due.results), "seed {seed}");
        }
        assert_eq!(model.word(1 << n), Err(Refusal::Limit));
        read += 1;
    }
    assert!(read > 100 && refused > 100, "{read} {refused}");
}

/// The model of a text is what is printed for it, or the refusal.
#[test]
fn drawn_texts_to_models() {
    let mut models = 0;
    for seed in 0..1_500 {
        let input = match Case::new(seed) {
            Case::PrintModel { input } => input,
            _ => continue,
        };
        let got = irwystl::model_of(&input).unwrap_or_else(|refusal| {
            let (number, a, b) = refusal.numbers();
            format!("refused {number} {a} {b}\n")
        });
        let due = Plain::print_model(&input);
        assert_eq!(got, String::from_utf8_lossy(&due), "seed {seed}");
        models += usize::from(got.starts_with('.'));
    }
    assert!(models > 20);
}

#[test]
fn drawn_calls() {
    for seed in 0..600 {
        let mut due = Case::new(seed);
        let mut got = due.clone();
        assert_eq!(got.run::<Safe>(), due.run::<Plain>(), "seed {seed}");
        assert_eq!(got, due, "seed {seed}: what was lent");
    }
}

#[test]
fn drawn_calls_with_records() {
    for seed in 0..600 {
        let mut due = Case::new(seed);
        let mut got = due.clone();
        assert_eq!(
            got.run_records::<Safe>(),
            due.run_records::<Plain>(),
            "seed {seed}"
        );
        assert_eq!(got, due, "seed {seed}: what was lent");
    }
}
