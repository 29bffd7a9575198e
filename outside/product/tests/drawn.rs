//! The product against the plain operations of `reference`: seeded calls, valid
//! and damaged, every operation with rows in flat slices and as records, answers
//! and everything lent compared; the spectrum of a table with rooms near what it asks
//! for, and against the values that are counted; symmetric blocks with rooms near what
//! they ask for, and what 02 asks to be shown of them; why each number of small blocks was
//! not taken, and numbers of lists that pass 512 rows, and what 02 says of the reasons;
//! what it says of columns that no row drives; joined lists, each within a longer one, every
//! small list, and what 02 says of them; texts with their rows joined, in room within a
//! longer one; lists that overlap on purpose, made disjoint in rooms within longer ones and
//! near 128 rows, every small list, those with the most regions, what 02 says of them, and
//! texts made disjoint; models there and back, damaged, and with rooms near what they ask
//! for; imports of drawn texts; then the cases with answers (outside/CASES.md). Lent storage
//! holds a pattern before each call and is never cleared, so that a stray write shows. Each
//! call of the product runs in a thread with 1 MiB of stack.

use irwystl::{import_text, print_disjoint, print_joined, LINE_ROOM};
use product::Product;
use reference::data::{check_lists, check_models, check_operations, lists_past_512, texts};
use reference::inputs::{self, models, Case, LentRows, Random};
use reference::{
    demands, Answer, Fast, FlatRoom, Operations, Plain, Row, FD, FR, MODEL_ROOM, ROWS, ROW_INPUTS,
    SHEET_ROOM, TEXT_ROOM,
};
use std::{env, thread};

/// What the rooms of an import and of joined or disjoint text hold before the call.
const HELD: u8 = 0xAB;

/// What the room for the numbers that are taken holds before the call, and what stands
/// around a list that is joined, and around the room for a disjoint one.
const HELD_NUMBER: u32 = 0xABCD_1234;

/// The same as a record.
const HELD_ROW: Row = Row {
    mask: HELD_NUMBER,
    values: HELD_NUMBER,
    word: HELD_NUMBER,
};

/// How many calls are drawn: IRWYSTL_DRAWS, or 4,000.
fn draws() -> u64 {
    let asked = env::var("IRWYSTL_DRAWS").ok();
    asked.map_or(4_000, |draws| draws.parse().expect("a number of draws"))
}

/// The outcome of a call, in a thread with 1 MiB of stack.
fn small_stack<R: Send + 'static>(work: impl FnOnce() -> R + Send + 'static) -> R {
    let thread = thread::Builder::new().stack_size(1 << 20).spawn(work);
    thread.expect("a thread").join().expect("no panic")
}

#[test]
fn drawn_calls() {
    for seed in 0..draws() {
        let mut due = Case::new(seed);
        let got = due.clone();
        let due_answer = due.run::<Plain>();
        let (answer, got) = small_stack(move || {
            let mut got = got;
            (got.run::<Product>(), got)
        });
        assert_eq!(answer, due_answer, "seed {seed}");
        assert_eq!(got, due, "seed {seed}: what was lent");
    }
}

#[test]
fn drawn_calls_with_records() {
    for seed in 0..draws() {
        let mut due = Case::new(seed);
        let got = due.clone();
        let due_answer = due.run_records::<Plain>();
        let (answer, got) = small_stack(move || {
            let mut got = got;
            (got.run_records::<Product>(), got)
        });
        assert_eq!(answer, due_answer, "seed {seed}");
        assert_eq!(got, due, "seed {seed}: what was lent");
    }
}

#[test]
fn every_operation_has_the_answer_due() {
    small_stack(check_operations::<Product>);
}

#[test]
fn every_list_has_the_sheet_due() {
    small_stack(check_lists::<Product>);
}

#[test]
fn every_model_is_the_one_due() {
    small_stack(check_models::<Product>);
}

/// A call of the product and of the plain operation on the same: answers and all that
/// was lent.
fn same(name: &str, case: Case) -> Case {
    let mut due = case;
    let got = due.clone();
    let due_answer = due.run::<Plain>();
    let (answer, got) = small_stack(move || {
        let mut got = got;
        (got.run::<Product>(), got)
    });
    assert_eq!(answer, due_answer, "{name}");
    assert_eq!(got, due, "{name}: what was lent");
    due
}

/// Spectra of tables of 1 to 8 inputs, with each room exact, one short and a little
/// longer.
#[test]
fn spectra_in_rooms() {
    for n in 1..=8 {
        let size = 1 << n;
        let random = &mut Random::new(n as u64);
        let table: Vec<u16> = (0..size).map(|_| random.word(2) as u16).collect();
        for block_type in [FR, FD] {
            for [values, working] in [
                [size, size],
                [size - 1, size],
                [size, size - 1],
                [size + 2, size],
                [size, size + 2],
            ] {
                let case = Case::TableSpectrum {
                    n,
                    k: 2,
                    block_type,
                    table: table.clone(),
                    values: vec![0xABCD_1234; values],
                    working: vec![-0x1234_ABCD; working],
                };
                same(&format!("{n} inputs, rooms {values} and {working}"), case);
            }
        }
    }
}

/// The spectrum of a table of 12 inputs gives what the single values give, and what
/// the fast operation gives, with one word, and with as many as there are points.
#[test]
fn spectra_of_many_words() {
    let random = &mut Random::new(5);
    let mut points: Vec<u16> = (0..4_096).collect();
    random.shuffle(&mut points);
    for (words, y) in [(1, FR), (2, FD), (16, FR), (256, FD), (4_096, FR)] {
        let table: Vec<u16> = points.iter().map(|point| point % words).collect();
        let mut due = vec![7; 4_096];
        Fast::table_spectrum(12, 12, y, &table, &mut due, &mut [-7; 4_096]);
        let (answer, values, working, counted) = small_stack(move || {
            let (mut values, mut working) = (vec![7; 4_096], vec![-7; 4_096]);
            let answer = Product::table_spectrum(12, 12, y, &table, &mut values, &mut working);
            let value = |t| Product::table_value(12, 12, y, t, &table).results as u32;
            let counted: Vec<u32> = (0..4_096).map(value).collect();
            (answer, values, working, counted)
        });
        assert_eq!(answer.number, 0);
        assert!(values == due, "{words} words");
        assert!(values == counted, "{words} words, by counting");
        assert!(working.iter().all(|&number| number == 0), "{words} words");
    }
}

/// Symmetric blocks of 1 to 8 inputs, with each room exact, one short and a little
/// longer, and with one word less and one more.
#[test]
fn symmetric_blocks_in_rooms() {
    for n in 1..=8 {
        let size = 1 << n;
        let random = &mut Random::new(n as u64);
        let words: Vec<u16> = (0..n + 2).map(|_| random.word(2) as u16).collect();
        for block_type in [FR, FD] {
            for [count, table, smaller] in [
                [n + 1, size, size],
                [n + 1, size - 1, size],
                [n + 1, size, size - 1],
                [n + 1, size + 2, size],
                [n + 1, size, size + 2],
                [n, size, size],
                [n + 2, size, size],
            ] {
                let case = Case::SymmetricBlock {
                    n,
                    k: 2,
                    block_type,
                    words: words[..count].to_vec(),
                    table: vec![0xABCD; table],
                    smaller: vec![0x1234; smaller],
                };
                let name = format!("{n} inputs, {count} words, rooms {table} and {smaller}");
                same(&name, case);
            }
        }
    }
}

/// Symmetric blocks of drawn words have what 02, Ticket 6, asks to be shown of them.
#[test]
fn symmetric_blocks_are_as_02_has_them() {
    for n in 1..=12 {
        for seed in 0..if n < 10 { 12 } else { 2 } {
            small_stack(move || demands::symmetric_block::<Product>(n, seed));
        }
    }
}

/// What a call answers, and what it leaves in room that stands within a longer one, the
/// rest of which holds what it held.
fn within<R>(call: impl FnOnce(&mut [u32; ROW_INPUTS]) -> R) -> (R, [u32; ROW_INPUTS]) {
    let mut longer = [[HELD_NUMBER; ROW_INPUTS]; 3];
    let [before, room, after] = &mut longer;
    let got = call(room);
    let rest = before.iter().chain(after.iter());
    assert!(rest.copied().all(|number| number == HELD_NUMBER));
    (got, *room)
}

/// Why t was not taken, of flat slices and of records, and the numbers that were: as
/// another implementation has it.
fn same_reason<O: Operations>([n, k, y, w, t]: [usize; 5], rows: &[Row]) {
    let name = format!("{n} inputs, type {y}, limit {w}, t {t}, {rows:?}");
    let lent = LentRows::new(rows);
    let due = within(|taken| O::why_not_records(n, k, y, w, t, rows, taken));
    let got = within(|taken| Product::why_not_records(n, k, y, w, t, rows, taken));
    assert_eq!(got, due, "{name}");
    let got = within(|taken| Product::why_not(n, k, y, w, t, lent.list(), taken));
    assert_eq!(got, due, "{name}");
}

/// Every number, and one past the last, of small lists with each weight limit, and one
/// past that.
#[test]
fn reasons_of_every_number() {
    for n in 1..=6 {
        let random = &mut Random::new(n as u64);
        for count in [1, 5, 16] {
            let rows = inputs::rows(random, n, 2, count);
            small_stack(move || {
                for y in [FR, FD] {
                    for w in 1..=n + 1 {
                        (0..=1 << n).for_each(|t| same_reason::<Plain>([n, 2, y, w, t], &rows));
                    }
                }
            });
        }
    }
}

/// Lists that the row method refuses with 9 have their answers here. They are the fast
/// operation's, for the plain one takes long.
#[test]
fn reasons_of_lists_that_pass_512_rows() {
    let random = &mut Random::new(7);
    for (head, rows) in lists_past_512() {
        let [n, k, y] = [head.n, head.k, head.block_type];
        let mut taken = [0; ROW_INPUTS];
        Fast::why_not_records(n, k, y, 3, 0, &rows, &mut taken);
        let asked = [(); 3].map(|()| inputs::asked_number(random, n, 3, &taken[..n]));
        small_stack(move || {
            for t in asked {
                same_reason::<Fast>([n, k, y, 3, t], &rows);
            }
        });
    }
}

/// Every reason is the one that 02, Ticket 7, has, at each number of small blocks and at
/// drawn ones of greater blocks.
#[test]
fn reasons_are_as_02_has_them() {
    for n in 1..=16 {
        for seed in 0..if n < 8 { 8 } else { 2 } {
            small_stack(move || demands::reasons::<Product>(n, seed));
        }
    }
}

/// Lists with columns that no row drives are refused as 02, Ticket 8, has it; the smaller
/// rows of the others drive the same columns, and are filled.
#[test]
fn undriven_columns_are_refused_as_02_has_them() {
    for seed in 0..draws() / 10 {
        small_stack(move || demands::driven_columns::<Product>(seed));
    }
}

/// How many entries of a longer list stand before a list, and how many behind it.
const AROUND: usize = 9;

/// The list within a longer one, which holds a pattern around it.
fn longer<T: Copy>(list: &[T], held: T) -> Vec<T> {
    [&[held; AROUND][..], list, &[held; AROUND]].concat()
}

/// The part of a longer list that is lent.
fn lent_part<T>(longer: &mut [T]) -> &mut [T] {
    let end = longer.len() - AROUND;
    &mut longer[AROUND..end]
}

/// The list within a longer one, around which the pattern still stands.
fn shorter<T: Copy + PartialEq>(longer: &[T], held: T) -> Vec<T> {
    let (list, behind) = longer.split_at(longer.len() - AROUND);
    let (before, list) = list.split_at(AROUND);
    assert!(before.iter().chain(behind).all(|entry| *entry == held));
    list.to_vec()
}

/// A list joined within a longer one, as flat slices, of any lengths.
fn joined_flat([n, k]: [usize; 2], rows: &LentRows) -> (Answer<usize>, LentRows) {
    let slices = [&rows.masks, &rows.values, &rows.words];
    let mut lent = slices.map(|slice| longer(slice, HELD_NUMBER));
    let [masks, values, words] = &mut lent;
    let list = FlatRoom {
        masks: lent_part(masks),
        values: lent_part(values),
        words: lent_part(words),
    };
    let got = Product::join(n, k, list);
    let [masks, values, words] = lent.map(|slice| shorter(&slice, HELD_NUMBER));
    let rows = LentRows {
        masks,
        values,
        words,
    };
    (got, rows)
}

/// The same of records.
fn joined_records([n, k]: [usize; 2], rows: &[Row]) -> (Answer<usize>, LentRows) {
    let mut lent = longer(rows, HELD_ROW);
    let got = Product::join_records(n, k, lent_part(&mut lent));
    (got, LentRows::new(&shorter(&lent, HELD_ROW)))
}

/// A list joined within a longer one, in both forms, as another implementation has it.
fn same_joined<O: Operations>(name: &str, numbers: [usize; 2], rows: &LentRows) -> Answer<usize> {
    let mut due = rows.clone();
    let answer = O::join(numbers[0], numbers[1], due.room());
    assert!(
        joined_flat(numbers, rows) == (answer, due.clone()),
        "{name}"
    );
    if let Some(records) = rows.records() {
        assert!(joined_records(numbers, &records) == (answer, due), "{name}");
    }
    answer
}

/// Drawn lists with many rows that join, and with each fault at times.
#[test]
fn drawn_lists_joined() {
    for seed in 0..draws() {
        let (numbers, rows) = inputs::joining_list(&mut Random::new(seed));
        let name = format!("seed {seed}");
        small_stack(move || same_joined::<Plain>(&name, numbers, &rows));
    }
}

/// All points of 9 inputs with one word in their own order, in that of halves, which both
/// end as one row, and in any; with the fewest and the most columns.
#[test]
fn all_points_joined() {
    let random = &mut Random::new(9);
    let mut points: Vec<u32> = (0..512).collect();
    for turn in 0..8 {
        let k = random.pick(&[1, 15]);
        let word = random.word(k);
        // Of 16 inputs any nine are fixed.
        let shift = random.pick(&[0, 0, 7]);
        let row = |&values: &u32| Row {
            mask: 511 << shift,
            values: values << shift,
            word,
        };
        let rows: Vec<Row> = points.iter().map(row).collect();
        let lent = LentRows::new(&rows);
        let name = format!("turn {turn}");
        let numbers = [if shift == 0 { 9 } else { 16 }, k];
        let answer = small_stack(move || same_joined::<Fast>(&name, numbers, &lent));
        assert_eq!(answer.number, 0);
        assert_eq!(answer.results == 1, turn < 5);
        points = match turn {
            0..=3 => inputs::halved_points(random, 9),
            _ => {
                random.shuffle(&mut points);
                points
            }
        };
    }
}

/// Every list of few rows and inputs.
#[test]
fn small_lists_joined() {
    small_stack(demands::small_joins::<Product>);
}

/// Joined lists are as 02, Ticket 9, has them.
#[test]
fn joined_lists_are_as_02_has_them() {
    for n in 1..=16 {
        for seed in 0..if n < 13 { 24 } else { 6 } {
            small_stack(move || demands::joined::<Product>(n, seed));
        }
    }
}

/// What is printed of a text, where `print` writes it, is what is due, in room within a longer
/// one. What is not printed holds what it held.
fn is_printed(
    name: &str,
    text: &[u8],
    print: fn(&[u8], &mut [u8; TEXT_ROOM]) -> usize,
    due: &[u8],
) {
    let mut longer = [[HELD; TEXT_ROOM]; 3];
    let [before, room, after] = &mut longer;
    let count = print(text, room);
    assert!(count <= TEXT_ROOM, "{name}");
    let (printed, beyond) = room.split_at(count);
    assert_eq!(
        String::from_utf8_lossy(printed),
        String::from_utf8_lossy(due),
        "{name}"
    );
    let rest = before.iter().chain(beyond).chain(after.iter());
    assert!(rest.copied().all(|byte| byte == HELD), "{name}");
}

/// What is printed of a text's joined rows, as the plain operation has it.
fn same_printed_joined(name: &str, text: &[u8]) {
    is_printed(name, text, print_joined, &Plain::print_joined(text));
}

/// Drawn texts with many rows that join, whole and damaged.
#[test]
fn drawn_texts_joined() {
    for seed in 0..draws() {
        let text = inputs::any_joining_text(&mut Random::new(seed));
        small_stack(move || same_printed_joined(&format!("seed {seed}"), &text));
    }
}

/// The texts with answers, joined, and what 02, Ticket 9, says of the rows.
#[test]
fn joined_texts_are_as_02_has_them() {
    for (path, text) in texts() {
        small_stack(move || {
            let name = path.display().to_string();
            same_printed_joined(&name, &text);
            demands::printed_joined::<Product>(&name, &text);
        });
    }
}

/// A list made disjoint in room within a longer one, as flat slices, of any lengths.
fn disjoint_flat(
    [n, k]: [usize; 2],
    rows: &LentRows,
    room: &LentRows,
) -> (Answer<usize>, LentRows) {
    let slices = [&room.masks, &room.values, &room.words];
    let mut lent = slices.map(|slice| longer(slice, HELD_NUMBER));
    let [masks, values, words] = &mut lent;
    let disjoint = FlatRoom {
        masks: lent_part(masks),
        values: lent_part(values),
        words: lent_part(words),
    };
    let got = Product::disjoin(n, k, rows.list(), disjoint);
    let [masks, values, words] = lent.map(|slice| shorter(&slice, HELD_NUMBER));
    let room = LentRows {
        masks,
        values,
        words,
    };
    (got, room)
}

/// The same of records.
fn disjoint_records([n, k]: [usize; 2], rows: &[Row], room: &[Row]) -> (Answer<usize>, LentRows) {
    let mut lent = longer(room, HELD_ROW);
    let got = Product::disjoin_records(n, k, rows, lent_part(&mut lent));
    (got, LentRows::new(&shorter(&lent, HELD_ROW)))
}

/// A list made disjoint in such room, in both forms, as the plain operation has it; the list
/// itself is as it was.
fn same_disjoint(
    name: &str,
    numbers: [usize; 2],
    rows: &LentRows,
    room: &LentRows,
) -> Answer<usize> {
    let [mut due, given] = [room.clone(), rows.clone()];
    let answer = Plain::disjoin(numbers[0], numbers[1], rows.list(), due.room());
    assert!(
        disjoint_flat(numbers, &given, room) == (answer, due.clone()),
        "{name}"
    );
    assert!(given == *rows, "{name}: the list");
    if let (Some(records), Some(room)) = (rows.records(), room.records()) {
        let lent = records.clone();
        assert!(
            disjoint_records(numbers, &lent, &room) == (answer, due),
            "{name}"
        );
        assert!(lent == records, "{name}: the list");
    }
    answer
}

/// Room for so many rows in each slice, with a pattern in it.
fn room_for([masks, values, words]: [usize; 3]) -> LentRows {
    let held = |count| vec![HELD_NUMBER; count];
    LentRows {
        masks: held(masks),
        values: held(values),
        words: held(words),
    }
}

/// Drawn lists that overlap on purpose, with each fault at times.
#[test]
fn drawn_lists_made_disjoint() {
    for seed in 0..draws() {
        let (numbers, rows) = inputs::overlapping_list(&mut Random::new(seed));
        let name = format!("seed {seed}");
        small_stack(move || same_disjoint(&name, numbers, &rows, &room_for([ROWS; 3])));
    }
}

/// Lists of which exactly 1, 127, 128, 129 and 130 rows come out, with each room exact, one
/// short and a little longer.
#[test]
fn disjoint_lists_in_rooms() {
    for out in [1, 127, 128, 129, 130] {
        let random = &mut Random::new(out as u64);
        let n = random.between(8, 16);
        let rows = match out {
            1 => vec![Row::default(); 3],
            _ => inputs::exact_rows(random, n, 2, out),
        };
        for room in [
            [ROWS; 3],
            [ROWS - 1, ROWS, ROWS],
            [ROWS, ROWS - 1, ROWS],
            [ROWS, ROWS, ROWS - 1],
            [ROWS + 2, ROWS + 1, ROWS],
            [ROWS + 2; 3],
            [ROWS - 1; 3],
            [out.min(ROWS - 1); 3],
            [0; 3],
        ] {
            let name = format!("{out} rows, rooms {room:?}");
            let [rows, room] = [LentRows::new(&rows), room_for(room)];
            let answer = small_stack(move || same_disjoint(&name, [n, 2], &rows, &room));
            let met = [0, 5, 14].contains(&answer.number);
            assert!(met && (answer.number != 0 || answer.results == out));
        }
    }
}

/// The lists of 16 inputs that have the most regions: 128 points, each with its own seven
/// highest inputs, are 2,559; where one row more than may come out stands in the last region,
/// it is the 2,575th.
#[test]
fn most_regions() {
    let random = &mut Random::new(16);
    for turn in 0..8 {
        let point = |high: u32| Row {
            mask: 65_535,
            values: high << 9 | random.word(9),
            word: random.word(15),
        };
        let mut rows: Vec<Row> = (0..128).map(point).collect();
        // Two points in one row: that of the highest region, and one of the lower half.
        if turn % 2 == 1 {
            rows[127] = Row {
                mask: 32_767,
                values: 32_767,
                word: 1,
            };
            rows[63].values = 32_766;
        }
        random.shuffle(&mut rows);
        let [rows, room] = [LentRows::new(&rows), room_for([ROWS; 3])];
        let name = format!("turn {turn}");
        let answer = small_stack(move || same_disjoint(&name, [16, 15], &rows, &room));
        assert_eq!(answer.number, if turn % 2 == 1 { 14 } else { 0 });
    }
}

/// Every list of few rows and inputs.
#[test]
fn small_lists_made_disjoint() {
    small_stack(demands::disjoint_by_points::<Product>);
}

/// Disjoint lists are as 02, Ticket 10, has them.
#[test]
fn disjoint_lists_are_as_02_has_them() {
    for n in 1..=16 {
        for seed in 0..if n < 13 { 24 } else { 6 } {
            small_stack(move || demands::disjoint::<Product>(n, seed));
        }
    }
}

/// What is printed of a text made disjoint, as the plain operation has it.
fn same_printed_disjoint(name: &str, text: &[u8]) {
    is_printed(name, text, print_disjoint, &Plain::print_disjoint(text));
}

/// Drawn texts with rows that overlap on purpose, whole and damaged.
#[test]
fn drawn_texts_made_disjoint() {
    for seed in 0..draws() {
        let text = inputs::any_overlapping_text(&mut Random::new(seed));
        small_stack(move || same_printed_disjoint(&format!("seed {seed}"), &text));
    }
}

/// The texts with answers, made disjoint, and what 02, Ticket 10, says of the rows.
#[test]
fn disjoint_texts_are_as_02_has_them() {
    for (path, text) in texts() {
        small_stack(move || {
            let name = path.display().to_string();
            same_printed_disjoint(&name, &text);
            demands::printed_disjoint::<Product>(&name, &text);
        });
    }
}

/// The text of a case that writes a model, with its own length as the room, one byte
/// less and a few more.
fn written_in_rooms(name: &str, case: &Case) -> Option<Vec<u8>> {
    let in_room = |room: usize| match case.clone() {
        Case::WriteModel {
            n,
            k,
            block_type,
            w,
            rows,
            ..
        } => Case::WriteModel {
            n,
            k,
            block_type,
            w,
            rows,
            bytes: vec![HELD; room],
        },
        other => other,
    };
    let written = |case: Case| match case {
        Case::WriteModel { bytes, .. } => bytes,
        _ => Vec::new(),
    };
    let whole = written(same(name, in_room(MODEL_ROOM)));
    let length = whole.iter().position(|&byte| byte == HELD)?;
    if length == 0 {
        return None;
    }
    for room in [0, length - 1, length, length + 1, length + 9] {
        let bytes = written(same(name, in_room(room)));
        let due = if room < length { 0 } else { length };
        assert_eq!(bytes[..due], whole[..due], "{name}");
        assert!(bytes[due..].iter().all(|byte| *byte == HELD), "{name}");
    }
    Some(whole[..length].to_vec())
}

/// Written models of drawn lists, in rooms near their length, read back in rooms near
/// what they ask for.
#[test]
fn drawn_models_in_rooms() {
    let mut models = 0;
    for seed in 0..draws() / 2 {
        let case = Case::new(seed);
        if !matches!(case, Case::WriteModel { .. }) {
            continue;
        }
        let name = format!("seed {seed}");
        if let Some(text) = written_in_rooms(&name, &case) {
            read_in_rooms(&name, &text);
            models += 1;
        }
    }
    assert!(models > 0);
}

/// Reads a text with each room exact, one short and a little longer.
fn read_in_rooms(name: &str, text: &[u8]) {
    let [n, k, patterns] = models::rooms_due(text);
    let longer = [n + 2, k + 2, patterns + 2];
    let short = |due: usize| due.saturating_sub(1);
    for [matrix, counts, masks, values] in [
        [n, k, patterns, patterns],
        [longer[0], longer[1], longer[2], longer[2]],
        [short(n), k, patterns, patterns],
        [n, short(k), patterns, patterns],
        [n, k, short(patterns), patterns],
        [n, k, patterns, short(patterns)],
        [n, k, longer[2], patterns],
    ] {
        let case = Case::ReadModel {
            text: text.to_vec(),
            matrix: vec![0xABCD_1234; matrix],
            counts: vec![0xABCD_1234_ABCD; counts],
            masks: vec![0xABCD_1234; masks],
            values: vec![0xABCD_1234; values],
        };
        same(name, case);
    }
}

/// Texts of models damaged at random, in rooms for what they would hold.
#[test]
fn damaged_models() {
    for seed in 0..draws() {
        let text = models::damaged_model(&mut Random::new(seed));
        let [n, k, patterns] = models::rooms_due(&text);
        let case = Case::ReadModel {
            text,
            matrix: vec![0xABCD_1234; n],
            counts: vec![0xABCD_1234_ABCD; k],
            masks: vec![0xABCD_1234; patterns],
            values: vec![0xABCD_1234; patterns],
        };
        same(&format!("seed {seed}"), case);
    }
}

/// A name of an import: any bytes, at times longer than a line shows.
fn drawn_name(random: &mut Random) -> Vec<u8> {
    let length = match random.below(8) {
        0 => random.between(4_090, 4_102),
        _ => random.below(24),
    };
    (0..length).map(|_| random.below(256) as u8).collect()
}

/// The line of a list whose text has this printed for it.
fn line_due(name: &[u8], printed: &str) -> Vec<u8> {
    let shown = |byte: &u8| if byte.is_ascii_control() { b'?' } else { *byte };
    let lines: Vec<&str> = printed.lines().collect();
    let rows = lines.iter().find_map(|line| line.strip_prefix("table "));
    let said = rows.map(|rows| format!("sheet {rows} {} {}", lines[6], lines[7]));
    let mut line: Vec<u8> = name.iter().take(4_096).map(shown).collect();
    line.push(b' ');
    line.extend(said.unwrap_or(lines[0].to_string()).bytes());
    line
}

/// What an import gives and leaves: the sheet or the refusal in the program's
/// words, the sheet's room and the line.
fn imported(name: &[u8], text: &[u8]) -> (String, Vec<u8>, Vec<u8>) {
    let mut room = [HELD; SHEET_ROOM];
    let mut line = [HELD; LINE_ROOM];
    let got = import_text(name, text, &mut room, &mut line);
    assert!(line[got.line..].iter().all(|byte| *byte == HELD));
    let printed = match got.sheet {
        Ok(count) => String::from_utf8_lossy(&room[..count]).into_owned(),
        Err(refusal) => {
            let (number, a, b) = refusal.numbers();
            format!("refused {number} {a} {b}\n")
        }
    };
    (printed, room.to_vec(), line[..got.line].to_vec())
}

#[test]
fn drawn_imports() {
    let mut texts = 0;
    for seed in 0..draws() {
        let text = match Case::new(seed) {
            Case::Program { input: text } | Case::ReadText { text, .. } => text,
            _ => continue,
        };
        let due = String::from_utf8(Plain::program(&text[..text.len().min(8_192)])).unwrap();
        let name = drawn_name(&mut Random::new(seed));
        let line = line_due(&name, &due);
        let (printed, room, said) = small_stack(move || imported(&name, &text));
        assert_eq!(printed, due, "seed {seed}");
        assert_eq!(said, line, "seed {seed}: the line");
        let written = if due.starts_with("refused") {
            0
        } else {
            due.len()
        };
        assert!(
            room[written..].iter().all(|byte| *byte == HELD),
            "seed {seed}: the room"
        );
        texts += 1;
    }
    assert!(texts > 0);
}
