//! The plain and the fast operations against each other on cases from seeds, in
//! both forms of rows, and the demands that hold between operations.

use reference::inputs::{self, Case, LentRows, Random};
use reference::{checks, data, demands, fast, matrix, Fast, Operations, Plain, Row};
use reference::{FD, FR, NO_OUTPUT};
use std::collections::BTreeMap;

/// How many seeds the cases below are drawn from.
const SEEDS: u64 = 13_200;

#[test]
fn plain_and_fast_give_the_same_and_refusals_change_nothing() {
    let mut seen: BTreeMap<(String, u32), usize> = BTreeMap::new();
    for seed in 0..SEEDS {
        let case = Case::new(seed);
        assert_eq!(case, Case::new(seed), "seed {seed}");
        let mut plain = case.clone();
        let answer = plain.run::<Plain>();
        let mut fast = case.clone();
        assert_eq!(answer, fast.run::<Fast>(), "seed {seed}");
        assert!(plain == fast, "seed {seed}");
        for run in [Case::run_records::<Plain>, Case::run_records::<Fast>] {
            let mut records = case.clone();
            if let Some(same) = run(&mut records) {
                assert_eq!(answer, same, "seed {seed}");
                assert!(plain == records, "seed {seed}");
            }
        }
        if answer.number != 0 {
            assert!(plain == case, "seed {seed}");
            assert!(answer.results.iter().all(|&result| result == 0));
        }
        let number = match &plain {
            Case::Program { input } => refusal(input, "sheet 1\n"),
            Case::PrintModel { input } => refusal(input, ".model block\n"),
            Case::PrintJoined { input } | Case::PrintDisjoint { input } => refusal(input, ".i "),
            _ => answer.number,
        };
        let name = format!("{case:?}");
        let name = name.split(' ').next().unwrap().to_string();
        *seen.entry((name, number)).or_default() += 1;
    }
    // Every operation meets every answer it has, and no other; lists that pass
    // 512 rows are too rare among the program's.
    for (name, numbers) in [
        ("TableValue", &[0, 1, 2, 3, 4, 6][..]),
        ("TableSpectrum", &[0, 1, 2, 3, 4, 5, 6]),
        ("TableMethod", &[0, 1, 2, 3, 4, 5, 6]),
        ("Restore", &[0, 1, 2, 3, 4, 5, 6, 8]),
        ("SymmetricBlock", &[0, 1, 2, 3, 4, 5, 6]),
        ("TableSymmetric", &[0, 1, 2, 3, 4, 6]),
        ("RowValue", &[0, 1, 2, 3, 4, 6, 7, 11]),
        ("RowMethod", &[0, 1, 2, 3, 4, 5, 6, 7, 9, 11]),
        ("WhyNot", &[0, 1, 2, 3, 4, 6, 7, 11]),
        ("Join", &[0, 1, 2, 4, 6, 7]),
        ("Disjoin", &[0, 1, 2, 4, 5, 6, 14]),
        ("Fill", &[0, 1, 2, 3, 4, 5, 6, 7, 11]),
        ("ReadText", &[0, 1, 2, 4, 5, 10]),
        ("WriteText", &[0, 1, 2, 3, 4, 5, 6]),
        ("Sheet", &[0, 1, 2, 3, 4, 5, 6, 7, 9, 11]),
        ("Program", &[0, 1, 2, 4, 7, 10, 11]),
        ("WriteModel", &[0, 1, 2, 3, 4, 5, 6, 7, 9, 11]),
        ("ReadModel", &[0, 5, 8, 10]),
        ("ModelValue", &[0, 1, 2, 3, 4, 6, 8]),
        ("PrintModel", &[0, 1, 2, 4, 7, 10, 11]),
        ("PrintJoined", &[0, 1, 2, 4, 7, 10]),
        ("PrintDisjoint", &[0, 1, 2, 3, 4, 10, 14]),
    ] {
        let met: Vec<u32> = seen
            .keys()
            .filter(|(operation, _)| operation == name)
            .map(|(_, number)| *number)
            .collect();
        for number in numbers {
            assert!(met.contains(number), "{name} never answers {number}");
        }
        let prints = ["Program", "PrintModel"].contains(&name);
        let may = |number: &u32| numbers.contains(number) || prints && *number == 9;
        assert!(met.iter().all(may), "{name}: {met:?}");
    }
}

/// The candidates from the printed list are those that 01 names, in their order.
#[test]
fn the_printed_list_has_the_candidates() {
    for n in 1..=16 {
        for w in 1..=n {
            let listed: Vec<u32> = fast::candidates(n, w).collect();
            let due: Vec<u32> = matrix::candidates(n, w).collect();
            assert!(listed == due, "{n} inputs, weight limit {w}");
        }
    }
}

/// The number that the program's print shows; what is no refusal begins so.
fn refusal(printed: &[u8], begins: &str) -> u32 {
    let printed = std::str::from_utf8(printed).unwrap();
    match printed.strip_prefix("refused ") {
        Some(places) => places.split(' ').next().unwrap().parse().unwrap(),
        None => {
            assert!(printed.starts_with(begins));
            0
        }
    }
}

/// Demands 2 and 3 of the request on lists of at most 12 inputs, for each type,
/// with the same type on both sides: both methods give the same, the smaller rows
/// fill the smaller table, no two of them share a point, and restoring gives the
/// filled table back.
#[test]
fn both_methods_agree_and_restoring_goes_back() {
    let mut answered = 0;
    for seed in 0..400 {
        let random = &mut Random::new(seed);
        let n = random.between(1, 12);
        let k = random.between(1, 15);
        let w = random.between(1, n);
        let count = random.between(1, 128);
        let rows = match random.below(2) {
            0 => inputs::rows(random, n, k, count),
            _ => inputs::hidden_rows(random, n, k, count),
        };
        let y = random.pick(&[FR, FD]);
        let mut smaller = [Row::default(); 512];
        let [mut columns, mut sigma] = [vec![0; n], vec![0; n]];
        let room = &mut smaller[..];
        let by_rows = Plain::row_method_records(n, k, y, w, &rows, room, &mut columns, &mut sigma);
        if by_rows.number != 0 {
            assert_eq!(by_rows.number, 9);
            continue;
        }
        answered += 1;
        let size = 1 << n;
        let mut table = vec![0; size];
        assert_eq!(Plain::fill_records(n, k, y, &rows, &mut table).number, 0);
        let mut smaller_table = vec![0; size];
        let [mut table_columns, mut table_sigma] = [vec![0; n], vec![0; n]];
        let by_table = Plain::table_method(
            n,
            k,
            y,
            w,
            &table,
            &mut smaller_table,
            &mut table_columns,
            &mut table_sigma,
        );
        assert_eq!(by_table.number, 0);
        assert_eq!(by_rows.results.before, by_table.results.before);
        assert_eq!(by_rows.results.after, by_table.results.after);
        assert_eq!((columns, &sigma), (table_columns, &table_sigma));
        let smaller = &smaller[..by_rows.results.rows];
        let mut filled = vec![0; size];
        assert_eq!(Plain::fill_records(n, k, y, smaller, &mut filled).number, 0);
        assert_eq!(filled, smaller_table);
        let mut restored = vec![0; size];
        let back = Plain::restore(n, k, y, &sigma, &smaller_table, &mut restored);
        assert_eq!(back.number, 0);
        assert_eq!(restored, table);
        for t in [0, 1, size - 1, random.below(size)] {
            let value = Plain::row_value_records(n, k, y, t, &rows);
            assert_eq!(value, Plain::table_value(n, k, y, t, &table));
        }
    }
    assert!(answered > 350);
}

/// R at every t, by the spectrum.
fn spectrum<O: Operations>(n: usize, k: usize, y: usize, table: &[u16]) -> Vec<u32> {
    let (mut values, mut working) = (vec![u32::MAX; 1 << n], vec![i32::MIN; 1 << n]);
    let got = O::table_spectrum(n, k, y, table, &mut values, &mut working);
    assert_eq!(got.number, 0);
    assert!(working.iter().all(|&number| number == 0));
    values
}

/// R at every t, one by one.
fn counted(n: usize, k: usize, y: usize, table: &[u16]) -> Vec<u32> {
    let value = |t| Plain::table_value(n, k, y, t, table).results as u32;
    (0..1 << n).map(value).collect()
}

/// The spectrum gives the R of the counting definition at every t, for both types.
#[test]
fn the_spectrum_is_r_at_every_t() {
    for n in 1..=12 {
        for seed in 0..if n < 10 { 24 } else { 3 } {
            let random = &mut Random::new(seed);
            let k = random.between(1, 15);
            let words = inputs::words(random, k);
            let mut table: Vec<u16> = (0..1 << n).map(|_| random.pick(&words) as u16).collect();
            let missing = random.pick(&[2, 5, 20, 999]);
            for entry in &mut table {
                if random.one_in(missing) {
                    *entry = NO_OUTPUT;
                }
            }
            for y in [FR, FD] {
                if y == FD {
                    let open = table.iter_mut().filter(|entry| **entry == NO_OUTPUT);
                    open.for_each(|entry| *entry = 0);
                }
                let due = counted(n, k, y, &table);
                let name = format!("{n} inputs, seed {seed}, type {y}");
                assert!(spectrum::<Plain>(n, k, y, &table) == due, "{name}");
                assert!(spectrum::<Fast>(n, k, y, &table) == due, "{name}");
            }
        }
    }
}

/// The same with more and more words, up to one for each point, for which the plain
/// form takes long.
#[test]
fn the_spectrum_of_many_words() {
    let random = &mut Random::new(5);
    let mut points: Vec<u16> = (0..4_096).collect();
    random.shuffle(&mut points);
    for words in [1, 2, 16, 256, 1_024, 4_096] {
        let table: Vec<u16> = points.iter().map(|point| point % words).collect();
        for y in [FR, FD] {
            let due = counted(12, 12, y, &table);
            assert!(spectrum::<Fast>(12, 12, y, &table) == due, "{words} words");
        }
    }
}

/// Symmetric blocks of drawn words have what 02, Ticket 6, asks to be shown of them.
#[test]
fn symmetric_blocks_are_as_02_has_them() {
    for n in 1..=12 {
        for seed in 0..if n < 10 { 60 } else { 8 } {
            demands::symmetric_block::<Plain>(n, seed);
            demands::symmetric_block::<Fast>(n, seed);
        }
    }
}

/// Every reason is the one that 02, Ticket 7, has, at each number of small blocks and at
/// drawn ones of greater blocks.
#[test]
fn reasons_are_as_02_has_them() {
    for n in 1..=16 {
        for seed in 0..if n < 10 { 40 } else { 3 } {
            demands::reasons::<Plain>(n, seed);
            demands::reasons::<Fast>(n, seed);
        }
    }
}

/// Lists that the row method refuses with 9 have their answers here, as no row is moved.
#[test]
fn lists_that_pass_512_rows_have_reasons() {
    let random = &mut Random::new(7);
    for (head, rows) in data::lists_past_512() {
        let [n, k, y] = [head.n, head.k, head.block_type];
        let [mut taken, mut same] = [[7; 16]; 2];
        let t = random.below(1 << n);
        let plain = Plain::why_not_records(n, k, y, 3, t, &rows, &mut taken);
        let fast = Fast::why_not_records(n, k, y, 3, t, &rows, &mut same);
        assert_eq!(plain.number, 0);
        assert_eq!((plain, taken), (fast, same));
    }
}

/// Lists with undriven columns are refused as 02, Ticket 8, has it, and with no others; the
/// smaller rows of the others drive the same columns, and are filled.
#[test]
fn undriven_columns_are_refused_as_02_has_them() {
    for seed in 0..600 {
        demands::driven_columns::<Plain>(seed);
        demands::driven_columns::<Fast>(seed);
    }
}

/// A list that passes 512 rows is refused with 11 where a column is undriven.
#[test]
fn undriven_columns_come_before_9() {
    let random = &mut Random::new(11);
    let mut mislaid = 0;
    for (head, mut rows) in data::lists_past_512() {
        let [n, k, y] = [head.n, head.k, head.block_type];
        let numbers_of = |k, rows: &[Row]| {
            let (mut sheet, mut model) = (vec![0; 17_518], vec![0; 9_999]);
            let sheet = Fast::sheet_records(n, k, y, 3, rows, &mut sheet);
            let model = Fast::write_model_records(n, k, y, 3, rows, &mut model);
            [[sheet.number, sheet.a], [model.number, model.a]]
        };
        assert_eq!(numbers_of(k, &rows).map(|[number, _]| number), [9, 9]);
        if k < 15 {
            inputs::mislay_column(random, k, &mut rows);
            let bit = inputs::undriven_columns(k + 1, &rows).trailing_zeros();
            assert_eq!(numbers_of(k + 1, &rows), [[11, bit]; 2]);
            mislaid += 1;
        }
    }
    assert!(mislaid > 8, "{mislaid}");
}

/// The drawn calls on lists have undriven columns beside each other thing that may be
/// wrong: what comes before 11 is then given, and what comes after it is not.
#[test]
fn undriven_columns_are_drawn_beside_other_faults() {
    let mut met: BTreeMap<u32, usize> = BTreeMap::new();
    let mut columns = [0; 16];
    for seed in 0..SEEDS {
        let mut case = Case::new(seed);
        let (k, rows) = match &case {
            Case::RowValue { k, rows, .. }
            | Case::RowMethod { k, rows, .. }
            | Case::WhyNot { k, rows, .. }
            | Case::Fill { k, rows, .. }
            | Case::Sheet { k, rows, .. }
            | Case::WriteModel { k, rows, .. } => (*k, rows.records()),
            _ => continue,
        };
        let undriven = match rows {
            Some(rows) if k <= 15 => inputs::undriven_columns(k, &rows),
            _ => 0,
        };
        if undriven != 0 {
            let number = case.run::<Fast>().number;
            *met.entry(number).or_default() += 1;
            columns[undriven.count_ones() as usize] += usize::from(number == 11);
        }
    }
    let numbers: Vec<u32> = met.keys().copied().collect();
    assert_eq!(numbers, [1, 3, 4, 5, 6, 7, 11], "{met:?}");
    assert!(met.values().all(|&count| count >= 4), "{met:?}");
    assert!(columns[1..].iter().all(|&count| count > 0), "{columns:?}");
}

/// The drawn calls meet each of the four reasons, each often.
#[test]
fn every_reason_is_met() {
    let mut met = [0; 5];
    for seed in 0..SEEDS {
        let mut case = Case::new(seed);
        if matches!(case, Case::WhyNot { .. }) {
            met[case.run::<Fast>().results[0] as usize] += 1;
        }
    }
    assert!(met.iter().all(|&count| count >= 8), "{met:?}");
}

/// Joined lists are as 02, Ticket 9, has them.
#[test]
fn joined_lists_are_as_02_has_them() {
    for n in 1..=16 {
        for seed in 0..if n < 13 { 60 } else { 12 } {
            demands::joined::<Plain>(n, seed);
            demands::joined::<Fast>(n, seed);
        }
    }
}

/// Every list of few rows and inputs is joined alike.
#[test]
fn small_lists_are_joined() {
    demands::small_joins::<Fast>();
}

/// The number of rows left of all points of 9 inputs with one word, in this order.
fn points_left(points: &[u32]) -> usize {
    let point = |&values: &u32| Row {
        mask: 511,
        values,
        word: 1,
    };
    let mut rows: Vec<Row> = points.iter().map(point).collect();
    let mut same = rows.clone();
    let got = Plain::join_records(9, 1, &mut rows);
    assert_eq!(got, Fast::join_records(9, 1, &mut same));
    assert!(got.number == 0 && rows == same);
    got.results
}

/// All points of 9 inputs with one word end as one row where each half of the space stands
/// together, and else as many: rows join whose joined row has no partner.
#[test]
fn all_points_are_joined() {
    let random = &mut Random::new(9);
    let mut points: Vec<u32> = (0..512).collect();
    assert_eq!(points_left(&points), 1);
    for _ in 0..6 {
        let halved = inputs::halved_points(random, 9);
        assert_eq!(points_left(&halved), 1);
        random.shuffle(&mut points);
        assert!((100..300).contains(&points_left(&points)));
    }
}

/// The drawn calls have lists with no join, with few and with many, and among them 512
/// rows; and columns that no row drives, which are not refused here.
#[test]
fn joins_are_drawn() {
    let mut met = [0; 5];
    let [mut longest, mut undriven] = [0; 2];
    for seed in 0..SEEDS {
        let mut case = Case::new(seed);
        let (k, given) = match &case {
            Case::Join { k, rows, .. } => (*k, rows.records()),
            _ => continue,
        };
        let answer = case.run::<Fast>();
        if let (0, Some(given)) = (answer.number, given) {
            let joins = given.len() - answer.results[0] as usize;
            let class = [1, 16, 128, 256].partition_point(|&least| least <= joins);
            met[class] += 1;
            longest += usize::from(given.len() == 512);
            undriven += usize::from(inputs::undriven_columns(k, &given) != 0);
        }
    }
    assert!(met.iter().all(|&count| count >= 8), "{met:?}");
    assert!(longest >= 8 && undriven >= 20, "{longest} {undriven}");
}

/// What is printed of a text's joined rows is as 02, Ticket 9, has the rows; drawn texts
/// have no join, few and many, with each type line and with none, and are refused.
#[test]
fn joined_texts_are_as_02_has_them() {
    let printed = |name: &str, text: &[u8]| {
        let got = demands::printed_joined::<Plain>(name, text);
        assert_eq!(got, demands::printed_joined::<Fast>(name, text), "{name}");
        got
    };
    for (path, text) in data::texts() {
        printed(&path.display().to_string(), &text);
    }
    let [mut refused, mut same] = [0; 2];
    // Joined texts with no type line, with that of fr and with that of fd.
    let mut lines = [0; 3];
    let mut most = 0;
    for seed in 0..600 {
        let text = inputs::any_joining_text(&mut Random::new(seed));
        let got = printed(&format!("seed {seed}"), &text);
        if got.starts_with("refused") {
            refused += 1;
        } else if got.as_bytes() == text {
            same += 1;
        } else {
            let told = [".type fr\n", ".type fd\n"].map(|line| got.contains(line));
            let line = told.iter().position(|&told| told);
            lines[line.map_or(0, |line| line + 1)] += 1;
            let rows = |text: &[u8]| text.iter().filter(|&&byte| byte == b'\n').count();
            most = most.max(rows(&text) - rows(got.as_bytes()));
        }
    }
    assert!(refused > 100 && same > 20, "{refused} {same}");
    assert!(lines.iter().all(|&count| count > 20), "{lines:?}");
    assert!(most > 100, "{most}");
}

/// Lists that overlap on purpose are made disjoint as 02, Ticket 10, has it; few and many
/// rows come out, and more than 128 would.
#[test]
fn disjoint_lists_are_as_02_has_them() {
    // At most 16 rows, at most 127, 128, and more.
    let mut met = [0; 4];
    for n in 1..=16 {
        for seed in 0..if n < 13 { 60 } else { 12 } {
            let count = demands::disjoint::<Plain>(n, seed);
            assert_eq!(count, demands::disjoint::<Fast>(n, seed));
            let class = [17, 128, 129].partition_point(|&least| least <= count.unwrap_or(129));
            met[class] += 1;
        }
    }
    assert!(met.iter().all(|&count| count >= 20), "{met:?}");
}

/// Every list of few rows and inputs is made disjoint as the points of regions have it.
#[test]
fn small_lists_are_made_disjoint() {
    demands::disjoint_by_points::<Plain>();
    demands::disjoint_by_points::<Fast>();
}

/// The drawn calls have lists of which exactly 127, 128, 129 and 130 rows come out, few, and
/// many more than 128; and lists that are disjoint, with word 0, of 16 inputs, and in rooms
/// of 127, 128 and more rows.
#[test]
fn overlaps_are_drawn() {
    let mut exact = [0; 4];
    let [mut few, mut disjoint, mut zeros, mut widest] = [0; 4];
    let mut rooms = [0; 3];
    for seed in 0..SEEDS {
        let mut case = Case::new(seed);
        let (n, given, room) = match &case {
            Case::Disjoin {
                n, rows, disjoint, ..
            } => (*n, rows.records(), disjoint.records()),
            _ => continue,
        };
        let answer = case.run::<Fast>();
        if let Some(room) = room.filter(|room| room.len() >= 127) {
            rooms[room.len().min(129) - 127] += 1;
        }
        if let (0 | 14, Some(given)) = (answer.number, given) {
            let out = rows_out(&given);
            exact
                .iter_mut()
                .zip(127..)
                .for_each(|(count, due)| *count += usize::from(out == due));
            few += usize::from(out < 24);
            disjoint += usize::from(checks::disjoint(&given).is_ok());
            zeros += usize::from(given.iter().any(|row| row.word == 0));
            widest += usize::from(n == 16);
        }
    }
    assert!(exact.iter().all(|&count| count >= 8), "{exact:?}");
    assert!(rooms.iter().all(|&count| count >= 8), "{rooms:?}");
    let all = [few, disjoint, zeros, widest];
    assert!(all.iter().all(|&count| count >= 20), "{all:?}");
}

/// How many rows a list would give, more than 128 too: those of both halves of the space at
/// the highest input that is fixed, and so on, each as a list of its own.
fn rows_out(rows: &[Row]) -> usize {
    let fixed = rows.iter().fold(0, |mask, row| mask | row.mask);
    let bit = match fixed {
        0 => return usize::from(!rows.is_empty()),
        _ => 1 << (31 - fixed.leading_zeros()),
    };
    let half = |value: u32| -> Vec<Row> {
        let meeting = rows
            .iter()
            .filter(|row| row.mask & bit == 0 || row.values & bit == value);
        let freed = |row: &Row| Row {
            mask: row.mask & !bit,
            values: row.values & !bit,
            ..*row
        };
        meeting.map(freed).collect()
    };
    rows_out(&half(0)) + rows_out(&half(bit))
}

/// What is printed of a text's rows made disjoint is as 02, Ticket 10, has the rows; drawn
/// texts have few rows and many, with the type line and without, and are refused.
#[test]
fn disjoint_texts_are_as_02_has_them() {
    let printed = |name: &str, text: &[u8]| {
        let got = demands::printed_disjoint::<Plain>(name, text);
        assert_eq!(got, demands::printed_disjoint::<Fast>(name, text), "{name}");
        got
    };
    for (path, text) in data::texts() {
        printed(&path.display().to_string(), &text);
    }
    let mut refused = BTreeMap::new();
    // Those with the line ".type fd", and those with none.
    let mut lines = [0; 2];
    let mut most = 0;
    for seed in 0..600 {
        let text = inputs::any_overlapping_text(&mut Random::new(seed));
        let got = printed(&format!("seed {seed}"), &text);
        match refusal(got.as_bytes(), ".i ") {
            0 => {
                let told = text.windows(10).any(|line| line == b".type fd\n.");
                lines[usize::from(!told)] += 1;
                most = most.max(got.lines().count() - 5);
            }
            number => *refused.entry(number).or_insert(0) += 1,
        }
    }
    let many = |number: u32| refused.get(&number).map_or(false, |&count| count >= 20);
    assert!([3, 10, 14].into_iter().all(many), "{refused:?}");
    assert!(lines.iter().all(|&count| count > 20), "{lines:?}");
    assert_eq!(most, 128);
}

/// Text read and written again is the same bytes, rows written and read again
/// are the same rows.
#[test]
fn text_goes_there_and_back() {
    // How many texts of each type have its line, and how many have not.
    let mut lines = [[0; 2]; 3];
    for seed in 0..300 {
        let random = &mut Random::new(seed);
        let text = inputs::text(random);
        let mut rows = [Row::default(); 128];
        let read = Plain::read_text_records(&text, &mut rows);
        assert_eq!(read.number, 0);
        let head = read.results;
        let rows = &rows[..head.rows];
        lines[head.block_type][head.type_line] += 1;
        assert_eq!(inputs::text_of(head, rows), text);
        let mut lent = LentRows::new(rows);
        assert_eq!(Plain::read_text(&text, lent.room()), read);
        assert_eq!(lent.records().unwrap(), rows);
    }
    assert!(lines[FR][1] > 50 && lines[FD].iter().all(|&count| count > 50));
    assert_eq!(lines[FR][0], 0);
}

/// The type tells on a list only where a point is missing, and fd is fr with the
/// missing points given as rows of word 0.
#[test]
fn missing_points_count_with_word_0_under_fd() {
    let mut with_missing = 0;
    for seed in 0..200 {
        let random = &mut Random::new(seed);
        let n = random.between(1, 7);
        let k = random.between(1, 4);
        let mut rows = inputs::rows(random, n, k, 24);
        let covered = |x: u32| rows.iter().any(|row| row.covers(x));
        let missing: Vec<u32> = (0..1 << n).filter(|&x| !covered(x)).collect();
        if rows.len() + missing.len() > 128 {
            continue;
        }
        let t = random.below(1 << n);
        let [fr, fd] = [FR, FD].map(|y| Plain::row_value_records(n, k, y, t, &rows));
        assert!(fr.results <= fd.results);
        assert!(!missing.is_empty() || fr == fd);
        with_missing += usize::from(!missing.is_empty());
        let whole = (1 << n) - 1;
        rows.extend(missing.into_iter().map(|values| Row {
            mask: whole,
            values,
            word: 0,
        }));
        for y in [FR, FD] {
            assert_eq!(fd, Plain::row_value_records(n, k, y, t, &rows));
            assert_eq!(fd, Fast::row_value_records(n, k, y, t, &rows));
        }
    }
    assert!(with_missing > 40);
}

/// The rows near 512 are there on both sides of it.
#[test]
fn lists_near_512_smaller_rows() {
    let [mut within, mut passed] = [0, 0];
    for seed in 0..30 {
        let ([n, k, y, w], rows) = inputs::rows_near_512(&mut Random::new(seed), 60);
        let mut smaller = [Row::default(); 512];
        let [mut columns, mut sigma] = [[0; 16]; 2];
        let room = &mut smaller;
        let answer = Fast::row_method_records(n, k, y, w, &rows, room, &mut columns, &mut sigma);
        match answer.number {
            0 => within += usize::from(answer.results.rows > 450),
            number => {
                assert_eq!(number, 9);
                passed += 1;
            }
        }
    }
    assert!(within >= 3 && passed >= 3, "{within} {passed}");
}

/// Rows of 16 inputs with every number a candidate: slow for the plain form, so
/// one list for each type alone.
#[test]
fn sixteen_inputs_without_weight_limit() {
    for y in [FR, FD] {
        let rows = inputs::hidden_rows(&mut Random::new(5), 16, 15, 128);
        let lent = || (vec![Row::default(); 512], vec![0; 16], vec![0; 16]);
        let (mut smaller, mut columns, mut sigma) = lent();
        let room = &mut smaller;
        let plain = Plain::row_method_records(16, 15, y, 16, &rows, room, &mut columns, &mut sigma);
        let (mut fast_smaller, mut fast_columns, mut fast_sigma) = lent();
        let room = &mut fast_smaller;
        let (t, s) = (&mut fast_columns, &mut fast_sigma);
        let fast = Fast::row_method_records(16, 15, y, 16, &rows, room, t, s);
        assert_eq!(plain, fast);
        assert_eq!(
            (smaller, columns, sigma),
            (fast_smaller, fast_columns, fast_sigma)
        );
    }
}
