//! 01's blocks to try by hand, cases a to j and those after them, read as fr, the
//! sheet's example, Example 2 of document 000, blocks of either type (02, Ticket 2),
//! the spectrum of some of these (02, Ticket 5), symmetric blocks, document 002's
//! among them (02, Ticket 6), why a number was not taken (02, Ticket 7), lists with a
//! column that no row drives (02, Ticket 8), joined rows (02, Ticket 9), and lists that
//! overlap on purpose (02, Ticket 10). Each is asked of the plain and of the fast operations.

use reference::{fast, spectrum, symmetric, Flat, FlatRoom, Reason, Row, FD, FR, NO_OUTPUT};

/// Rows as 01 writes them: "symbols word".
fn list(lines: &[&str]) -> Vec<Row> {
    let row = |line: &&str| {
        let (symbols, word) = line.split_once(' ').unwrap();
        let bits = |one: fn(char) -> bool| {
            symbols
                .chars()
                .fold(0, |sum, symbol| sum << 1 | u32::from(one(symbol)))
        };
        Row {
            mask: bits(|symbol| symbol != '-'),
            values: bits(|symbol| symbol == '1'),
            word: u32::from_str_radix(word, 2).unwrap(),
        }
    };
    lines.iter().map(row).collect()
}

/// Number, A, B, measures, T, sigma and smaller table of the table method with
/// all the room it asks for.
type TableAnswer = ([u32; 3], [u64; 2], Vec<u32>, Vec<u32>, Vec<u16>);

fn table_method_of(y: usize, [n, k, w]: [usize; 3], table: &[u16]) -> TableAnswer {
    let mut lent = (vec![7; n], vec![7; n], vec![7; table.len()]);
    let mut fast_lent = lent.clone();
    let got = reference::table_method(n, k, y, w, table, &mut lent.2, &mut lent.0, &mut lent.1);
    let (smaller, columns, sigma) = (&mut fast_lent.2, &mut fast_lent.0, &mut fast_lent.1);
    let fast = fast::table_method(n, k, y, w, table, smaller, columns, sigma);
    assert_eq!(got, fast);
    assert_eq!(lent, fast_lent);
    let number = [got.number, got.a, got.b];
    let measures = [got.results.before, got.results.after];
    (number, measures, lent.0, lent.1, lent.2)
}

/// The same of a table of type fr.
fn table_method(n: usize, k: usize, w: usize, table: &[u16]) -> TableAnswer {
    table_method_of(FR, [n, k, w], table)
}

/// The same of the row method.
type RowAnswer = ([u32; 3], [u64; 2], Vec<u32>, Vec<u32>, Vec<Row>);

fn row_method_of(y: usize, [n, k, w]: [usize; 3], rows: &[Row]) -> RowAnswer {
    let mut lent = (vec![7; n], vec![7; n], vec![Row::default(); 512]);
    let mut fast_lent = lent.clone();
    let room = &mut lent.2[..];
    let got = reference::row_method(n, k, y, w, rows, room, &mut lent.0, &mut lent.1);
    let room = &mut fast_lent.2[..];
    let (columns, sigma) = (&mut fast_lent.0, &mut fast_lent.1);
    let fast = fast::row_method(n, k, y, w, rows, room, columns, sigma);
    assert_eq!(got, fast);
    assert_eq!(lent, fast_lent);
    lent.2.truncate(got.results.rows);
    let number = [got.number, got.a, got.b];
    let measures = [got.results.before, got.results.after];
    (number, measures, lent.0, lent.1, lent.2)
}

fn row_method(n: usize, k: usize, w: usize, rows: &[Row]) -> RowAnswer {
    row_method_of(FR, [n, k, w], rows)
}

/// The number of the row method's answer.
fn row_number(n: usize, k: usize, w: usize, rows: &[Row]) -> u32 {
    row_method(n, k, w, rows).0[0]
}

/// Number, A, B and R at every t, by the spectrum, in rooms of these lengths. What
/// lies beyond the results, and with a refusal all, holds what it held, and the
/// working entries end at 0.
fn spectrum_in(
    y: usize,
    [n, k]: [usize; 2],
    table: &[u16],
    room: [usize; 2],
) -> ([u32; 3], Vec<u32>) {
    let mut lent = (vec![7; room[0]], vec![-7; room[1]]);
    let mut fast_lent = lent.clone();
    let got = reference::table_spectrum(n, k, y, table, &mut lent.0, &mut lent.1);
    let (values, working) = (&mut fast_lent.0, &mut fast_lent.1);
    assert_eq!(got, fast::table_spectrum(n, k, y, table, values, working));
    assert_eq!(lent, fast_lent);
    let size = if got.number == 0 { 1 << n } else { 0 };
    assert!(lent.0[size..].iter().all(|&value| value == 7));
    assert!(lent.1[..size].iter().all(|&number| number == 0));
    assert!(lent.1[size..].iter().all(|&number| number == -7));
    lent.0.truncate(size);
    ([got.number, got.a, got.b], lent.0)
}

/// The same in rooms a little longer than it asks for.
fn spectrum_of(y: usize, numbers: [usize; 2], table: &[u16]) -> ([u32; 3], Vec<u32>) {
    spectrum_in(y, numbers, table, [table.len() + 1, table.len() + 2])
}

/// Number, A, B, measures, table and smaller table of a symmetric block.
type BlockAnswer = ([u32; 3], [u64; 2], Vec<u16>, Vec<u16>);

/// A symmetric block in rooms of these lengths. What lies beyond the results, and with
/// a refusal all, holds what it held.
fn symmetric_in(
    y: usize,
    [n, k]: [usize; 2],
    words: &[u16],
    [room, smaller_room]: [usize; 2],
) -> BlockAnswer {
    let mut lent = (vec![7; room], vec![9; smaller_room]);
    let mut fast_lent = lent.clone();
    let got = reference::symmetric_block(n, k, y, words, &mut lent.0, &mut lent.1);
    let (table, smaller) = (&mut fast_lent.0, &mut fast_lent.1);
    assert_eq!(got, fast::symmetric_block(n, k, y, words, table, smaller));
    assert_eq!(lent, fast_lent);
    let size = if got.number == 0 { 1 << n } else { 0 };
    assert!(lent.0[size..].iter().all(|&entry| entry == 7));
    assert!(lent.1[size..].iter().all(|&entry| entry == 9));
    lent.0.truncate(size);
    lent.1.truncate(size);
    let measures = [got.results.before, got.results.after];
    ([got.number, got.a, got.b], measures, lent.0, lent.1)
}

/// The same in rooms a little longer than it asks for, each word having one output.
fn symmetric_of(y: usize, words: &[u16]) -> BlockAnswer {
    let n = words.len() - 1;
    symmetric_in(y, [n, 1], words, [(1 << n) + 1, (1 << n) + 2])
}

/// Number, A, B and whether a table is symmetric.
fn is_symmetric(y: usize, [n, k]: [usize; 2], table: &[u16]) -> ([u32; 3], bool) {
    let got = reference::table_symmetric(n, k, y, table);
    assert_eq!(got, fast::table_symmetric(n, k, y, table));
    ([got.number, got.a, got.b], got.results)
}

/// Number, A, B and the reason why t was not taken, and the numbers that were: none with
/// a refusal. What lies beyond them holds what it held.
type WhyAnswer = ([u32; 3], Option<Reason>, Vec<u32>);

fn why_of(y: usize, [n, k, w, t]: [usize; 4], rows: &[Row]) -> WhyAnswer {
    let [mut taken, mut fast_taken] = [[7; 16]; 2];
    let got = reference::why_not(n, k, y, w, t, rows, &mut taken);
    let fast = fast::why_not(n, k, y, w, t, rows, &mut fast_taken);
    assert_eq!((got, taken), (fast, fast_taken));
    let count = if got.number == 0 { n } else { 0 };
    assert!(taken[count..].iter().all(|&number| number == 7));
    let number = [got.number, got.a, got.b];
    (number, got.results, taken[..count].to_vec())
}

/// The reasons of every t below 2^n, and the numbers taken, of a list of type fr.
fn reasons_of([n, k, w]: [usize; 3], rows: &[Row]) -> (Vec<Reason>, Vec<u32>) {
    let reason = |t| why_of(FR, [n, k, w, t], rows).1.unwrap();
    let reasons = (0..1 << n).map(reason).collect();
    (reasons, why_of(FR, [n, k, w, 0], rows).2)
}

/// Number, A, B, the number of rows that are left of a joined list, and the whole list.
fn join_of([n, k]: [usize; 2], rows: &[Row]) -> ([u32; 3], usize, Vec<Row>) {
    let [mut lent, mut fast_lent] = [rows.to_vec(), rows.to_vec()];
    let got = reference::join(n, k, &mut lent[..]);
    let fast = fast::join(n, k, &mut fast_lent[..]);
    assert_eq!((got, &lent), (fast, &fast_lent));
    ([got.number, got.a, got.b], got.results, lent)
}

/// The rows that are left of a list; each freed record is all zeros.
fn left_of(k: usize, lines: &[&str]) -> Vec<Row> {
    let n = lines[0].find(' ').unwrap();
    let (number, left, mut lent) = join_of([n, k], &list(lines));
    assert_eq!((number, lent.len()), (ANSWERED, lines.len()));
    let freed = lent.split_off(left);
    assert!(freed.iter().all(|row| *row == Row::default()));
    lent
}

/// What the room for a disjoint list holds before the call.
const HELD: Row = Row {
    mask: 0xABCD_1234,
    values: 0xABCD_1234,
    word: 0xABCD_1234,
};

/// Number, A, B and count of a list that is made disjoint, in room for so many rows, and
/// all of that room.
fn disjoin_in(room: usize, [n, k]: [usize; 2], rows: &[Row]) -> ([u32; 4], Vec<Row>) {
    let [mut lent, mut fast_lent] = [vec![HELD; room], vec![HELD; room]];
    let got = reference::disjoin(n, k, rows, &mut lent[..]);
    let fast = fast::disjoin(n, k, rows, &mut fast_lent[..]);
    assert_eq!((got, &lent), (fast, &fast_lent));
    ([got.number, got.a, got.b, got.results as u32], lent)
}

/// The disjoint list of a list; what lies beyond it in the room holds what it held.
fn disjoint_of(k: usize, lines: &[&str]) -> Vec<Row> {
    let n = lines[0].find(' ').unwrap();
    let ([number, _, _, count], mut lent) = disjoin_in(128, [n, k], &list(lines));
    assert_eq!(number, 0);
    let beyond = lent.split_off(count as usize);
    assert!(beyond.iter().all(|row| *row == HELD));
    lent
}

const ANSWERED: [u32; 3] = [0, 0, 0];

#[test]
fn case_a() {
    let table = [0, 1, 1, 0];
    let values = (0..4).map(|t| reference::table_value(2, 1, FR, t, &table).results);
    assert_eq!(values.collect::<Vec<_>>(), [4, 0, 0, 4]);
    let due = (ANSWERED, [0, 4], vec![3, 1], vec![2, 3], vec![0, 0, 1, 1]);
    assert_eq!(table_method(2, 1, 2, &table), due);
    let due = (ANSWERED, vec![4, 0, 0, 4]);
    assert_eq!(spectrum_of(FR, [2, 1], &table), due);
    assert_eq!(spectrum_of(FD, [2, 1], &table), due);
}

#[test]
fn case_b() {
    let (number, measures, columns, ..) = table_method(2, 1, 1, &[0, 1, 1, 0]);
    assert_eq!((number, measures, columns), (ANSWERED, [0, 0], vec![1, 2]));
}

#[test]
fn case_c() {
    let (number, measures, columns, ..) = row_method(1, 1, 1, &list(&["- 1"]));
    assert_eq!((number, measures, columns), (ANSWERED, [2, 2], vec![1]));
}

#[test]
fn case_d() {
    let rows = list(&["0 011111111", "1 111111111"]);
    let got = reference::row_value(1, 9, FR, 1, &rows[..]);
    assert_eq!((got.number, got.results), (0, 0));
    assert_eq!(got, fast::row_value(1, 9, FR, 1, &rows[..]));
}

const SHEET_BLOCK: [&str; 4] = ["00- 01", "11- 01", "01- 10", "10- 10"];

#[test]
fn case_e() {
    let (number, _, columns, sigma, _) = row_method(3, 2, 3, &list(&SHEET_BLOCK));
    assert_eq!(number, ANSWERED);
    assert_eq!((columns, sigma), (vec![1, 6, 2], vec![1, 4, 6]));
}

#[test]
fn case_f() {
    let rows = list(&["--0 01", "001 10", "111 10", "011 11", "101 11"]);
    let smaller = list(&["0-- 01", "100 10", "101 10", "110 11", "111 11"]);
    let due = (ANSWERED, [8, 12], vec![6, 2, 1], vec![4, 6, 1], smaller);
    assert_eq!(row_method(3, 2, 3, &rows), due);
}

#[test]
fn case_g() {
    let rows = list(&[
        "-00 01", "110 01", "010 00", "001 10", "111 10", "011 11", "101 11",
    ]);
    let (number, measures, columns, _, smaller) = row_method(3, 2, 3, &rows);
    assert_eq!(number, ANSWERED);
    assert_eq!((measures, columns), ([4, 8], vec![6, 2, 1]));
    assert_eq!(smaller.len(), 8);
    assert_eq!(smaller[..2], list(&["000 01", "011 01"]));
}

#[test]
fn case_h() {
    let rows = list(&["0- 1", "-0 1"]);
    let (number, measures, columns, ..) = row_method(2, 1, 2, &rows);
    assert_eq!((number, measures), ([7, 0, 1], [0, 0]));
    assert_eq!(columns, [7, 7]);
    let got = reference::row_value(2, 1, FR, 0, &rows[..]);
    assert_eq!((got.number, got.a, got.b), (7, 0, 1));
    let got = reference::fill(2, 1, FR, &rows[..], &mut [0; 4]);
    assert_eq!((got.number, got.a, got.b), (7, 0, 1));
    // Writing text does not look for it.
    let got = reference::write_text(2, 1, FR, 1, &rows[..], &mut [0; 4_255]);
    assert_eq!((got.number, got.results), (0, 5 + 5 + 9 + 5 + 10 + 3));
}

#[test]
fn case_i() {
    for restore in [reference::restore, fast::restore] {
        let mut table = [9; 5];
        let got = restore(2, 1, FR, &[2, 3], &[0, 0, 1, 1], &mut table);
        assert_eq!(got.number, 0);
        assert_eq!(table, [0, 1, 1, 0, 9]);
    }
}

#[test]
fn case_j() {
    for (matrix, due) in [([3, 3], (8, 1, 0)), ([0, 1], (8, 0, 0))] {
        for restore in [reference::restore, fast::restore] {
            let mut table = [9; 4];
            let got = restore(2, 1, FR, &matrix, &[0, 0, 1, 1], &mut table);
            assert_eq!((got.number, got.a, got.b), due);
            assert_eq!(table, [9; 4]);
        }
    }
}

const SHEET_TEXT: &str = ".i 3\n.o 2\n.p 4\n00- 01\n11- 01\n01- 10\n10- 10\n.e\n";

const SHEET: &str = "sheet 1\nsize 3\n3\n2\n3\nmeasure 2\n8\n16\n\
    basis 3\n001\n110\n010\nsigma 3\n001\n100\n110\n\
    table 4\n00- 01\n01- 01\n10- 10\n11- 10\n";

#[test]
fn the_sheet_of_the_example() {
    for program in [reference::program, fast::program] {
        assert_eq!(program(SHEET_TEXT.as_bytes()), SHEET.as_bytes());
    }
    let rows = list(&SHEET_BLOCK);
    let mut bytes = [b'x'; 17_519];
    let got = reference::sheet(3, 2, FR, 3, &rows[..], &mut bytes);
    assert_eq!((got.number, got.results), (0, SHEET.len()));
    let (sheet, beyond) = bytes.split_at(SHEET.len());
    assert_eq!(sheet, SHEET.as_bytes());
    assert!(beyond.iter().all(|&byte| byte == b'x'));
    let got = reference::sheet(3, 2, FR, 3, &rows[..], &mut bytes[..17_517]);
    assert_eq!((got.number, got.results), (5, 0));
}

#[test]
fn text_read_and_written_again_is_the_same() {
    let mut rows = [Row::default(); 5];
    let read = reference::read_text(SHEET_TEXT.as_bytes(), &mut rows[..]);
    let head = read.results;
    assert_eq!((read.number, head.n, head.k, head.rows), (0, 3, 2, 4));
    assert_eq!(rows[..4], list(&SHEET_BLOCK));
    assert_eq!(rows[4], Row::default());
    assert_eq!((head.block_type, head.type_line), (FD, 0));
    let mut text = [0; 4_255];
    let wrote = reference::write_text(3, 2, FD, 0, &rows[..4], &mut text);
    assert_eq!(&text[..wrote.results], SHEET_TEXT.as_bytes());
}

#[test]
fn the_order_in_which_text_is_refused() {
    let number = |text: &str, room: usize| {
        let mut rows = vec![Row::default(); room];
        let got = reference::read_text(text.as_bytes(), &mut rows[..]);
        assert!(rows.iter().all(|row| *row == Row::default()));
        assert_eq!(got.results, Default::default());
        (got.number, got.a, got.b)
    };
    assert_eq!(number("", 9), (10, 1, 0));
    assert_eq!(number(".i 99\n.o 1\n.p x\n", 9), (10, 3, 0));
    assert_eq!(number(".i 99\n.o 99\n.p 999\n", 0), (1, 0, 0));
    assert_eq!(number(".i 0\n.o 1\n.p 1\n", 9), (1, 0, 0));
    assert_eq!(number(".i 1\n.o 16\n.p 0\n", 9), (2, 0, 0));
    assert_eq!(number(".i 1\n.o 1\n.p 0\n", 9), (4, 0, 0));
    assert_eq!(number(".i 1\n.o 1\n.p 999\n", 9), (4, 0, 0));
    assert_eq!(number(".i 1\n.o 1\n.p 2\n", 1), (5, 0, 0));
    assert_eq!(number(".i 1\n.o 1\n.p 2\n", 2), (10, 4, 0));
    assert_eq!(number(".i 1\n.o 1\n.p 00\n", 2), (10, 3, 0));
    assert_eq!(number(".i 016\n.o 1\n.p 1\n", 2), (10, 1, 0));
    assert_eq!(number(".i 1\n.o 1000\n.p 1\n", 2), (10, 2, 0));
    assert_eq!(number(".i 1\n.o 1\n.p 1", 2), (10, 3, 0));
    assert_eq!(number(".i 1\n.o 1\n.p 1\n0 1\n.e", 2), (10, 5, 0));
    assert_eq!(number(".i 1\n.o 1\n.p 1\n0 1\n.e\n\n", 2), (10, 6, 0));
    assert_eq!(number(".i 1\n.o 1\n.p 1\n0  1\n.e\n", 2), (10, 4, 0));
    assert_eq!(number(".i 1\n.o 1\n.p 1\n0 1\r\n.e\n", 2), (10, 4, 0));
}

#[test]
fn ranges() {
    // A row over all points that drives every column.
    let over_all = |word| {
        [Row {
            word,
            ..Row::default()
        }]
    };
    let one = over_all(1);
    assert_eq!(row_number(16, 1, 1, &one), 0);
    assert_eq!(row_number(17, 1, 1, &one), 1);
    assert_eq!(row_number(0, 1, 1, &one), 1);
    assert_eq!(row_number(3, 15, 1, &over_all(32_767)), 0);
    assert_eq!(row_number(3, 16, 1, &over_all(65_535)), 2);
    assert_eq!(row_number(3, 0, 1, &over_all(0)), 2);
    assert_eq!(row_number(3, 1, 3, &one), 0);
    assert_eq!(row_number(3, 1, 4, &one), 3);
    assert_eq!(row_number(3, 1, 0, &one), 3);
    let points = |count: u32| -> Vec<Row> {
        (0..count)
            .map(|values| Row {
                mask: 255,
                values,
                word: !values & 1,
            })
            .collect()
    };
    assert_eq!(row_number(8, 1, 3, &points(0)), 4);
    assert_eq!(row_number(8, 1, 3, &points(1)), 0);
    assert_eq!(row_number(8, 1, 3, &points(128)), 0);
    assert_eq!(row_number(8, 1, 3, &points(129)), 4);
    let none = vec![NO_OUTPUT; 1 << 12];
    let (number, measures, columns, sigma, smaller) = table_method(12, 15, 12, &none);
    assert_eq!((number, measures), (ANSWERED, [0, 0]));
    assert_eq!(columns, (0..12).map(|i| 1 << i).collect::<Vec<u32>>());
    assert_eq!(columns, sigma);
    assert_eq!(smaller, none);
    let mut lent = ([0; 1 << 13], [0; 13], [0; 13]);
    let table = &[0; 1 << 13];
    let got = reference::table_method(13, 1, FR, 1, table, &mut lent.0, &mut lent.1, &mut lent.2);
    assert_eq!(got.number, 1);
    let most = usize::MAX;
    assert_eq!(reference::table_value(most, most, FR, most, &[]).number, 1);
    assert_eq!(reference::table_value(1, most, FR, most, &[]).number, 2);
    assert_eq!(reference::table_value(1, 1, FR, most, &[]).number, 3);
    assert_eq!(reference::table_value(1, 1, FR, 1, &[]).number, 4);
}

#[test]
fn flat_slices_of_unequal_length() {
    use reference::{Flat, FlatRoom};
    let flat = |masks, values, words| Flat {
        masks,
        values,
        words,
    };
    assert_eq!(
        reference::row_value(1, 1, FR, 0, flat(&[0], &[0], &[1, 1])).number,
        4
    );
    assert_eq!(
        reference::row_value(1, 1, FR, 0, flat(&[0], &[0], &[1])).number,
        0
    );
    let mut long = [[5; 512], [5; 512]];
    let mut short = [5; 511];
    let [masks, values] = &mut long;
    let room = FlatRoom {
        masks,
        values,
        words: &mut short,
    };
    let list = flat(&[0], &[0], &[1]);
    let got = reference::row_method(1, 1, FR, 1, list, room, &mut [0], &mut [0]);
    assert_eq!(got.number, 5);
    assert_eq!((long, short), ([[5; 512], [5; 512]], [5; 511]));
}

/// Document 000, Example 2: its cubes, its R and Table 3's measures.
#[test]
fn document_000_example_2() {
    let rows = list(&[
        "0100 000", "0011 000", "1-00 001", "0-10 001", "0101 010", "000- 010", "1-1- 010",
        "1-01 011", "0111 100",
    ]);
    let values = (0..16).map(|t| reference::row_value(4, 3, FR, t, &rows[..]).results);
    let due = [16, 6, 0, 0, 12, 6, 0, 2, 0, 0, 10, 6, 0, 0, 10, 6];
    assert_eq!(values.collect::<Vec<_>>(), due);
    let (number, measures, columns, sigma, smaller) = row_method(4, 3, 4, &rows);
    assert_eq!((number, measures), (ANSWERED, [18, 30]));
    assert_eq!(columns, [4, 10, 1, 7]);
    // Its matrix sigma, lowest row first.
    assert_eq!(sigma, [0b1110, 0b1000, 0b1011, 0b1010]);

    let mut table = [0; 16];
    assert_eq!(reference::fill(4, 3, FR, &rows[..], &mut table).number, 0);
    let of_table = table_method(4, 3, 4, &table);
    assert_eq!(of_table.1, [18, 30]);
    assert_eq!((of_table.2, of_table.3), (columns, sigma));
    let due = due.map(|value| value as u32).to_vec();
    assert_eq!(spectrum_of(FR, [4, 3], &table), (ANSWERED, due));
    let mut filled = [0; 16];
    assert_eq!(
        reference::fill(4, 3, FR, &smaller[..], &mut filled).number,
        0
    );
    assert_eq!(of_table.4, filled);
}

/// One row, 11 with word 1, over two inputs. Under fr it is the only point that
/// counts; under fd the others have word 0, so that the block is the AND.
#[test]
fn one_row_of_either_type() {
    let rows = list(&["11 1"]);
    for (y, due) in [(FR, [1, 0, 0, 0]), (FD, [4, 2, 2, 2])] {
        for (t, due) in due.into_iter().enumerate() {
            let got = reference::row_value(2, 1, y, t, &rows[..]);
            assert_eq!((got.number, got.results), (0, due));
            assert_eq!(got, fast::row_value(2, 1, y, t, &rows[..]));
        }
    }
    for fill in [reference::fill, fast::fill] {
        let mut table = [9; 5];
        assert_eq!(fill(2, 1, FR, &rows[..], &mut table).number, 0);
        assert_eq!(table, [NO_OUTPUT, NO_OUTPUT, NO_OUTPUT, 1, 9]);
        assert_eq!(fill(2, 1, FD, &rows[..], &mut table).number, 0);
        assert_eq!(table, [0, 0, 0, 1, 9]);
    }
}

/// Rows 00 1 and 11 1: no two neighbours have an output, so that under fr the
/// measure is 0, and flipping both inputs leads from one to the other. Under fd
/// the other two points have word 0: the block is the equality of the inputs.
#[test]
fn the_type_changes_the_measures() {
    let rows = list(&["00 1", "11 1"]);
    let (number, measures, columns, sigma, smaller) = row_method_of(FR, [2, 1, 2], &rows);
    assert_eq!((number, measures), (ANSWERED, [0, 2]));
    assert_eq!((columns, sigma), (vec![3, 1], vec![2, 3]));
    assert_eq!(smaller, list(&["00 1", "01 1"]));
    let (number, measures, columns, ..) = row_method_of(FD, [2, 1, 2], &rows);
    assert_eq!((number, measures), (ANSWERED, [0, 4]));
    assert_eq!(columns, [3, 1]);
    let table = [1, 0, 0, 1];
    let due = (ANSWERED, [0, 4], vec![3, 1], vec![2, 3], vec![1, 1, 0, 0]);
    assert_eq!(table_method_of(FD, [2, 1, 2], &table), due);
    assert_eq!(table_method_of(FR, [2, 1, 2], &table), due);
}

/// Rows --1 1 and 110 1: points 1, 3, 5, 6 and 7 have word 1. By hand, R(1) is 2,
/// from 6 and 7; R(2), R(4) and R(6) are 4, R(3), R(5) and R(7) are 2. Under fd 0,
/// 2 and 4 have word 0, so that R(2), R(4) and R(6) have 2 more, each from two of
/// these.
#[test]
fn measures_of_either_type_by_hand() {
    let rows = list(&["--1 1", "110 1"]);
    for (y, due) in [
        (FR, [5, 2, 4, 2, 4, 2, 4, 2]),
        (FD, [8, 2, 6, 2, 6, 2, 6, 2]),
    ] {
        let values = (0..8).map(|t| reference::row_value(3, 1, y, t, &rows[..]).results);
        assert_eq!(values.collect::<Vec<_>>(), due);
        let values = (0..8).map(|t| fast::row_value(3, 1, y, t, &rows[..]).results);
        assert_eq!(values.collect::<Vec<_>>(), due);
        let (number, measures, columns, ..) = row_method_of(y, [3, 1, 3], &rows);
        let sum = due[1] + due[2] + due[4];
        assert_eq!((number, measures), (ANSWERED, [sum, sum]));
        assert_eq!(columns, [2, 4, 1]);
    }
}

/// The spectrum step by step: of case a word 1 is at 1 and 2. Its transform is 2, 0,
/// 0, -2, for at 1 and at 2 one of these points counts with a minus and at 3 both. The
/// squares are 4, 0, 0, 4, their transform 8, 0, 0, 8, and a fourth of that is what the
/// word adds to R. Word 0, at 0 and 3, adds as much.
#[test]
fn the_spectrum_by_hand() {
    assert_eq!(spectrum::transform(&[0, 1, 1, 0]), [2, 0, 0, -2]);
    assert_eq!(spectrum::transform(&[1, 0, 0, 1]), [2, 0, 0, 2]);
    assert_eq!(spectrum::transform(&[4, 0, 0, 4]), [8, 0, 0, 8]);
    assert_eq!(spectrum::transform(&[1, 2, 3, 4]), [10, -2, -4, 0]);
    // One point has word 1; the others have no output, or word 0.
    let none = [NO_OUTPUT, NO_OUTPUT, NO_OUTPUT, 1];
    assert_eq!(spectrum_of(FR, [2, 1], &none), (ANSWERED, vec![1, 0, 0, 0]));
    assert_eq!(
        spectrum_of(FD, [2, 1], &[0, 0, 0, 1]),
        (ANSWERED, vec![4, 2, 2, 2])
    );
    // Words that differ in their highest bit alone, and no output anywhere.
    assert_eq!(
        spectrum_of(FD, [1, 15], &[16_383, 32_767]),
        (ANSWERED, vec![2, 0])
    );
    assert_eq!(
        spectrum_of(FR, [1, 15], &[NO_OUTPUT; 2]),
        (ANSWERED, vec![0, 0])
    );
}

#[test]
fn refusals_of_the_spectrum() {
    let most = usize::MAX;
    let bad = [0, 2, NO_OUTPUT, 1];
    let number = |y, numbers, table: &[u16], room| spectrum_in(y, numbers, table, room).0;
    // Each is given before those after it.
    for n in [0, 13, 64, most] {
        assert_eq!(number(0, [n, 0], &bad[..3], [0, 0]), [1, 0, 0]);
    }
    for k in [0, 16, 64, most] {
        assert_eq!(number(0, [2, k], &bad[..3], [0, 0]), [2, 0, 0]);
    }
    for y in [0, 3, most] {
        assert_eq!(number(y, [2, 1], &bad[..3], [0, 0]), [3, 0, 0]);
    }
    for table in [&[][..], &bad[..3], &[0; 5]] {
        assert_eq!(number(FR, [2, 1], table, [0, 0]), [4, 0, 0]);
    }
    for room in [[0, 4], [3, 4], [4, 0], [4, 3], [3, 3]] {
        assert_eq!(number(FR, [2, 1], &bad, room), [5, 0, 0]);
    }
    assert_eq!(number(FR, [2, 1], &bad, [4, 4]), [6, 0, 1]);
    assert_eq!(number(FR, [2, 2], &bad, [4, 4]), ANSWERED);
    assert_eq!(number(FD, [2, 2], &bad, [5, 4]), [6, 0, 2]);
}

/// 12 inputs: one word, its R being 4,096 at every t, and two, each on half of the
/// points. 13 are too many.
#[test]
fn the_spectrum_of_twelve_inputs() {
    let all = vec![4_096; 4_096];
    for word in [0, 32_767] {
        let due = (ANSWERED, all.clone());
        assert_eq!(spectrum_of(FD, [12, 15], &[word; 4_096]), due);
    }
    let halves: Vec<u16> = (0..4_096).map(|x| x >> 11).collect();
    let due: Vec<u32> = (0..4_096).map(|t| 4_096 * (1 - (t >> 11))).collect();
    assert_eq!(spectrum_of(FR, [12, 1], &halves), (ANSWERED, due));
    assert_eq!(spectrum_of(FR, [13, 1], &[0; 8_192]).0, [1, 0, 0]);
}

/// The columns are those of document 002, and with them the smaller table has the
/// points in the order of the Gray code.
#[test]
fn the_gray_columns() {
    assert_eq!(symmetric::columns(1), [1]);
    assert_eq!(symmetric::columns(5), [1, 3, 6, 12, 24]);
    assert_eq!(symmetric::columns(12)[11], 3_072);
    let (.., table, smaller) = symmetric_in(FD, [3, 2], &[0, 1, 2, 3], [8, 8]);
    assert_eq!(table, [0, 1, 1, 2, 1, 2, 2, 3]);
    assert_eq!(smaller, [0, 1, 2, 1, 2, 3, 2, 1]);
}

/// 3 out of 5 (document 002, Example 1): R is 12 at each of the five units. Of
/// the columns, 1 has R 12 and each other one, with two one-bits, R 24, so that the
/// measures are 60 and 108. At least 3 of 5 has R 20 at both, and parity 0 and 32. Two
/// inputs of which one is 1 are case a.
#[test]
fn symmetric_blocks_by_hand() {
    for y in [FR, FD] {
        let (number, measures, ..) = symmetric_of(y, &[0, 0, 0, 1, 0, 0]);
        assert_eq!((number, measures), (ANSWERED, [60, 108]));
        let (number, measures, ..) = symmetric_of(y, &[0, 0, 0, 1, 1, 1]);
        assert_eq!((number, measures), (ANSWERED, [100, 100]));
        let (number, measures, ..) = symmetric_of(y, &[0, 1, 0, 1, 0, 1]);
        assert_eq!((number, measures), (ANSWERED, [0, 128]));
        let due = (ANSWERED, [0, 4], vec![0, 1, 1, 0], vec![0, 1, 0, 1]);
        assert_eq!(symmetric_of(y, &[0, 1, 0]), due);
        assert_eq!(symmetric_of(y, &[1, 1]).1, [2, 2]);
        assert_eq!(symmetric_of(y, &[0, 1]).1, [0, 0]);
    }
    // Points without an output count in no R.
    let open = NO_OUTPUT;
    let tables = (vec![open, 1, 1, open], vec![open, 1, open, 1]);
    let due = (ANSWERED, [0, 2], tables.0, tables.1);
    assert_eq!(symmetric_of(FR, &[open, 1, open]), due);
    assert_eq!(symmetric_of(FR, &[open; 13]).1, [0, 0]);
    assert_eq!(symmetric_of(FD, &[1; 13]).1, [49_152, 49_152]);
}

#[test]
fn which_tables_are_symmetric() {
    let said = |table: &[u16]| is_symmetric(FR, [table.len().trailing_zeros() as usize, 1], table);
    let [yes, no] = [(ANSWERED, true), (ANSWERED, false)];
    assert_eq!(said(&[0, 1]), yes);
    assert_eq!(said(&[0, 1, 1, 0]), yes);
    assert_eq!(said(&[0, 1, 0, 0]), no);
    // No output is compared like a word.
    assert_eq!(said(&[0, NO_OUTPUT, NO_OUTPUT, 1]), yes);
    assert_eq!(said(&[0, NO_OUTPUT, 1, 1]), no);
    // In each of these one point differs: of one one-bit the last, of two the first.
    assert_eq!(said(&[0, 0, 0, 1, 1, 1, 1, 0]), no);
    assert_eq!(said(&[0, 0, 0, 0, 0, 1, 1, 0]), no);
    assert_eq!(said(&[0, 0, 0, 1, 0, 1, 1, 0]), yes);
    let mut last = [0; 4_096];
    last[4_095] = 1;
    assert_eq!(said(&last), yes);
    last[4_094] = 1;
    assert_eq!(said(&last), no);
}

#[test]
fn refusals_of_symmetric_blocks() {
    let most = usize::MAX;
    let bad = [0, 2, NO_OUTPUT];
    let number = |y, numbers, words: &[u16], room| symmetric_in(y, numbers, words, room).0;
    // Each is given before those after it. 2^64 - 1 inputs would ask for no words, did
    // one more make 0.
    for n in [0, 13, 64, most] {
        assert_eq!(number(0, [n, 0], &bad[..2], [0, 0]), [1, 0, 0]);
        assert_eq!(number(FR, [n, 1], &[], [0, 0]), [1, 0, 0]);
        assert_eq!(is_symmetric(0, [n, 0], &bad), ([1, 0, 0], false));
    }
    for k in [0, 16, 64, most] {
        assert_eq!(number(0, [2, k], &bad[..2], [0, 0]), [2, 0, 0]);
        assert_eq!(is_symmetric(0, [2, k], &bad), ([2, 0, 0], false));
    }
    for y in [0, 3, most] {
        assert_eq!(number(y, [2, 1], &bad[..2], [0, 0]), [3, 0, 0]);
        assert_eq!(is_symmetric(y, [2, 1], &bad), ([3, 0, 0], false));
    }
    for words in [&[][..], &bad[..2], &[0; 4]] {
        assert_eq!(number(FR, [2, 1], words, [0, 0]), [4, 0, 0]);
    }
    for table in [&[][..], &bad, &[0; 5]] {
        assert_eq!(is_symmetric(FR, [2, 1], table), ([4, 0, 0], false));
    }
    for room in [[0, 4], [3, 4], [4, 0], [4, 3], [3, 3]] {
        assert_eq!(number(FR, [2, 1], &bad, room), [5, 0, 0]);
    }
    assert_eq!(number(FR, [2, 1], &bad, [4, 4]), [6, 0, 1]);
    assert_eq!(number(FR, [2, 2], &bad, [4, 4]), ANSWERED);
    assert_eq!(number(FD, [2, 2], &bad, [5, 4]), [6, 0, 2]);
    let table = [0, 2, 2, NO_OUTPUT];
    assert_eq!(is_symmetric(FR, [2, 1], &table), ([6, 0, 1], false));
    assert_eq!(is_symmetric(FR, [2, 2], &table), (ANSWERED, true));
    assert_eq!(is_symmetric(FD, [2, 2], &table), ([6, 0, 3], false));
}

/// The sheet's block: R is 8 at 1, 6 and 7, and 0 at 2, 3, 4 and 5. With weight limit 3
/// the numbers stand as 1, 6, 7, 2, 4, 3, 5, so that 1, 6 and 2 are taken, 7 being the XOR
/// of the two before it. With 2 the number 7 is over the limit, with 1 all but the units
/// are, and these are taken.
#[test]
fn reasons_by_hand() {
    use Reason::{Over, Taken, Xor, Zero};
    let rows = list(&SHEET_BLOCK);
    let taken = |step| Taken { step };
    let xor = |set| Xor { set };
    let [first, second, third] = [taken(1), taken(2), taken(3)];
    // 3 is 1 XOR 2, 4 is 6 XOR 2, 5 is 1 XOR 6 XOR 2
    let [three, four, five] = [xor(0b101), xor(0b110), xor(0b111)];
    let seven = xor(0b011);
    let due = vec![Zero, first, third, three, four, five, second, seven];
    assert_eq!(reasons_of([3, 2, 3], &rows), (due, vec![1, 6, 2]));
    let due = vec![Zero, first, third, three, four, five, second, Over];
    assert_eq!(reasons_of([3, 2, 2], &rows), (due, vec![1, 6, 2]));
    let due = vec![Zero, first, second, Over, third, Over, Over, Over];
    assert_eq!(reasons_of([3, 2, 1], &rows), (due, vec![1, 2, 4]));
}

/// One row over all points has R 2^n at every t, so that the one-bits and then the
/// numbers decide: the units are taken, lowest first, and each other number is the XOR of
/// its own units.
#[test]
fn reasons_where_r_is_equal() {
    let symbols = ["- 1", "---- 1"];
    for (n, symbols) in [1, 4].into_iter().zip(symbols) {
        let (reasons, taken) = reasons_of([n, 1, n], &list(&[symbols]));
        assert_eq!(taken, (0..n).map(|i| 1 << i).collect::<Vec<u32>>());
        for (t, reason) in reasons.into_iter().enumerate() {
            let due = match t.count_ones() {
                0 => Reason::Zero,
                1 => Reason::Taken {
                    step: t.trailing_zeros() as usize + 1,
                },
                _ => Reason::Xor { set: t as u32 },
            };
            assert_eq!(reason, due, "t {t}");
        }
    }
}

/// Document 000, Example 2, whose T is 4, 10, 1, 7. R is 10 at 14 as at 10, which has
/// fewer one-bits; and 6 at 5, 11 and 15, as at 1.
#[test]
fn reasons_of_document_000_example_2() {
    let rows = list(&[
        "0100 000", "0011 000", "1-00 001", "0-10 001", "0101 010", "000- 010", "1-1- 010",
        "1-01 011", "0111 100",
    ]);
    let (reasons, taken) = reasons_of([4, 3, 4], &rows);
    assert_eq!(taken, [4, 10, 1, 7]);
    assert_eq!(reasons[7], Reason::Taken { step: 4 });
    for (t, set) in [
        (14, 0b0011),
        (5, 0b0101),
        (11, 0b0110),
        (15, 0b0111),
        (2, 0b1101),
        (8, 0b1111),
    ] {
        assert_eq!(reasons[t], Reason::Xor { set }, "t {t}");
    }
}

/// Points 1 and 2 have word 0 and point 3 has word 1. Under fr R is 2 at 3 and 0 at 1 and 2,
/// so that 3 and 1 are taken; under fd point 0 has word 0 too and R is 2 at each t but 0, so
/// that 1 and 2 are.
#[test]
fn reasons_go_by_the_type() {
    let rows = list(&["01 0", "10 0", "11 1"]);
    let xor = Some(Reason::Xor { set: 0b11 });
    let taken = |step| Some(Reason::Taken { step });
    for (y, numbers, due) in [
        (FR, vec![3, 1], [taken(2), xor, taken(1)]),
        (FD, vec![1, 2], [taken(1), taken(2), xor]),
    ] {
        for (t, due) in (1..4).zip(due) {
            let got = why_of(y, [2, 1, 2, t], &rows);
            assert_eq!(got, (ANSWERED, due, numbers.clone()), "type {y}, t {t}");
        }
    }
}

#[test]
fn refusals_of_why() {
    let most = usize::MAX;
    let bad = [
        Row {
            mask: 1,
            values: 0,
            word: 1,
        },
        Row {
            mask: 1,
            values: 2,
            word: 1,
        },
        Row {
            mask: 2,
            values: 0,
            word: 2,
        },
    ];
    let refused = |number| (number, None, vec![]);
    // Each is given before those after it, and all before "t is 0".
    for n in [0, 17, 64, most] {
        assert_eq!(why_of(0, [n, 0, 0, most], &bad), refused([1, 0, 0]));
    }
    for k in [0, 16, 64, most] {
        assert_eq!(why_of(0, [2, k, 0, most], &bad), refused([2, 0, 0]));
    }
    for [y, w, t] in [
        [0, 2, 0],
        [3, 2, 0],
        [FR, 0, 0],
        [FD, 3, 0],
        [FR, 2, 4],
        [FD, 2, most],
    ] {
        assert_eq!(why_of(y, [2, 1, w, t], &[]), refused([3, 0, 0]));
    }
    assert_eq!(why_of(FR, [2, 1, 2, 0], &[]), refused([4, 0, 0]));
    assert_eq!(why_of(FD, [2, 1, 2, 0], &[bad[0]; 129]), refused([4, 0, 0]));
    assert_eq!(why_of(FR, [2, 1, 2, 0], &bad), refused([6, 0, 1]));
    assert_eq!(why_of(FR, [2, 1, 2, 0], &bad[..1]).0, ANSWERED);
    let shared = [bad[0], bad[2]];
    assert_eq!(why_of(FD, [2, 1, 2, 0], &shared), refused([6, 0, 1]));
    assert_eq!(why_of(FD, [2, 2, 2, 0], &shared), refused([7, 0, 1]));
}

/// The numbers of all operations that give 11, in this order: a single value, the row
/// method, filling, the sheet, writing a model, why. The answers of the plain and the fast
/// ones are the same, and with a refusal every lent thing holds what it held.
fn numbers_of_list(y: usize, [n, k, w]: [usize; 3], rows: &[Row]) -> [[u32; 3]; 6] {
    let (method, ..) = row_method_of(y, [n, k, w], rows);
    let (why, ..) = why_of(y, [n, k, w, 0], rows);
    let value = reference::row_value(n, k, y, 0, rows);
    assert_eq!(value, fast::row_value(n, k, y, 0, rows));
    let value = [value.number, value.a, value.b];
    let mut table = vec![9; 1 << n];
    let mut fast_table = table.clone();
    let filled = reference::fill(n, k, y, rows, &mut table);
    assert_eq!(filled, fast::fill(n, k, y, rows, &mut fast_table));
    assert_eq!(table, fast_table);
    assert!(filled.number == 0 || table.iter().all(|&entry| entry == 9));
    let filled = [filled.number, filled.a, filled.b];
    let written = |write: &dyn Fn(&mut [u8]) -> reference::Answer<usize>, room| {
        let mut bytes = vec![b'x'; room];
        let got = write(&mut bytes);
        assert!(bytes[got.results..].iter().all(|&byte| byte == b'x'));
        assert_eq!(got.number == 0, got.results > 0);
        [got.number, got.a, got.b]
    };
    let sheet = written(&|bytes| reference::sheet(n, k, y, w, rows, bytes), 17_518);
    let model = |room| {
        written(
            &|bytes| reference::write_model(n, k, y, w, rows, bytes),
            room,
        )
    };
    // With no room at all 5 is what is left where nothing else is wrong.
    let [with_room, without] = [model(9_999), model(0)];
    let answered = with_room[0] == 0;
    assert_eq!(without, if answered { [5, 0, 0] } else { with_room });
    [value, method, filled, sheet, with_room, why]
}

/// A column that is 0 in every row, of either type: the lowest such output bit. Under fd
/// the missing points drive nothing.
#[test]
fn undriven_columns() {
    for y in [FR, FD] {
        let number = |k, rows: &[&str]| {
            let all = numbers_of_list(y, [2, k, 2], &list(rows));
            assert_eq!(all, [all[0]; 6]);
            all[0]
        };
        assert_eq!(number(1, &["-- 0"]), [11, 0, 0]);
        assert_eq!(number(1, &["-- 1"]), ANSWERED);
        assert_eq!(number(1, &["00 0", "11 0"]), [11, 0, 0]);
        assert_eq!(number(1, &["00 0", "11 1"]), ANSWERED);
        assert_eq!(number(2, &["0- 01", "1- 00"]), [11, 1, 0]);
        assert_eq!(number(2, &["0- 10", "1- 00"]), [11, 0, 0]);
        assert_eq!(number(2, &["0- 10", "1- 01"]), ANSWERED);
        // The lowest of several.
        assert_eq!(number(4, &["0- 0001", "1- 0100"]), [11, 1, 0]);
        assert_eq!(number(4, &["0- 0000", "1- 0000"]), [11, 0, 0]);
        // Only the highest of 15, and only the last row drives it.
        assert_eq!(number(15, &["0- 011111111111111"]), [11, 14, 0]);
        let rows = ["0- 011111111111111", "1- 100000000000000"];
        assert_eq!(number(15, &rows), ANSWERED);
        // 6 and 7 come first; a word's bits beyond k drive nothing and are 6.
        assert_eq!(number(1, &["0- 0", "1- 10"]), [6, 0, 1]);
        assert_eq!(number(2, &["0- 01", "-0 01"]), [7, 0, 1]);
        assert_eq!(number(2, &["0- 01", "-0 10"]), [7, 0, 1]);
    }
}

/// 11 comes after 5 where room is looked at before the rows.
#[test]
fn short_room_beside_an_undriven_column() {
    let rows = list(&["0- 01", "1- 00"]);
    let rows = &rows[..];
    assert_eq!(reference::fill(2, 2, FR, rows, &mut [0; 3]).number, 5);
    assert_eq!(reference::fill(2, 2, FR, rows, &mut [0; 4]).number, 11);
    let sheet = |room| reference::sheet(2, 2, FD, 2, rows, &mut vec![0; room]).number;
    assert_eq!([sheet(17_517), sheet(17_518)], [5, 11]);
    let method = |room| {
        let mut smaller = vec![Row::default(); room];
        let [mut t, mut s] = [[0; 2]; 2];
        reference::row_method(2, 2, FD, 2, rows, &mut smaller[..], &mut t, &mut s).number
    };
    assert_eq!([method(511), method(512)], [5, 11]);
    // Row text and operations on tables don't look for it.
    let mut text = [0; 4_255];
    let wrote = reference::write_text(2, 2, FD, 0, rows, &mut text);
    assert_eq!(wrote.number, 0);
    let mut same = [Row::default(); 2];
    let read = reference::read_text(&text[..wrote.results], &mut same[..]);
    assert_eq!((read.number, &same[..]), (0, rows));
    assert_eq!(table_method_of(FD, [2, 2, 2], &[1, 1, 0, 0]).0, ANSWERED);
    assert_eq!(spectrum_of(FD, [2, 2], &[1, 1, 0, 0]).0, ANSWERED);
    for program in [reference::program, fast::program] {
        assert_eq!(program(&text[..wrote.results]), b"refused 11 1 0\n");
    }
    for print in [reference::print_model, fast::print_model] {
        assert_eq!(print(&text[..wrote.results]), b"refused 11 1 0\n");
    }
    for print in [reference::print_joined, fast::print_joined] {
        assert_eq!(print(&text[..wrote.results]), &text[..wrote.results]);
    }
}

/// Two rows are one where their words are equal, the same inputs are fixed, and the values
/// differ in exactly one.
#[test]
fn rows_that_join_and_rows_that_do_not() {
    assert_eq!(left_of(1, &["0 1", "1 1"]), list(&["- 1"]));
    assert_eq!(left_of(3, &["0 000", "1 000"]), list(&["- 000"]));
    assert_eq!(left_of(1, &["-1- 1", "-0- 1"]), list(&["--- 1"]));
    for stay in [
        // other words, two values that differ, other inputs fixed
        &["0 1", "1 0"][..],
        &["00 1", "11 1"],
        &["0- 1", "10 1"],
        &["0-- 1", "1-0 1", "1-1 0"],
        // one row alone, and one over all points
        &["01 0"],
        &["-- 1"],
    ] {
        assert_eq!(left_of(1, stay), list(stay));
    }
}

/// The joined row stands in the first place, and what stood behind the second closes up.
#[test]
fn joined_rows_stand_in_the_first_place() {
    let left = left_of(1, &["00 1", "11 0", "01 1"]);
    assert_eq!(left, list(&["0- 1", "11 0"]));
    let left = left_of(1, &["11 0", "00 1", "01 1", "10 0"]);
    assert_eq!(left, list(&["1- 0", "0- 1"]));
    // The sheet's smaller rows: two words, each on half of the space.
    let left = left_of(2, &["00- 01", "01- 01", "10- 10", "11- 10"]);
    assert_eq!(left, list(&["0-- 01", "1-- 10"]));
    assert_eq!(left_of(2, &SHEET_BLOCK), list(&SHEET_BLOCK));
    // Four points of one word that stand apart: 000 takes 010, 011 takes 001, then both join.
    let left = left_of(2, &["000 01", "011 01", "010 01", "001 01", "1-- 10"]);
    assert_eq!(left, list(&["0-- 01", "1-- 10"]));
}

/// The smallest first row is taken, then the smallest second one.
#[test]
fn the_first_pair_is_joined() {
    let left = left_of(1, &["00 1", "01 1", "10 1"]);
    assert_eq!(left, list(&["0- 1", "10 1"]));
    let left = left_of(1, &["00 1", "10 1", "01 1"]);
    assert_eq!(left, list(&["-0 1", "01 1"]));
    let left = left_of(1, &["10 1", "01 1", "00 1"]);
    assert_eq!(left, list(&["-0 1", "01 1"]));
    // 010 and 011 stand side by side, but row 0 comes first: it takes 010.
    let left = left_of(1, &["000 1", "011 1", "010 1", "111 1"]);
    assert_eq!(left, list(&["0-0 1", "-11 1"]));
}

/// After each join the pair is looked for anew, from the first row: a joined row joins an
/// earlier one, in each order of the three.
#[test]
fn joined_rows_join_earlier_ones() {
    let rows = ["00- 1", "010 1", "011 1"];
    for order in [
        [0, 1, 2],
        [0, 2, 1],
        [1, 0, 2],
        [1, 2, 0],
        [2, 0, 1],
        [2, 1, 0],
    ] {
        let left = left_of(1, &order.map(|i| rows[i]));
        assert_eq!(left, list(&["0-- 1"]), "{order:?}");
    }
    // 01- comes of the second and third row. It joins with 00- before it and not with 11-
    // behind it, or with 11- where that is before it.
    let left = left_of(1, &["00- 1", "010 1", "011 1", "11- 1"]);
    assert_eq!(left, list(&["0-- 1", "11- 1"]));
    let left = left_of(1, &["11- 1", "010 1", "011 1", "00- 1"]);
    assert_eq!(left, list(&["-1- 1", "00- 1"]));
}

#[test]
fn refusals_of_joining() {
    let most = usize::MAX;
    let row = |mask, values, word| Row { mask, values, word };
    let bad = [row(1, 0, 1), row(1, 2, 1), row(2, 0, 2)];
    let refused = |numbers: [usize; 2], rows: &[Row]| {
        let (number, left, lent) = join_of(numbers, rows);
        assert_eq!((left, &lent[..]), (0, rows));
        number
    };
    // Each is given before those after it.
    for n in [0, 17, 64, most] {
        assert_eq!(refused([n, 0], &bad), [1, 0, 0]);
        assert_eq!(refused([n, 1], &[]), [1, 0, 0]);
    }
    for k in [0, 16, 64, most] {
        assert_eq!(refused([2, k], &bad), [2, 0, 0]);
        assert_eq!(refused([2, k], &[]), [2, 0, 0]);
    }
    assert_eq!(refused([2, 1], &[]), [4, 0, 0]);
    assert_eq!(refused([2, 1], &[bad[1]; 513]), [4, 0, 0]);
    assert_eq!(refused([2, 1], &[bad[1]; 512]), [6, 0, 0]);
    assert_eq!(refused([2, 1], &bad), [6, 0, 1]);
    let shared = [bad[0], bad[2]];
    assert_eq!(refused([2, 1], &shared), [6, 0, 1]);
    assert_eq!(refused([2, 2], &shared), [7, 0, 1]);
    // Two rows that join, and one over both: the first pair that shares a point.
    let rows = list(&["00 1", "01 1", "0- 1"]);
    assert_eq!(refused([2, 1], &rows), [7, 0, 2]);
    let rows = list(&["11 1", "00 1", "01 1", "0- 1", "01 1"]);
    assert_eq!(refused([2, 1], &rows), [7, 1, 3]);
    // Columns that no row drives are no refusal here.
    let (number, left, _) = join_of([16, 15], &[Row::default()]);
    assert_eq!((number, left), (ANSWERED, 1));
}

/// Flat slices of unequal length are no list.
#[test]
fn uneven_slices_are_not_joined() {
    for [masks, values, words] in [[2, 2, 1], [2, 1, 2], [1, 2, 2], [3, 2, 2], [0, 2, 2]] {
        let lent = [[1, 1, 1], [0, 1, 0], [1, 1, 1]];
        let join = |plain: bool| {
            let mut rows = lent;
            let [m, v, w] = &mut rows;
            let list = FlatRoom {
                masks: &mut m[..masks],
                values: &mut v[..values],
                words: &mut w[..words],
            };
            let got = match plain {
                true => reference::join(1, 1, list),
                false => fast::join(1, 1, list),
            };
            (got.number, got.results, rows)
        };
        assert_eq!([join(true), join(false)], [(4, 0, lent); 2]);
    }
}

/// What the program prints of joined rows, by both.
fn printed_joined(text: &str) -> String {
    let printed = reference::print_joined(text.as_bytes());
    assert_eq!(printed, fast::print_joined(text.as_bytes()));
    String::from_utf8(printed).unwrap()
}

/// Joined rows are printed as row text, with the type line where it stood; what can't be
/// read, and rows that share a point, in one line.
#[test]
fn joined_rows_are_printed() {
    for line in ["", ".type fr\n", ".type fd\n"] {
        let text = |rows: &str| {
            let count = rows.lines().count();
            format!(".i 2\n.o 1\n{line}.p {count}\n{rows}.e\n")
        };
        let left = |rows| printed_joined(&text(rows));
        assert_eq!(left("00 1\n11 0\n01 1\n"), text("0- 1\n11 0\n"));
        assert_eq!(left("10 1\n01 1\n00 1\n"), text("-0 1\n01 1\n"));
        assert_eq!(left("00 1\n01 1\n10 1\n11 1\n"), text("-- 1\n"));
        assert_eq!(left("00 1\n11 1\n"), text("00 1\n11 1\n"));
        // No row drives the column.
        assert_eq!(left("00 0\n01 0\n"), text("0- 0\n"));
        // Rows that would join are no matter where two share a point.
        assert_eq!(left("00 1\n01 1\n0- 1\n"), "refused 7 0 2\n");
        assert_eq!(left("11 1\n00 1\n-0 0\n"), "refused 7 1 2\n");
        assert_eq!(left(""), "refused 4 0 0\n");
    }
    assert_eq!(printed_joined(SHEET_TEXT), SHEET_TEXT);
    for (text, due) in [
        ("", "refused 10 1 0\n"),
        (".i 17\n.o 16\n.p 0\n", "refused 1 0 0\n"),
        (".i 16\n.o 16\n.p 0\n", "refused 2 0 0\n"),
        (".i 16\n.o 15\n.p 129\n", "refused 4 0 0\n"),
        (".i 1\n.o 1\n.type f\n.p 1\n0 1\n.e\n", "refused 10 3 0\n"),
        (".i 1\n.o 1\n.p 2\n0 1\n1 1\n.e", "refused 10 6 0\n"),
        (".i 1\n.o 1\n.p 2\n0 1\n1 1\n.e\n\n", "refused 10 7 0\n"),
    ] {
        assert_eq!(printed_joined(text), due);
    }
}

/// 128 rows: where none join, the longest text is printed as it is; all points of seven
/// inputs with one word are one row.
#[test]
fn the_longest_texts_are_joined() {
    let text = |row: fn(u32) -> String| {
        let rows: String = (0..128).map(row).collect();
        format!(".i 16\n.o 15\n.type fr\n.p 128\n{rows}.e\n")
    };
    // Each value with its parity beside it, so that two of them differ in two inputs.
    let apart = text(|i| format!("{:016b} {:015b}\n", i << 1 | i.count_ones() % 2, 1));
    assert_eq!(apart.len(), 4_255);
    assert_eq!(printed_joined(&apart), apart);
    let points = text(|i| format!("---------{i:07b} {:015b}\n", 1));
    let one = ".i 16\n.o 15\n.type fr\n.p 1\n---------------- 000000000000001\n.e\n";
    assert_eq!(printed_joined(&points), one);
}

/// "A point's word is then the OR of all rows over it."
#[test]
fn overlapping_rows_give_their_or() {
    let due = list(&["01 10", "10 01", "11 11"]);
    assert_eq!(disjoint_of(2, &["1- 01", "-1 10"]), due);
    assert_eq!(disjoint_of(2, &["-1 10", "1- 01"]), due);
    let due = list(&["01 110", "10 011", "11 111"]);
    assert_eq!(disjoint_of(3, &["1- 011", "-1 110"]), due);
    // nested, there twice, over all
    let due = list(&["0- 01", "10 11", "11 11"]);
    assert_eq!(disjoint_of(2, &["11 00", "1- 10", "-- 01"]), due);
    assert_eq!(disjoint_of(2, &["10 01", "10 10"]), list(&["10 11"]));
    assert_eq!(disjoint_of(1, &["-- 1"]), list(&["-- 1"]));
    assert_eq!(disjoint_of(3, &["-- 001", "-- 100"]), list(&["-- 101"]));
}

/// A region that no row meets gives nothing, one whose OR is 0 a row of word 0.
#[test]
fn a_region_of_word_0_gives_a_row() {
    assert_eq!(disjoint_of(1, &["-- 0"]), list(&["-- 0"]));
    assert_eq!(
        disjoint_of(1, &["0- 0", "-0 0"]),
        list(&["00 0", "01 0", "10 0"])
    );
    assert_eq!(disjoint_of(1, &["11 0", "01 1"]), list(&["01 1", "11 0"]));
}

/// The input at which a region is halved is the highest one that is free in it and fixed in
/// a row meeting it; other rows don't matter, and neither do inputs that no row fixes.
#[test]
fn regions_are_halved_at_the_highest_fixed_input() {
    let due = list(&["-01 1", "-10 1", "-11 1"]);
    assert_eq!(disjoint_of(1, &["-1- 1", "--1 1"]), due);
    // The second row fixes the middle input, and does not meet the 0 half.
    let due = list(&["0-1 01", "11- 10"]);
    assert_eq!(disjoint_of(2, &["0-1 01", "11- 10"]), due);
    assert_eq!(disjoint_of(1, &["1--0- 1"]), list(&["1--0- 1"]));
    // Rows that share no point are halved too, and rows with one word are not joined.
    let due = list(&["01 1", "10 0", "11 1"]);
    assert_eq!(disjoint_of(1, &["-1 1", "10 0"]), due);
    let due = list(&["0- 1", "1- 1"]);
    assert_eq!(disjoint_of(1, &["0- 1", "1- 1"]), due);
    // One point takes a row apart: a row for each input.
    let due = list(&["000 0", "001 1", "01- 0", "1-- 0"]);
    assert_eq!(disjoint_of(1, &["--- 0", "001 1"]), due);
}

/// All points of seven inputs are as many rows as may come out. Beside 127 points of the lower
/// half of eight inputs, a row with one new point makes 128, and one with two new points, or
/// over all, makes too many. Rows that fix one input each come apart into all regions but
/// one.
#[test]
fn at_most_128_rows_come_out() {
    let point = |mask, values| Row {
        mask,
        values,
        word: 1,
    };
    let sevens: Vec<Row> = (0..128).map(|x| point(127, x)).collect();
    let (answer, lent) = disjoin_in(129, [7, 1], &sevens);
    assert_eq!(answer, [0, 0, 0, 128]);
    assert!(lent[..128] == sevens && lent[128] == HELD);
    for (last, due) in [
        (point(255, 127), [0, 0, 0, 128]),
        (point(255, 128), [0, 0, 0, 128]),
        (point(127, 127), [14, 0, 0, 0]),
        (point(127, 0), [0, 0, 0, 128]),
        (point(0, 0), [14, 0, 0, 0]),
    ] {
        let mut eights: Vec<Row> = (0..127).map(|x| point(255, x)).collect();
        eights.push(last);
        let (answer, lent) = disjoin_in(128, [8, 1], &eights);
        assert_eq!(answer, due, "{last:?}");
        assert_eq!(due[0] == 0, lent.iter().all(|row| *row != HELD), "{last:?}");
        assert_eq!(
            due[0] == 14,
            lent.iter().all(|row| *row == HELD),
            "{last:?}"
        );
    }
    // One point of 16 inputs takes the row over all apart into 17.
    let apart = [point(0, 0), point(65_535, 40_000)];
    assert_eq!(disjoin_in(128, [16, 1], &apart).0, [0, 0, 0, 17]);
    // Rows that fix one input each: 2^16 - 1 regions would come out.
    let units: Vec<Row> = (0..16).map(|i| point(1 << i, 1 << i)).collect();
    assert_eq!(disjoin_in(128, [16, 1], &units).0, [14, 0, 0, 0]);
    assert_eq!(disjoin_in(128, [7, 1], &units[..7]).0, [0, 0, 0, 127]);
    assert_eq!(disjoin_in(128, [8, 1], &units[..8]).0, [14, 0, 0, 0]);
}

#[test]
fn refusals_of_disjoining() {
    let most = usize::MAX;
    let row = |mask, values, word| Row { mask, values, word };
    let bad = [row(1, 0, 1), row(1, 2, 1), row(2, 0, 2)];
    let refused = |room: usize, numbers: [usize; 2], rows: &[Row]| {
        let ([number, a, b, count], lent) = disjoin_in(room, numbers, rows);
        assert!(count == 0 && lent.iter().all(|row| *row == HELD));
        [number, a, b]
    };
    // Each is given before those after it.
    for n in [0, 17, 64, most] {
        assert_eq!(refused(0, [n, 0], &[]), [1, 0, 0]);
        assert_eq!(refused(128, [n, 1], &bad), [1, 0, 0]);
    }
    for k in [0, 16, 64, most] {
        assert_eq!(refused(0, [2, k], &[]), [2, 0, 0]);
        assert_eq!(refused(128, [2, k], &bad), [2, 0, 0]);
    }
    assert_eq!(refused(0, [2, 1], &[]), [4, 0, 0]);
    assert_eq!(refused(0, [2, 1], &[bad[1]; 129]), [4, 0, 0]);
    // Room is looked at whatever comes out.
    assert_eq!(refused(127, [2, 1], &bad[..1]), [5, 0, 0]);
    assert_eq!(refused(127, [2, 1], &[bad[1]; 128]), [5, 0, 0]);
    assert_eq!(refused(128, [2, 1], &[bad[1]; 128]), [6, 0, 0]);
    assert_eq!(refused(128, [2, 1], &bad), [6, 0, 1]);
    // A malformed row last, where more than 128 rows would come out without it.
    let mut units: Vec<Row> = (0..16).map(|i| row(1 << i, 0, 1)).collect();
    assert_eq!(refused(128, [16, 1], &units), [14, 0, 0]);
    assert_eq!(refused(127, [16, 1], &units), [5, 0, 0]);
    units.push(row(1, 1, 2));
    assert_eq!(refused(128, [16, 1], &units), [6, 0, 16]);
    // Columns that no row drives are no refusal here, and neither are rows that share points.
    let (answer, _) = disjoin_in(200, [16, 15], &[Row::default(); 128]);
    assert_eq!(answer, [0, 0, 0, 1]);
}

/// Flat slices of unequal length are no list; of room the shortest counts.
#[test]
fn uneven_slices_are_not_made_disjoint() {
    let lent = [[HELD.mask; 130]; 3];
    let disjoin = |plain: bool, given: [usize; 3], room: [usize; 3]| {
        let mut rows = lent;
        let [m, v, w] = &mut rows;
        let list = Flat {
            masks: &[1; 3][..given[0]],
            values: &[0, 1, 0][..given[1]],
            words: &[1; 3][..given[2]],
        };
        let disjoint = FlatRoom {
            masks: &mut m[..room[0]],
            values: &mut v[..room[1]],
            words: &mut w[..room[2]],
        };
        let got = match plain {
            true => reference::disjoin(1, 1, list, disjoint),
            false => fast::disjoin(1, 1, list, disjoint),
        };
        (got.number, got.results, rows)
    };
    let both = |given, room| {
        let [plain, fast] = [true, false].map(|plain| disjoin(plain, given, room));
        assert!(plain == fast);
        plain
    };
    for given in [[2, 2, 1], [2, 1, 2], [1, 2, 2], [3, 2, 2], [0, 2, 2]] {
        assert!(both(given, [128; 3]) == (4, 0, lent));
    }
    for room in [[127, 130, 130], [130, 127, 130], [130, 130, 127]] {
        assert!(both([2; 3], room) == (5, 0, lent));
    }
    for room in [[128; 3], [128, 130, 129]] {
        let (number, count, rows) = both([2; 3], room);
        assert_eq!((number, count), (0, 2));
        assert_eq!(
            rows.map(|slice| [slice[0], slice[1]]),
            [[1, 1], [0, 1], [1, 1]]
        );
        let beyond = rows.iter().flat_map(|slice| &slice[2..]);
        assert!(beyond.copied().all(|number| number == HELD.mask));
    }
}

/// What the program prints of a list that was made disjoint, by both.
fn printed_disjoint(text: &str) -> String {
    let printed = reference::print_disjoint(text.as_bytes());
    assert_eq!(printed, fast::print_disjoint(text.as_bytes()));
    String::from_utf8(printed).unwrap()
}

/// A disjoint list is printed as row text with the line ".type fd", whether it stood in the
/// text or not; a text of type fr is refused, and so is one that can't be read.
#[test]
fn disjoint_lists_are_printed() {
    let text = |line: &str, rows: &str| {
        let count = rows.lines().count();
        format!(".i 2\n.o 2\n{line}.p {count}\n{rows}.e\n")
    };
    for (rows, due) in [
        ("1- 01\n-1 10\n", "01 10\n10 01\n11 11\n"),
        ("11 00\n1- 10\n-- 01\n", "0- 01\n10 11\n11 11\n"),
        ("10 01\n10 10\n", "10 11\n"),
        ("-- 00\n", "-- 00\n"),
    ] {
        for line in ["", ".type fd\n"] {
            assert_eq!(printed_disjoint(&text(line, rows)), text(".type fd\n", due));
        }
        let of_fr = text(".type fr\n", rows);
        assert_eq!(printed_disjoint(&of_fr), "refused 3 0 0\n");
    }
    // What can't be read, whatever its type.
    for (text, due) in [
        ("", "refused 10 1 0\n"),
        (".i 17\n.o 16\n.type fr\n.p 0\n", "refused 1 0 0\n"),
        (".i 16\n.o 16\n.type fr\n.p 0\n", "refused 2 0 0\n"),
        (".i 16\n.o 15\n.type fr\n.p 0\n.e\n", "refused 4 0 0\n"),
        (".i 16\n.o 15\n.p 129\n", "refused 4 0 0\n"),
        (".i 1\n.o 1\n.type f\n.p 1\n0 1\n.e\n", "refused 10 3 0\n"),
        (
            ".i 1\n.o 1\n.type fr\n.p 2\n0 1\n1 1\n.e",
            "refused 10 7 0\n",
        ),
    ] {
        assert_eq!(printed_disjoint(text), due);
    }
}

/// The longest text that is printed has 128 points of 16 inputs; 16 rows that fix one input
/// each would give more rows than may come out, and are refused with 3 where they are of
/// type fr.
#[test]
fn the_longest_disjoint_texts() {
    let rows: String = (0..128)
        .map(|x| format!("{:016b} {:015b}\n", x << 4, 3))
        .collect();
    let longest = format!(".i 16\n.o 15\n.type fd\n.p 128\n{rows}.e\n");
    assert_eq!(longest.len(), 4_255);
    assert_eq!(printed_disjoint(&longest), longest);
    assert_eq!(
        printed_disjoint(&longest.replace(".type fd\n", "")),
        longest
    );
    let unit = |i: usize| format!("{}1{} 1\n", "-".repeat(i), "-".repeat(15 - i));
    let rows: String = (0..16).map(unit).collect();
    let units = format!(".i 16\n.o 1\n.type fd\n.p 16\n{rows}.e\n");
    assert_eq!(printed_disjoint(&units), "refused 14 0 0\n");
    let units = units.replace(".type fd", ".type fr");
    assert_eq!(printed_disjoint(&units), "refused 3 0 0\n");
}

#[test]
fn refusals_of_the_type() {
    let rows = list(&["11 1"]);
    for y in [0, 3, 4, usize::MAX] {
        assert_eq!(row_method_of(y, [2, 1, 2], &rows).0, [3, 0, 0]);
        assert_eq!(table_method_of(y, [2, 1, 2], &[0; 4]).0, [3, 0, 0]);
        assert_eq!(reference::row_value(2, 1, y, 0, &rows[..]).number, 3);
        assert_eq!(reference::table_value(2, 1, y, 0, &[0; 4]).number, 3);
        assert_eq!(reference::fill(2, 1, y, &rows[..], &mut [0; 4]).number, 3);
        let mut table = [0; 4];
        assert_eq!(
            reference::restore(2, 1, y, &[1, 2], &[0; 4], &mut table).number,
            3
        );
        assert_eq!(
            reference::sheet(2, 1, y, 2, &rows[..], &mut [0; 17_518]).number,
            3
        );
        for line in [0, 1] {
            let got = reference::write_text(2, 1, y, line, &rows[..], &mut [0; 4_255]);
            assert_eq!(got.number, 3);
        }
        // 1 and 2 come before, 4 and 5 after.
        assert_eq!(reference::fill(13, 1, y, &rows[..], &mut []).number, 1);
        assert_eq!(reference::fill(2, 16, y, &rows[..], &mut []).number, 2);
        assert_eq!(reference::fill(2, 1, y, &rows[..0], &mut []).number, 3);
    }
    // 65,535 is an entry under fr and malformed under fd.
    let table = [0, 1, NO_OUTPUT, NO_OUTPUT];
    assert_eq!(table_method_of(FR, [2, 1, 2], &table).0, ANSWERED);
    assert_eq!(table_method_of(FD, [2, 1, 2], &table).0, [6, 0, 2]);
    let got = reference::table_value(2, 1, FD, 0, &table);
    assert_eq!((got.number, got.a, got.b), (6, 0, 2));
    for restore in [reference::restore, fast::restore] {
        let mut room = [9; 4];
        let got = restore(2, 1, FD, &[1, 2], &table, &mut room);
        assert_eq!((got.number, got.a, got.b, room), (6, 0, 2, [9; 4]));
    }
}

/// The reader's answer to a text that begins so and goes on with one row.
fn read(start: &str) -> ([u32; 3], [usize; 5]) {
    let mut rows = [Row::default()];
    let text = format!("{start}1 1\n.e\n");
    let got = reference::read_text(text.as_bytes(), &mut rows[..]);
    let head = got.results;
    let told = [head.n, head.k, head.block_type, head.type_line, head.rows];
    ([got.number, got.a, got.b], told)
}

#[test]
fn type_lines() {
    let told = |y, line| (ANSWERED, [1, 1, y, line, 1]);
    let refused = |line| ([10, line, 0], [0; 5]);
    assert_eq!(read(".i 1\n.o 1\n.p 1\n"), told(FD, 0));
    assert_eq!(read(".i 1\n.o 1\n.type fd\n.p 1\n"), told(FD, 1));
    assert_eq!(read(".i 1\n.o 1\n.type fr\n.p 1\n"), told(FR, 1));
    for line in [
        ".type f",
        ".type fdr",
        ".type FR",
        ".type  fr",
        ".type fr ",
        " .type fr",
        ".type",
        ".type ",
        ".type\tfr",
        ".type fr\r",
        ".types fr",
        "type fr",
        ".type 1",
        "",
    ] {
        assert_eq!(read(&format!(".i 1\n.o 1\n{line}\n.p 1\n")), refused(3));
    }
    assert_eq!(read(".type fr\n.i 1\n.o 1\n.p 1\n"), refused(1));
    assert_eq!(read(".i 1\n.type fr\n.o 1\n.p 1\n"), refused(2));
    assert_eq!(read(".i 1\n.o 1\n.p 1\n.type fr\n"), refused(4));
    assert_eq!(read(".i 1\n.o 1\n.type fr\n.type fr\n.p 1\n"), refused(4));
    assert_eq!(read(".i 1\n.o 1\n.type fd\n.type fr\n.p 1\n"), refused(4));
    // All headings are looked at for form before a range.
    assert_eq!(read(".i 99\n.o 1\n.type f\n.p 1\n"), refused(3));
    assert_eq!(read(".i 99\n.o 1\n.type fr\n.p x\n"), refused(4));
    assert_eq!(read(".i 99\n.o 1\n.type fr\n.p 1\n"), ([1, 0, 0], [0; 5]));
}

#[test]
fn writing_with_and_without_the_type_line() {
    let rows = list(&["1 1"]);
    let write = |y, line, room| {
        let mut text = vec![b'x'; room];
        let got = reference::write_text(1, 1, y, line, &rows[..], &mut text);
        text.truncate(got.results);
        (got.number, String::from_utf8(text).unwrap())
    };
    let text = |line| (0, format!(".i 1\n.o 1\n{line}.p 1\n1 1\n.e\n"));
    assert_eq!(write(FD, 0, 4_255), text(""));
    assert_eq!(write(FD, 1, 4_255), text(".type fd\n"));
    assert_eq!(write(FR, 1, 4_255), text(".type fr\n"));
    assert_eq!(write(FR, 2, 4_256), text(".type fr\n"));
    assert_eq!(write(FR, 0, 4_255), (3, String::new()));
    assert_eq!(write(FD, 0, 4_254), (5, String::new()));
    assert_eq!(write(FD, 1, 4_254), (5, String::new()));
}

/// The longest text has 16 inputs, 15 outputs, 128 rows and the type line.
#[test]
fn the_longest_text_fills_its_room() {
    let row = Row {
        mask: 0xFFFF,
        values: 0,
        word: 0,
    };
    let mut text = [0; 4_255];
    let got = reference::write_text(16, 15, FR, 1, &[row; 128][..], &mut text);
    assert_eq!((got.number, got.results), (0, 4_255));
    let got = reference::write_text(16, 15, FD, 0, &[row; 128][..], &mut text);
    assert_eq!((got.number, got.results), (0, 4_246));
}

/// A list without a type line is one of type fd to the program.
#[test]
fn the_program_goes_by_the_type_line() {
    let text = |line| format!(".i 2\n.o 1\n{line}.p 2\n00 1\n11 1\n.e\n");
    let sheet = |after| {
        format!(
            "sheet 1\nsize 3\n2\n1\n2\nmeasure 2\n0\n{after}\n\
             basis 2\n11\n01\nsigma 2\n10\n11\ntable 2\n00 1\n01 1\n"
        )
    };
    for program in [reference::program, fast::program] {
        let printed = |line| String::from_utf8(program(text(line).as_bytes())).unwrap();
        assert_eq!(printed(""), sheet(4));
        assert_eq!(printed(".type fd\n"), sheet(4));
        assert_eq!(printed(".type fr\n"), sheet(2));
        assert_eq!(printed(".type f\n"), "refused 10 3 0\n");
    }
}
