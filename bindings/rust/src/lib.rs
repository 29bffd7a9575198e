//! Irwystl from Rust: the sheet of a logic block, its model in BLIF, and every
//! operation behind them.
//!
//! A block has n inputs and k outputs. It comes as a list of [`Row`]s, as three
//! flat slices ([`flat`]), as row text or as a full table of 2^n words. Its type
//! says what a point under no row means: under [`FR`] it has no output, and the
//! table's entry is [`NO_OUTPUT`]; under [`FD`], the type of a text without a type
//! line, it has word 0. The shortest uses are [`sheet_of`] and [`model_of`], row text
//! in and sheet or model out:
//!
//! ```
//! let text = b".i 3\n.o 2\n.p 4\n00- 01\n11- 01\n01- 10\n10- 10\n.e\n";
//! let sheet = irwystl::sheet_of(text)?;
//! assert!(sheet.ends_with("table 4\n00- 01\n01- 01\n10- 10\n11- 10\n"));
//! # Ok::<(), irwystl::Refusal>(())
//! ```
//!
//! Any numbers and any slices may come in. Each call answers or is refused
//! ([`Refusal`]), and no call panics. With a refusal all lent storage holds what it
//! held; with an answer, what lies beyond the result holds what it held, and in a list
//! that is joined ([`join_rows`]) the rows that are freed are zeros. A call
//! takes at most 1 MiB of stack. docs/PROMISES.md says what each operation
//! promises; a function here has the promise of the operation of its name.

pub mod flat;
mod model;
pub mod raw;
mod reason;
mod refusal;

pub use model::{model_of, read_model, write_model, Model, Pattern};
pub use reason::{why_not, Reason, Taken, Why};
pub use refusal::Refusal;

/// The most inputs of a list of rows, of row text, of a sheet and of a model.
pub const MOST_LIST_INPUTS: usize = 16;

/// The most inputs of a full table, and of a list that is filled into one.
pub const MOST_TABLE_INPUTS: usize = 12;

/// The most outputs.
pub const MOST_OUTPUTS: usize = 15;

/// The most rows given; [`fill_table`] and [`join_rows`] take [`SMALLER_ROWS`]. The most rows
/// of a disjoint list too, and the room for it.
pub const MOST_ROWS: usize = 128;

/// The room for smaller rows, however few they are.
pub const SMALLER_ROWS: usize = 512;

/// The bytes of the longest row text, and so the room for any.
pub const TEXT_ROOM: usize = 4255;

/// The bytes of the longest sheet, and so the room for any.
pub const SHEET_ROOM: usize = 17518;

/// Room for any model; one asks for no more than its own length.
pub const MODEL_ROOM: usize = 156420;

/// The bytes of the longest line of an import, and so the room for any.
pub const LINE_ROOM: usize = 4176;

/// The table entry of a point without an output.
pub const NO_OUTPUT: u16 = 65535;

/// The type of a block whose points under no row have no output.
pub const FR: usize = 1;

/// The type of a block whose points under no row have word 0, and of a row text
/// without a type line.
pub const FD: usize = 2;

/// A row: the mask of its fixed inputs, their values (0 outside the mask), and
/// its word. Input x0 is the lowest bit.
#[repr(C)]
#[derive(Clone, Copy, Debug, Default, PartialEq, Eq, Hash)]
pub struct Row {
    pub mask: u32,
    pub values: u32,
    pub word: u32,
}

/// The measure of a block and that of its smaller block.
#[derive(Clone, Copy, Debug, PartialEq, Eq)]
pub struct Measures {
    pub before: u64,
    pub after: u64,
}

/// The measures of the row method, and the number of smaller rows.
#[derive(Clone, Copy, Debug, PartialEq, Eq)]
pub struct Smaller {
    pub before: u64,
    pub after: u64,
    pub count: usize,
}

/// What an accepted text tells: inputs, outputs, the type, and the number of rows.
#[derive(Clone, Copy, Debug, PartialEq, Eq)]
pub struct Headings {
    pub n: usize,
    pub k: usize,
    /// [`FR`] or [`FD`].
    pub block_type: usize,
    /// Whether the type line stands in the text: 1 or 0.
    pub type_line: usize,
    pub count: usize,
}

/// What a model that is read has: inputs, outputs, and the patterns of all outputs.
#[derive(Clone, Copy, Debug, PartialEq, Eq)]
pub struct ModelSize {
    pub n: usize,
    pub k: usize,
    pub patterns: usize,
}

/// What came of one list of an import.
#[derive(Clone, Copy, Debug, PartialEq, Eq)]
pub struct Imported {
    /// The bytes of the sheet, or why there is none.
    pub sheet: Result<usize, Refusal>,
    /// The bytes of the line.
    pub line: usize,
}

// Every pointer below, in `flat`, in `model` and in `reason`, comes from a slice or an array
// that is lent for the whole call, with its length, and no room overlaps anything else:
// that is all that the calls ask for.

/// R(t) of a table of 2^n entries. Refuses with 1, 2, 3 (the type, t), 4 and 6.
///
/// ```
/// use irwystl::{table_value, Refusal, FD, FR, NO_OUTPUT};
/// // the XOR of two inputs: flipping both changes no word, flipping one each word
/// let table = [0, 1, 1, 0];
/// assert_eq!(table_value(2, 1, FR, 3, &table), Ok(4));
/// assert_eq!(table_value(2, 1, FR, 1, &table), Ok(0));
/// assert_eq!(table_value(2, 1, FR, 4, &table), Err(Refusal::Limit));
/// // a point without an output is there under one type alone
/// let table = [0, 1, 1, NO_OUTPUT];
/// assert_eq!(table_value(2, 1, FR, 3, &table), Ok(2));
/// assert_eq!(table_value(2, 1, FD, 3, &table), Err(Refusal::Record { index: 3 }));
/// ```
pub fn table_value(
    n: usize,
    k: usize,
    block_type: usize,
    t: usize,
    table: &[u16],
) -> Result<u64, Refusal> {
    unsafe { raw::irwystl_table_value(n, k, block_type, t, table.as_ptr(), table.len()) }.result()
}

/// R at every t of a table of 2^n entries, as the Wiener-Khinchin theorem has it: for
/// each word a signed Walsh transform, squares, the transform again, and that divided
/// by 2^n; R is the sum over the words. It is what [`table_value`] counts at each t.
/// `values` is room for 2^n numbers, R at 0, 1, .. 2^n - 1; `working` is room for 2^n
/// too, in which the transforms are made, and which ends at 0. Both may hold any
/// numbers before. Refuses with 1, 2, 3 (the type), 4, 5 (either room) and 6.
///
/// ```
/// use irwystl::{table_spectrum, Refusal, FD, FR, NO_OUTPUT};
/// let mut values = [9; 4];
/// let mut working = [-9; 5];
/// table_spectrum(2, 1, FR, &[0, 1, 1, 0], &mut values, &mut working)?;
/// assert_eq!(values, [4, 0, 0, 4]);
/// assert_eq!(working, [0, 0, 0, 0, -9]);
/// // a point without an output counts in no R
/// table_spectrum(2, 1, FR, &[0, 1, 1, NO_OUTPUT], &mut values, &mut working)?;
/// assert_eq!(values, [3, 0, 0, 2]);
/// let refused = table_spectrum(2, 1, FD, &[0; 4], &mut values, &mut working[..3]);
/// assert_eq!((refused, values), (Err(Refusal::Room), [3, 0, 0, 2]));
/// # Ok::<(), irwystl::Refusal>(())
/// ```
pub fn table_spectrum(
    n: usize,
    k: usize,
    block_type: usize,
    table: &[u16],
    values: &mut [u32],
    working: &mut [i32],
) -> Result<(), Refusal> {
    unsafe {
        raw::irwystl_table_spectrum(
            n,
            k,
            block_type,
            table.as_ptr(),
            table.len(),
            values.as_mut_ptr(),
            values.len(),
            working.as_mut_ptr(),
            working.len(),
        )
    }
    .result()
}

/// T, sigma, the smaller table and both measures of a table of 2^n entries, with
/// weight limit w. The greatest R is taken first, at equal R the number with the
/// fewest one-bits, then the smallest. `basis` and `sigma` are room for n numbers
/// each, `smaller` for 2^n entries. Refuses with 1, 2, 3 (the type, w), 4, 5 and 6.
///
/// ```
/// use irwystl::{table_method, FR};
/// let [mut basis, mut sigma] = [[0; 2]; 2];
/// let mut smaller = [0; 4];
/// let table = [0, 1, 1, 0];
/// let measures = table_method(2, 1, FR, 2, &table, &mut basis, &mut sigma, &mut smaller)?;
/// assert_eq!((measures.before, measures.after), (0, 4));
/// assert_eq!((basis, sigma), ([3, 1], [2, 3]));
/// assert_eq!(smaller, [0, 0, 1, 1]);
/// # Ok::<(), irwystl::Refusal>(())
/// ```
pub fn table_method(
    n: usize,
    k: usize,
    block_type: usize,
    w: usize,
    table: &[u16],
    basis: &mut [u32],
    sigma: &mut [u32],
    smaller: &mut [u16],
) -> Result<Measures, Refusal> {
    unsafe {
        raw::irwystl_table_method(
            n,
            k,
            block_type,
            w,
            table.as_ptr(),
            table.len(),
            basis.as_mut_ptr(),
            basis.len(),
            sigma.as_mut_ptr(),
            sigma.len(),
            smaller.as_mut_ptr(),
            smaller.len(),
        )
    }
    .result()
}

/// The original table from sigma, n numbers, and the smaller table, 2^n entries.
/// `table` is room for 2^n. Refuses with 1, 2, 3 (the type), 4, 5, 6 (the matrix,
/// then the table) and 8.
///
/// ```
/// let mut table = [0; 4];
/// irwystl::restore_table(2, 1, irwystl::FR, &[2, 3], &[0, 0, 1, 1], &mut table)?;
/// assert_eq!(table, [0, 1, 1, 0]);
/// # Ok::<(), irwystl::Refusal>(())
/// ```
pub fn restore_table(
    n: usize,
    k: usize,
    block_type: usize,
    sigma: &[u32],
    smaller: &[u16],
    table: &mut [u16],
) -> Result<(), Refusal> {
    unsafe {
        raw::irwystl_restore_table(
            n,
            k,
            block_type,
            sigma.as_ptr(),
            sigma.len(),
            smaller.as_ptr(),
            smaller.len(),
            table.as_mut_ptr(),
            table.len(),
        )
    }
    .result()
}

/// A symmetric block, whose word depends only on how many inputs are 1. `words` has
/// n + 1 of them, the word for a count of 0 ones, of 1, .. of n, and under [`FR`] any of
/// them may be [`NO_OUTPUT`]. `table` is room for the block's 2^n entries, and `smaller`
/// for those of the smaller block for the T with the columns 1, 3, 6, 12, 24, .., by
/// which z decodes x as a Gray code: its entry z is the table's at z XOR (z >> 1). The
/// second measure is never below the first. Refuses with 1, 2, 3 (the type), 4, 5
/// (either room) and 6 ([`Refusal::Word`], the least count whose word is malformed).
///
/// ```
/// use irwystl::{restore_table, symmetric_block, Refusal, FD, FR, NO_OUTPUT};
/// // 3 out of 5: in the smaller table more neighbours have equal words
/// let [mut table, mut smaller] = [[0; 32]; 2];
/// let words = [0, 0, 0, 1, 0, 0];
/// let measures = symmetric_block(5, 1, FD, &words, &mut table, &mut smaller)?;
/// assert_eq!((measures.before, measures.after), (60, 108));
/// assert_eq!((table[0b10110], table[0b10111]), (1, 0));
/// // the inverse of T gives the table back
/// let mut restored = [0; 32];
/// restore_table(5, 1, FD, &[31, 30, 28, 24, 16], &smaller, &mut restored)?;
/// assert_eq!(restored, table);
/// let words = [0, NO_OUTPUT, 0];
/// assert!(symmetric_block(2, 1, FR, &words, &mut table, &mut smaller).is_ok());
/// let refused = symmetric_block(2, 1, FD, &words, &mut table, &mut smaller);
/// assert_eq!(refused, Err(Refusal::Word { count: 1 }));
/// # Ok::<(), irwystl::Refusal>(())
/// ```
pub fn symmetric_block(
    n: usize,
    k: usize,
    block_type: usize,
    words: &[u16],
    table: &mut [u16],
    smaller: &mut [u16],
) -> Result<Measures, Refusal> {
    unsafe {
        raw::irwystl_symmetric_block(
            n,
            k,
            block_type,
            words.as_ptr(),
            words.len(),
            table.as_mut_ptr(),
            table.len(),
            smaller.as_mut_ptr(),
            smaller.len(),
        )
    }
    .result()
    .map_err(Refusal::of_words)
}

/// Whether a table of 2^n entries is one of a symmetric block: the entries at all
/// points with as many ones are equal, [`NO_OUTPUT`] among them. Refuses with 1, 2, 3
/// (the type), 4 and 6.
///
/// ```
/// use irwystl::{table_symmetric, Refusal, FD, FR, NO_OUTPUT};
/// assert_eq!(table_symmetric(2, 1, FR, &[0, 1, 1, 0]), Ok(true));
/// assert_eq!(table_symmetric(2, 1, FR, &[0, 1, 0, 0]), Ok(false));
/// assert_eq!(table_symmetric(2, 1, FR, &[0, 1, NO_OUTPUT, 0]), Ok(false));
/// let refused = table_symmetric(2, 1, FD, &[0, 1, NO_OUTPUT, 0]);
/// assert_eq!(refused, Err(Refusal::Record { index: 2 }));
/// ```
pub fn table_symmetric(
    n: usize,
    k: usize,
    block_type: usize,
    table: &[u16],
) -> Result<bool, Refusal> {
    unsafe { raw::irwystl_table_symmetric(n, k, block_type, table.as_ptr(), table.len()) }
        .result()
        .map(|value| value == 1)
}

/// R(t) of a list of 1 to 128 rows. Refuses with 1, 2, 3 (the type, t), 4, 6, 7 and 11.
///
/// ```
/// use irwystl::{row_value, Refusal, Row, FD, FR};
/// // 0- and -0: both cover 00
/// let rows = [Row { mask: 2, values: 0, word: 1 }, Row { mask: 1, values: 0, word: 1 }];
/// // the points 10 and 11 are under no row: they have no output, or word 0
/// assert_eq!(row_value(2, 1, FR, 0, &rows[..1]), Ok(2));
/// assert_eq!(row_value(2, 1, FD, 0, &rows[..1]), Ok(4));
/// let refused = row_value(2, 1, FR, 0, &rows);
/// assert_eq!(refused, Err(Refusal::SharedPoint { first: 0, second: 1 }));
/// // with two outputs no row drives the upper one
/// let refused = row_value(2, 2, FR, 0, &rows[..1]);
/// assert_eq!(refused, Err(Refusal::UndrivenColumn { bit: 1 }));
/// ```
pub fn row_value(
    n: usize,
    k: usize,
    block_type: usize,
    t: usize,
    rows: &[Row],
) -> Result<u64, Refusal> {
    unsafe { raw::irwystl_records_row_value(n, k, block_type, t, rows.as_ptr(), rows.len()) }
        .result()
}

/// T, sigma, the smaller rows and both measures of a list of 1 to 128 rows, with
/// weight limit w; T is chosen as for a table. `basis` and `sigma` are room for n
/// numbers each, `smaller` for [`SMALLER_ROWS`] rows, of which the first `count`
/// are written. Refuses with 1, 2, 3 (the type, w), 4, 5, 6, 7, 11 and 9.
///
/// ```
/// use irwystl::{row_method, Row, FD, FR, SMALLER_ROWS};
/// // 01 and 10 have word 1: the XOR of the two inputs, where 00 and 11 have word 0
/// let rows = [Row { mask: 3, values: 1, word: 1 }, Row { mask: 3, values: 2, word: 1 }];
/// let [mut basis, mut sigma] = [[0; 2]; 2];
/// let mut smaller = [Row::default(); SMALLER_ROWS];
/// let found = row_method(2, 1, FR, 2, &rows, &mut basis, &mut sigma, &mut smaller)?;
/// assert_eq!((found.before, found.after, found.count), (0, 2, 2));
/// assert_eq!(basis, [3, 1]);
/// let found = row_method(2, 1, FD, 2, &rows, &mut basis, &mut sigma, &mut smaller)?;
/// assert_eq!((found.before, found.after, found.count), (0, 4, 2));
/// # Ok::<(), irwystl::Refusal>(())
/// ```
pub fn row_method(
    n: usize,
    k: usize,
    block_type: usize,
    w: usize,
    rows: &[Row],
    basis: &mut [u32],
    sigma: &mut [u32],
    smaller: &mut [Row],
) -> Result<Smaller, Refusal> {
    unsafe {
        raw::irwystl_records_row_method(
            n,
            k,
            block_type,
            w,
            rows.as_ptr(),
            rows.len(),
            basis.as_mut_ptr(),
            basis.len(),
            sigma.as_mut_ptr(),
            sigma.len(),
            smaller.as_mut_ptr(),
            smaller.len(),
        )
    }
    .result()
}

/// Joins rows of a list of 1 to 512, in place, and gives the number of rows that are left.
/// While two rows have equal words, the same mask and values that differ in exactly one
/// input, the pair with the smallest first and then the smallest second row is taken: the
/// joined row, free at that input, stands in the first place, and the rows behind the second
/// close up. The rows left stand at the front, no two of which join; each one behind them
/// is all zeros. The block is the same at each point under either type, so that no type is
/// asked for. Whether the rows drive every column is not looked at. Refuses with 1, 2, 4, 6
/// and 7.
///
/// ```
/// use irwystl::{join_rows, Refusal, Row};
/// let row = |mask, values| Row { mask, values, word: 1 };
/// // 00-, 010, 111 and 011: the second and the last are 01-, which joins with the first
/// let mut rows = [row(6, 0), row(7, 2), row(7, 7), row(7, 3)];
/// assert_eq!(join_rows(3, 1, &mut rows), Ok(2));
/// // 0-- and 111, and two rows freed
/// assert_eq!(rows, [row(4, 0), row(7, 7), Row::default(), Row::default()]);
/// assert_eq!(join_rows(3, 1, &mut rows[..2]), Ok(2));
/// // a freed row is one over all points
/// let refused = join_rows(3, 1, &mut rows);
/// assert_eq!(refused, Err(Refusal::SharedPoint { first: 0, second: 2 }));
/// ```
pub fn join_rows(n: usize, k: usize, rows: &mut [Row]) -> Result<usize, Refusal> {
    unsafe { raw::irwystl_records_join_rows(n, k, rows.as_mut_ptr(), rows.len()) }.result()
}

/// Makes the disjoint list of a list of 1 to 128 rows that overlap on purpose, where a
/// point's word is the OR of all rows over it, and gives the number of its rows. It is a list
/// of type [`FD`] with that word at each point, 0 where there is no row, and no two of its
/// rows share a point. The whole space is halved, and each region again: one that no row
/// meets gives nothing; one that lies inside every row meeting it gives one row with their
/// OR, which may be 0; any other is halved at its highest free input that is fixed in some
/// row meeting it, 0 half first. `disjoint` is room for [`MOST_ROWS`] rows, however few come
/// out. Whether the rows drive every column is not looked at. Refuses with 1, 2, 4, 5, 6 and
/// 14.
///
/// ```
/// use irwystl::{disjoin_rows, Refusal, Row, MOST_ROWS};
/// let row = |mask, values, word| Row { mask, values, word };
/// // 1- with word 01 and -1 with word 10 share the point 11
/// let rows = [row(2, 2, 1), row(1, 1, 2)];
/// let mut disjoint = [Row::default(); MOST_ROWS];
/// assert_eq!(disjoin_rows(2, 2, &rows, &mut disjoint), Ok(3));
/// assert_eq!(disjoint[..3], [row(3, 1, 2), row(3, 2, 1), row(3, 3, 3)]);
/// let refused = disjoin_rows(2, 2, &rows, &mut disjoint[..3]);
/// assert_eq!(refused, Err(Refusal::Room));
/// // rows that fix one of eight inputs each come apart into 255
/// let rows: Vec<Row> = (0..8).map(|i| row(1 << i, 1 << i, 1)).collect();
/// let refused = disjoin_rows(8, 1, &rows, &mut disjoint);
/// assert_eq!(refused, Err(Refusal::TooManyDisjoint));
/// ```
pub fn disjoin_rows(
    n: usize,
    k: usize,
    rows: &[Row],
    disjoint: &mut [Row],
) -> Result<usize, Refusal> {
    unsafe {
        raw::irwystl_records_disjoin_rows(
            n,
            k,
            rows.as_ptr(),
            rows.len(),
            disjoint.as_mut_ptr(),
            disjoint.len(),
        )
    }
    .result()
}

/// The full table of a list of 1 to 512 rows and at most 12 inputs. `table` is
/// room for 2^n entries. Refuses with 1, 2, 3 (the type), 4, 5, 6, 7 and 11.
///
/// ```
/// use irwystl::{fill_table, Row, FD, FR, NO_OUTPUT};
/// let mut table = [0; 4];
/// fill_table(2, 1, FR, &[Row { mask: 2, values: 0, word: 1 }], &mut table)?;
/// assert_eq!(table, [1, 1, NO_OUTPUT, NO_OUTPUT]);
/// fill_table(2, 1, FD, &[Row { mask: 2, values: 0, word: 1 }], &mut table)?;
/// assert_eq!(table, [1, 1, 0, 0]);
/// # Ok::<(), irwystl::Refusal>(())
/// ```
pub fn fill_table(
    n: usize,
    k: usize,
    block_type: usize,
    rows: &[Row],
    table: &mut [u16],
) -> Result<(), Refusal> {
    unsafe {
        raw::irwystl_records_fill_table(
            n,
            k,
            block_type,
            rows.as_ptr(),
            rows.len(),
            table.as_mut_ptr(),
            table.len(),
        )
    }
    .result()
}

/// A list of 1 to 128 rows as row text: the number of its bytes. The type line is
/// left out where `type_line` is 0; under [`FR`] it has to stand, for a text
/// without it is of type [`FD`]. With what [`read_text`] told, the text is the one
/// that was read. `out` is room for [`TEXT_ROOM`] bytes. Whether rows share a point or
/// drive every column is not looked at. Refuses with 1, 2, 3 (the type, or its line), 4, 5
/// and 6.
///
/// ```
/// use irwystl::{write_text, Refusal, Row, FD, FR, TEXT_ROOM};
/// let rows = [Row { mask: 2, values: 0, word: 1 }];
/// let mut out = [0; TEXT_ROOM];
/// let count = write_text(2, 1, FD, 0, &rows, &mut out)?;
/// assert_eq!(&out[..count], b".i 2\n.o 1\n.p 1\n0- 1\n.e\n");
/// let count = write_text(2, 1, FR, 1, &rows, &mut out)?;
/// assert_eq!(&out[..count], b".i 2\n.o 1\n.type fr\n.p 1\n0- 1\n.e\n");
/// assert_eq!(write_text(2, 1, FR, 0, &rows, &mut out), Err(Refusal::Limit));
/// # Ok::<(), irwystl::Refusal>(())
/// ```
pub fn write_text(
    n: usize,
    k: usize,
    block_type: usize,
    type_line: usize,
    rows: &[Row],
    out: &mut [u8],
) -> Result<usize, Refusal> {
    unsafe {
        raw::irwystl_records_write_text(
            n,
            k,
            block_type,
            type_line,
            rows.as_ptr(),
            rows.len(),
            out.as_mut_ptr(),
            out.len(),
        )
    }
    .result()
}

/// The rows of a row text. `rows` is room for as many as the text tells, at most
/// [`MOST_ROWS`]. Whether rows share a point or drive every column is not looked at.
/// Refuses with 10 (a heading, the type line among them), 1, 2, 4, 5 and 10 (any other
/// line).
///
/// ```
/// use irwystl::{read_text, Refusal, Row, FD, FR, MOST_ROWS};
/// let mut rows = [Row::default(); MOST_ROWS];
/// let told = read_text(b".i 2\n.o 1\n.p 1\n0- 1\n.e\n", &mut rows)?;
/// assert_eq!((told.n, told.k, told.count), (2, 1, 1));
/// assert_eq!((told.block_type, told.type_line), (FD, 0));
/// assert_eq!(rows[0], Row { mask: 2, values: 0, word: 1 });
/// let told = read_text(b".i 2\n.o 1\n.type fr\n.p 1\n0- 1\n.e\n", &mut rows)?;
/// assert_eq!((told.block_type, told.type_line), (FR, 1));
/// assert_eq!(read_text(b".i two\n", &mut rows), Err(Refusal::Line { line: 1 }));
/// # Ok::<(), irwystl::Refusal>(())
/// ```
pub fn read_text(text: &[u8], rows: &mut [Row]) -> Result<Headings, Refusal> {
    let [given, room] = [text.len(), rows.len()];
    unsafe { raw::irwystl_records_read_text(text.as_ptr(), given, rows.as_mut_ptr(), room) }
        .result()
}

/// The sheet of a list of 1 to 128 rows with weight limit w: the number of its
/// bytes. The type does not stand on it. `out` is room for [`SHEET_ROOM`] bytes.
/// Refuses with 1, 2, 3 (the type, w), 4, 5, 6, 7, 11 and 9.
///
/// ```
/// use irwystl::{sheet, Row, FR, SHEET_ROOM};
/// let mut out = [0; SHEET_ROOM];
/// let count = sheet(2, 1, FR, 2, &[Row { mask: 2, values: 0, word: 1 }], &mut out)?;
/// assert!(out[..count].starts_with(b"sheet 1\nsize 3\n2\n1\n2\n"));
/// # Ok::<(), irwystl::Refusal>(())
/// ```
pub fn sheet(
    n: usize,
    k: usize,
    block_type: usize,
    w: usize,
    rows: &[Row],
    out: &mut [u8],
) -> Result<usize, Refusal> {
    unsafe {
        raw::irwystl_records_sheet(
            n,
            k,
            block_type,
            w,
            rows.as_ptr(),
            rows.len(),
            out.as_mut_ptr(),
            out.len(),
        )
    }
    .result()
}

/// Writes what the program prints for a text to the front of `out`, and gives the
/// number of its bytes: the sheet with weight limit 3, or n where the block has
/// n < 3 inputs, of the type that the text tells, or else one line "refused N A B".
///
/// ```
/// let mut out = [0; irwystl::SHEET_ROOM];
/// let count = irwystl::print_text(b"", &mut out);
/// assert_eq!(&out[..count], b"refused 10 1 0\n");
/// ```
pub fn print_text(text: &[u8], out: &mut [u8; SHEET_ROOM]) -> usize {
    unsafe { raw::irwystl_print_text(text.as_ptr(), text.len(), out.as_mut_ptr()) }
}

/// Writes the model of a text to the front of `out`, where [`print_text`] writes the
/// sheet, and gives the number of its bytes; or else the same line.
///
/// ```
/// let mut out = Box::new([0; irwystl::MODEL_ROOM]);
/// let count = irwystl::print_model(b".i 1\n.o 1\n.p 1\n0 1\n.e\n", &mut out);
/// assert!(out[..count].starts_with(b".model block\n"));
/// let count = irwystl::print_model(b"", &mut out);
/// assert_eq!(&out[..count], b"refused 10 1 0\n");
/// ```
pub fn print_model(text: &[u8], out: &mut [u8; MODEL_ROOM]) -> usize {
    unsafe { raw::irwystl_print_model(text.as_ptr(), text.len(), out.as_mut_ptr()) }
}

/// Writes row text with the rows of a text joined, as [`join_rows`] has them, to the
/// front of `out`, and gives the number of its bytes; or else one line "refused N A B".
/// The type line stands where it stood in the text.
///
/// ```
/// let mut out = [0; irwystl::TEXT_ROOM];
/// let text = b".i 2\n.o 1\n.type fr\n.p 3\n00 1\n11 0\n01 1\n.e\n";
/// let count = irwystl::print_joined(text, &mut out);
/// assert_eq!(&out[..count], b".i 2\n.o 1\n.type fr\n.p 2\n0- 1\n11 0\n.e\n");
/// let count = irwystl::print_joined(b"", &mut out);
/// assert_eq!(&out[..count], b"refused 10 1 0\n");
/// ```
pub fn print_joined(text: &[u8], out: &mut [u8; TEXT_ROOM]) -> usize {
    unsafe { raw::irwystl_print_joined(text.as_ptr(), text.len(), out.as_mut_ptr()) }
}

/// Writes row text with the disjoint list of a text, as [`disjoin_rows`] has it, to the front
/// of `out`, and gives the number of its bytes; or else one line "refused N A B". The line
/// ".type fd" stands in it always; a text of type [`FR`] is refused with 3, for its missing
/// points have no output, and those of the disjoint list have word 0.
///
/// ```
/// let mut out = [0; irwystl::TEXT_ROOM];
/// let text = b".i 2\n.o 2\n.p 2\n1- 01\n-1 10\n.e\n";
/// let count = irwystl::print_disjoint(text, &mut out);
/// let due = b".i 2\n.o 2\n.type fd\n.p 3\n01 10\n10 01\n11 11\n.e\n";
/// assert_eq!(&out[..count], due);
/// let text = b".i 1\n.o 1\n.type fr\n.p 1\n- 1\n.e\n";
/// let count = irwystl::print_disjoint(text, &mut out);
/// assert_eq!(&out[..count], b"refused 3 0 0\n");
/// ```
pub fn print_disjoint(text: &[u8], out: &mut [u8; TEXT_ROOM]) -> usize {
    unsafe { raw::irwystl_print_disjoint(text.as_ptr(), text.len(), out.as_mut_ptr()) }
}

/// One list of an import: the sheet of a text, with the weight limit of
/// [`print_text`], and the line that says what came of it, without its end.
///
/// ```
/// use irwystl::{import_text, Refusal, LINE_ROOM, SHEET_ROOM};
/// let mut sheet = [0; SHEET_ROOM];
/// let mut line = [0; LINE_ROOM];
/// let imported = import_text(b"fan.pla", b".i 17\n.o 1\n.p 1\n", &mut sheet, &mut line);
/// assert_eq!(imported.sheet, Err(Refusal::Inputs));
/// assert_eq!(&line[..imported.line], b"fan.pla refused 1 0 0");
/// ```
pub fn import_text(
    name: &[u8],
    text: &[u8],
    sheet: &mut [u8; SHEET_ROOM],
    line: &mut [u8; LINE_ROOM],
) -> Imported {
    let [sheet, line] = [sheet.as_mut_ptr(), line.as_mut_ptr()];
    unsafe {
        raw::irwystl_import_text(
            name.as_ptr(),
            name.len(),
            text.as_ptr(),
            text.len(),
            sheet,
            line,
        )
    }
    .result()
}

/// The sheet of a text, with the weight limit of [`print_text`]. Refuses with 10,
/// 1, 2, 4, 7, 11 and 9.
///
/// ```
/// let refused = irwystl::sheet_of(b".i 3\n.o 2\n").unwrap_err();
/// assert_eq!(refused, irwystl::Refusal::Line { line: 3 });
/// assert_eq!(refused.to_string(), "line 3 is not of the form due there");
/// ```
pub fn sheet_of(text: &[u8]) -> Result<String, Refusal> {
    let mut sheet = [0; SHEET_ROOM];
    let count = import_text(b"", text, &mut sheet, &mut [0; LINE_ROOM]).sheet?;
    // a sheet is ASCII, and no longer than its room
    Ok(String::from_utf8_lossy(sheet.get(..count).unwrap_or(&[])).into_owned())
}
