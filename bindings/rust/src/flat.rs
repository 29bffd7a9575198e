//! The operations on lists with rows in three flat slices: row i is `masks[i]`,
//! `values[i]` and `words[i]`. Each does what the function of its name does on
//! records. Given slices of unequal length are refused with 4, and so are those of a
//! list that is joined; of slices that are room the shortest is the room. And the
//! operations on models with what they say in slices of the caller's.
//!
//! ```
//! use irwystl::flat::{row_value, Rows};
//! let rows = Rows { masks: &[2], values: &[0], words: &[1] };
//! assert_eq!(row_value(2, 1, irwystl::FR, 0, rows), Ok(2));
//! ```

use crate::{raw, Headings, ModelSize, Refusal, Smaller, Why, MOST_LIST_INPUTS};

/// Rows that are given.
#[derive(Clone, Copy, Debug)]
pub struct Rows<'a> {
    pub masks: &'a [u32],
    pub values: &'a [u32],
    pub words: &'a [u32],
}

/// Room for rows, or rows that are changed in place.
#[derive(Debug)]
pub struct Room<'a> {
    pub masks: &'a mut [u32],
    pub values: &'a mut [u32],
    pub words: &'a mut [u32],
}

pub fn row_value(
    n: usize,
    k: usize,
    block_type: usize,
    t: usize,
    rows: Rows<'_>,
) -> Result<u64, Refusal> {
    unsafe {
        raw::irwystl_row_value(
            n,
            k,
            block_type,
            t,
            rows.masks.as_ptr(),
            rows.masks.len(),
            rows.values.as_ptr(),
            rows.values.len(),
            rows.words.as_ptr(),
            rows.words.len(),
        )
    }
    .result()
}

pub fn row_method(
    n: usize,
    k: usize,
    block_type: usize,
    w: usize,
    rows: Rows<'_>,
    basis: &mut [u32],
    sigma: &mut [u32],
    smaller: Room<'_>,
) -> Result<Smaller, Refusal> {
    unsafe {
        raw::irwystl_row_method(
            n,
            k,
            block_type,
            w,
            rows.masks.as_ptr(),
            rows.masks.len(),
            rows.values.as_ptr(),
            rows.values.len(),
            rows.words.as_ptr(),
            rows.words.len(),
            basis.as_mut_ptr(),
            basis.len(),
            sigma.as_mut_ptr(),
            sigma.len(),
            smaller.masks.as_mut_ptr(),
            smaller.masks.len(),
            smaller.values.as_mut_ptr(),
            smaller.values.len(),
            smaller.words.as_mut_ptr(),
            smaller.words.len(),
        )
    }
    .result()
}

pub fn why_not(
    n: usize,
    k: usize,
    block_type: usize,
    w: usize,
    t: usize,
    rows: Rows<'_>,
) -> Result<Why, Refusal> {
    let mut taken = [0; MOST_LIST_INPUTS];
    unsafe {
        raw::irwystl_why_not(
            n,
            k,
            block_type,
            w,
            t,
            rows.masks.as_ptr(),
            rows.masks.len(),
            rows.values.as_ptr(),
            rows.values.len(),
            rows.words.as_ptr(),
            rows.words.len(),
            taken.as_mut_ptr(),
        )
    }
    .result(n, &taken)
}

pub fn join_rows(n: usize, k: usize, rows: Room<'_>) -> Result<usize, Refusal> {
    unsafe {
        raw::irwystl_join_rows(
            n,
            k,
            rows.masks.as_mut_ptr(),
            rows.masks.len(),
            rows.values.as_mut_ptr(),
            rows.values.len(),
            rows.words.as_mut_ptr(),
            rows.words.len(),
        )
    }
    .result()
}

pub fn disjoin_rows(
    n: usize,
    k: usize,
    rows: Rows<'_>,
    disjoint: Room<'_>,
) -> Result<usize, Refusal> {
    unsafe {
        raw::irwystl_disjoin_rows(
            n,
            k,
            rows.masks.as_ptr(),
            rows.masks.len(),
            rows.values.as_ptr(),
            rows.values.len(),
            rows.words.as_ptr(),
            rows.words.len(),
            disjoint.masks.as_mut_ptr(),
            disjoint.masks.len(),
            disjoint.values.as_mut_ptr(),
            disjoint.values.len(),
            disjoint.words.as_mut_ptr(),
            disjoint.words.len(),
        )
    }
    .result()
}

pub fn fill_table(
    n: usize,
    k: usize,
    block_type: usize,
    rows: Rows<'_>,
    table: &mut [u16],
) -> Result<(), Refusal> {
    unsafe {
        raw::irwystl_fill_table(
            n,
            k,
            block_type,
            rows.masks.as_ptr(),
            rows.masks.len(),
            rows.values.as_ptr(),
            rows.values.len(),
            rows.words.as_ptr(),
            rows.words.len(),
            table.as_mut_ptr(),
            table.len(),
        )
    }
    .result()
}

pub fn write_text(
    n: usize,
    k: usize,
    block_type: usize,
    type_line: usize,
    rows: Rows<'_>,
    out: &mut [u8],
) -> Result<usize, Refusal> {
    unsafe {
        raw::irwystl_write_text(
            n,
            k,
            block_type,
            type_line,
            rows.masks.as_ptr(),
            rows.masks.len(),
            rows.values.as_ptr(),
            rows.values.len(),
            rows.words.as_ptr(),
            rows.words.len(),
            out.as_mut_ptr(),
            out.len(),
        )
    }
    .result()
}

pub fn read_text(text: &[u8], rows: Room<'_>) -> Result<Headings, Refusal> {
    unsafe {
        raw::irwystl_read_text(
            text.as_ptr(),
            text.len(),
            rows.masks.as_mut_ptr(),
            rows.masks.len(),
            rows.values.as_mut_ptr(),
            rows.values.len(),
            rows.words.as_mut_ptr(),
            rows.words.len(),
        )
    }
    .result()
}

pub fn sheet(
    n: usize,
    k: usize,
    block_type: usize,
    w: usize,
    rows: Rows<'_>,
    out: &mut [u8],
) -> Result<usize, Refusal> {
    unsafe {
        raw::irwystl_sheet(
            n,
            k,
            block_type,
            w,
            rows.masks.as_ptr(),
            rows.masks.len(),
            rows.values.as_ptr(),
            rows.values.len(),
            rows.words.as_ptr(),
            rows.words.len(),
            out.as_mut_ptr(),
            out.len(),
        )
    }
    .result()
}

pub fn write_model(
    n: usize,
    k: usize,
    block_type: usize,
    w: usize,
    rows: Rows<'_>,
    out: &mut [u8],
) -> Result<usize, Refusal> {
    unsafe {
        raw::irwystl_write_model(
            n,
            k,
            block_type,
            w,
            rows.masks.as_ptr(),
            rows.masks.len(),
            rows.values.as_ptr(),
            rows.values.len(),
            rows.words.as_ptr(),
            rows.words.len(),
            out.as_mut_ptr(),
            out.len(),
        )
    }
    .result()
}

/// What a model says: the rows of sigma, how many patterns each output has, and the
/// patterns of all outputs one after the other, in rooms for that many each. Refuses
/// with 10, 5 and 8.
///
/// ```
/// use irwystl::flat::{model_value, read_model};
/// let text = b".model block\n.inputs x0\n.outputs y0\n\
///     .names x0 z0\n1 1\n.names z0 y0\n0 1\n.end\n";
/// let [mut matrix, mut masks, mut values] = [[0]; 3];
/// let mut counts = [0];
/// let size = read_model(text, &mut matrix, &mut counts, &mut masks, &mut values)?;
/// assert_eq!((size.n, size.k, size.patterns), (1, 1, 1));
/// assert_eq!((matrix, counts, masks, values), ([1], [1], [1], [0]));
/// assert_eq!(model_value(1, 1, 0, &matrix, &counts, &masks, &values), Ok(1));
/// assert_eq!(model_value(1, 1, 1, &matrix, &counts, &masks, &values), Ok(0));
/// # Ok::<(), irwystl::Refusal>(())
/// ```
pub fn read_model(
    text: &[u8],
    matrix: &mut [u32],
    counts: &mut [usize],
    masks: &mut [u32],
    values: &mut [u32],
) -> Result<ModelSize, Refusal> {
    unsafe {
        raw::irwystl_read_model(
            text.as_ptr(),
            text.len(),
            matrix.as_mut_ptr(),
            matrix.len(),
            counts.as_mut_ptr(),
            counts.len(),
            masks.as_mut_ptr(),
            masks.len(),
            values.as_mut_ptr(),
            values.len(),
        )
    }
    .result()
}

/// The word at x of a model of n inputs and k outputs: n rows of sigma, k counts, and
/// as many patterns as these say. Masks and values of unequal length hold no pattern.
/// Refuses with 1, 2, 3 (x), 4, 6 (the matrix, then the patterns) and 8.
pub fn model_value(
    n: usize,
    k: usize,
    x: usize,
    matrix: &[u32],
    counts: &[usize],
    masks: &[u32],
    values: &[u32],
) -> Result<u64, Refusal> {
    unsafe {
        raw::irwystl_model_value(
            n,
            k,
            x,
            matrix.as_ptr(),
            matrix.len(),
            counts.as_ptr(),
            counts.len(),
            masks.as_ptr(),
            masks.len(),
            values.as_ptr(),
            values.len(),
        )
    }
    .result()
}
