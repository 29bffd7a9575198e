//! Models in BLIF: written, read, and asked for words.

use crate::{flat, raw, read_text, Refusal, Row};
use crate::{MODEL_ROOM, MOST_LIST_INPUTS, MOST_OUTPUTS, MOST_ROWS};

/// A pattern of an output, over the rows of sigma: the mask of its fixed symbols and
/// their values (0 outside the mask), that of z0 being the lowest bit.
#[derive(Clone, Copy, Debug, Default, PartialEq, Eq, Hash)]
pub struct Pattern {
    pub mask: u32,
    pub values: u32,
}

/// A model that was read ([`read_model`]): an XOR front end sigma, and for each output
/// its patterns. Output j is 1 at x where one of its patterns has sigma x.
#[derive(Clone, Debug, PartialEq, Eq)]
pub struct Model {
    matrix: Vec<u32>,
    counts: Vec<usize>,
    masks: Vec<u32>,
    values: Vec<u32>,
}

impl Model {
    /// The number of inputs.
    pub fn inputs(&self) -> usize {
        self.matrix.len()
    }

    /// The number of outputs.
    pub fn outputs(&self) -> usize {
        self.counts.len()
    }

    /// The rows of sigma: bit j of sigma x is the parity of (row j AND x).
    pub fn matrix(&self) -> &[u32] {
        &self.matrix
    }

    /// How many patterns each output has, lowest output first.
    pub fn counts(&self) -> &[usize] {
        &self.counts
    }

    /// The patterns of an output, in their order; none where there is no such output.
    pub fn patterns(&self, output: usize) -> impl Iterator<Item = Pattern> + '_ {
        let before: usize = self.counts.iter().take(output).sum();
        let count = self.counts.get(output).copied().unwrap_or(0);
        let all = self.masks.iter().zip(&self.values);
        let patterns = all.map(|(&mask, &values)| Pattern { mask, values });
        patterns.skip(before).take(count)
    }

    /// The word at x. Refuses with 3, where x is not below 2^n.
    pub fn word(&self, x: usize) -> Result<u32, Refusal> {
        let [n, k] = [self.inputs(), self.outputs()];
        let word = flat::model_value(
            n,
            k,
            x,
            &self.matrix,
            &self.counts,
            &self.masks,
            &self.values,
        );
        // a word has at most 15 bits
        word.map(|word| word as u32)
    }
}

/// The model of a list of 1 to 128 rows with weight limit w, for the T of its
/// [`sheet`](crate::sheet()): the number of its bytes. Evaluated at x it gives the
/// block's word, wherever the block has an output. `out` is room for this model;
/// [`MODEL_ROOM`] bytes are enough for any. Refuses with 1, 2, 3 (the type, w), 4, 6,
/// 7, 11, 9 and, last, 5.
///
/// ```
/// use irwystl::{write_model, Row, FD, MODEL_ROOM};
/// // 01 and 10 have word 1: the XOR of the two inputs
/// let rows = [Row { mask: 3, values: 1, word: 1 }, Row { mask: 3, values: 2, word: 1 }];
/// let mut out = vec![0; MODEL_ROOM];
/// let count = write_model(2, 1, FD, 2, &rows, &mut out)?;
/// let model = String::from_utf8_lossy(&out[..count]);
/// assert!(model.contains(".names x1 z0\n1 1\n.names x0 x1 z1\n01 1\n10 1\n"));
/// assert!(model.ends_with(".names z0 z1 y0\n01 1\n11 1\n.end\n"));
/// # Ok::<(), irwystl::Refusal>(())
/// ```
pub fn write_model(
    n: usize,
    k: usize,
    block_type: usize,
    w: usize,
    rows: &[Row],
    out: &mut [u8],
) -> Result<usize, Refusal> {
    unsafe {
        raw::irwystl_records_write_model(
            n,
            k,
            block_type,
            w,
            rows.as_ptr(),
            rows.len(),
            out.as_mut_ptr(),
            out.len(),
        )
    }
    .result()
}

/// What a model says. Read is the form that [`write_model`] writes, and no other BLIF;
/// the patterns may be any, and an output may have none. Refuses with 10 and 8.
/// ([`flat::read_model`] reads into rooms of the caller's.)
///
/// ```
/// use irwystl::{model_of, read_model, Pattern, Refusal};
/// let text = model_of(b".i 2\n.o 1\n.p 2\n01 1\n10 1\n.e\n")?;
/// let model = read_model(text.as_bytes())?;
/// assert_eq!(model.matrix(), [2, 3]);
/// let patterns: Vec<Pattern> = model.patterns(0).collect();
/// assert_eq!(patterns[1], Pattern { mask: 3, values: 3 });
/// let words: Vec<u32> = (0..4).flat_map(|x| model.word(x)).collect();
/// assert_eq!(words, [0, 1, 1, 0]);
/// assert_eq!(model.word(4), Err(Refusal::Limit));
/// assert_eq!(read_model(b".model block\n"), Err(Refusal::Line { line: 2 }));
/// # Ok::<(), irwystl::Refusal>(())
/// ```
pub fn read_model(text: &[u8]) -> Result<Model, Refusal> {
    let mut matrix = vec![0; MOST_LIST_INPUTS];
    let mut counts = vec![0; MOST_OUTPUTS];
    // the line of a pattern has at least four bytes
    let most = text.len() / 4;
    let [mut masks, mut values] = [vec![0; most], vec![0; most]];
    let size = flat::read_model(text, &mut matrix, &mut counts, &mut masks, &mut values)?;
    matrix.truncate(size.n);
    counts.truncate(size.k);
    masks.truncate(size.patterns);
    values.truncate(size.patterns);
    Ok(Model {
        matrix,
        counts,
        masks,
        values,
    })
}

/// The model of a text, with the weight limit of [`print_text`](crate::print_text).
/// Refuses with 10, 1, 2, 4, 7, 11 and 9.
///
/// ```
/// let model = irwystl::model_of(b".i 1\n.o 1\n.p 1\n0 1\n.e\n")?;
/// let lines: Vec<&str> = model.lines().collect();
/// assert_eq!(lines[..3], [".model block", ".inputs x0", ".outputs y0"]);
/// assert_eq!(lines[3..], [".names x0 z0", "1 1", ".names z0 y0", "0 1", ".end"]);
/// # Ok::<(), irwystl::Refusal>(())
/// ```
pub fn model_of(text: &[u8]) -> Result<String, Refusal> {
    let mut rows = [Row::default(); MOST_ROWS];
    let told = read_text(text, &mut rows)?;
    // the headings tell no more rows than were read
    let rows = rows.get(..told.count).unwrap_or(&[]);
    let mut out = vec![0; MODEL_ROOM];
    let count = write_model(
        told.n,
        told.k,
        told.block_type,
        told.n.min(3),
        rows,
        &mut out,
    )?;
    out.truncate(count);
    // a model is ASCII
    Ok(String::from_utf8_lossy(&out).into_owned())
}
