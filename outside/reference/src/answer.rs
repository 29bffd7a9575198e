//! What comes back (01, Numbers that come back): the answer, the refusal, and
//! the results of each operation that has more than one.

/// A refusal: its number, 1 to 11 or 14, and its places, 0 where not named.
#[derive(Clone, Copy, Debug, PartialEq, Eq)]
pub struct Refusal {
    pub number: u32,
    pub a: u32,
    pub b: u32,
}

impl Refusal {
    /// The refusal with this number and no places.
    pub fn plain(number: u32) -> Self {
        Self::at(number, 0, 0)
    }

    /// The refusal with this number and these places.
    pub fn at(number: u32, a: usize, b: usize) -> Self {
        // Places are indices of rows, of table entries, of patterns, of steps, of output
        // bits and of lines, so they fit for everything that fits in memory here.
        let place = |p| u32::try_from(p).expect("a place fits in 32 bits");
        Refusal {
            number,
            a: place(a),
            b: place(b),
        }
    }
}

/// An answer: number 0 with results, or a refusal's number and places with
/// every result 0.
#[derive(Clone, Copy, Debug, Default, PartialEq, Eq)]
pub struct Answer<R> {
    pub number: u32,
    pub a: u32,
    pub b: u32,
    pub results: R,
}

impl<R: Default> From<Result<R, Refusal>> for Answer<R> {
    fn from(outcome: Result<R, Refusal>) -> Self {
        match outcome {
            Ok(results) => Answer {
                number: 0,
                a: 0,
                b: 0,
                results,
            },
            Err(Refusal { number, a, b }) => Answer {
                number,
                a,
                b,
                results: R::default(),
            },
        }
    }
}

/// The measure of the block and that of the smaller block.
#[derive(Clone, Copy, Debug, Default, PartialEq, Eq)]
pub struct Measures {
    pub before: u64,
    pub after: u64,
}

/// The results of the row method: both measures and the number of smaller rows.
#[derive(Clone, Copy, Debug, Default, PartialEq, Eq)]
pub struct Smaller {
    pub before: u64,
    pub after: u64,
    pub rows: usize,
}

/// Why a number t was not taken (02, Ticket 7).
#[derive(Clone, Copy, Debug, PartialEq, Eq)]
pub enum Reason {
    /// t is 0.
    Zero,
    /// t is over the weight limit: it has more one-bits.
    Over,
    /// t was taken at this step, from 1.
    Taken { step: usize },
    /// t is the XOR of the numbers taken at the steps of this set, each of which stands
    /// before t: bit j - 1 stands for step j.
    Xor { set: u32 },
}

/// The results of reading text: inputs, outputs, the type, whether its line stood
/// there (1, else 0), and the number of rows.
#[derive(Clone, Copy, Debug, Default, PartialEq, Eq)]
pub struct TextHead {
    pub n: usize,
    pub k: usize,
    pub block_type: usize,
    pub type_line: usize,
    pub rows: usize,
}

/// The results of reading a model: inputs, outputs, and the number of patterns of
/// all outputs.
#[derive(Clone, Copy, Debug, Default, PartialEq, Eq)]
pub struct ModelHead {
    pub n: usize,
    pub k: usize,
    pub patterns: usize,
}
