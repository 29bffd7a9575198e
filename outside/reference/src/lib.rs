//! The operations of 01 in plain Rust, with the requests of 02 that are met. A
//! client gets: single values of R, R at every t of a table by its spectrum, the
//! table method, restoring, symmetric blocks by Gray decoding, the row method,
//! why a number was not taken, joining rows, making a list disjoint, filling, reading and
//! writing row text, the sheet, models in BLIF, and what the program prints. Every operation
//! takes any inputs and answers with a number, the places A and B, and its results. A type
//! goes with every list and table, but not with a list that is joined or made disjoint.
//!
//! In order: [`answer`] and [`rows`] hold what goes in and out, [`types`] what a
//! missing point means, [`checks`] the refusals, [`matrix`] the basis and its
//! inverse, [`table`] and [`list`] the operations on full tables and on rows,
//! [`spectrum`] R of a table by Walsh transforms, [`symmetric`] blocks that depend on
//! the number of one-bits alone, [`reasons`] why a number was not taken, [`joining`]
//! rows written as one, [`disjoining`] lists that overlap on purpose, [`text`], [`sheet`] and
//! [`model`] the texts.
//! These are written to be read beside 01 and take the long way wherever that
//! is the plain one. [`fast`] has the same operations as one would write them
//! for speed, [`operations`] both under one trait, [`inputs`] makes inputs
//! from a seed, [`data`] holds an implementation to the cases with answers
//! (outside/CASES.md), [`demands`] to what 02 says of its answers together, and
//! [`blif`] evaluates any BLIF of covers, whatever its names, so that a model's text is
//! judged by what it says in that language.
//!
//! Not here: anything of the proved product. The two share nothing but 01 and 02.

pub mod answer;
pub mod blif;
pub mod checks;
pub mod data;
pub mod demands;
pub mod disjoining;
pub mod fast;
pub mod inputs;
pub mod joining;
pub mod list;
pub mod matrix;
pub mod model;
pub mod operations;
pub mod reasons;
pub mod rows;
pub mod sheet;
pub mod spectrum;
pub mod symmetric;
pub mod table;
pub mod text;
pub mod types;

pub use answer::{Answer, Measures, ModelHead, Reason, Refusal, Smaller, TextHead};
pub use operations::{Fast, Operations, Plain};
pub use plain::*;
pub use rows::{Flat, FlatRoom, List, Room, Row};
pub use types::{missing, FD, FR};

/// The operations that are written to be read beside 01.
mod plain {
    pub use crate::disjoining::{disjoin, print_disjoint};
    pub use crate::joining::{join, print_joined};
    pub use crate::list::{fill, row_method, row_value};
    pub use crate::model::{model_value, print_model, read_model, write_model};
    pub use crate::reasons::why_not;
    pub use crate::sheet::{program, sheet};
    pub use crate::spectrum::table_spectrum;
    pub use crate::symmetric::{symmetric_block, table_symmetric};
    pub use crate::table::{restore, table_method, table_value};
    pub use crate::text::{read_text, write_text};
}

/// The table entry that stands for no output (01, Words and numbers).
pub const NO_OUTPUT: u16 = 65_535;

/// Most inputs of the row method, its single values, why a number was not taken, joining,
/// disjoining, text and sheet.
pub const ROW_INPUTS: usize = 16;

/// Most inputs of the table method, its single values, its spectrum, filling,
/// restoring, symmetric blocks.
pub const TABLE_INPUTS: usize = 12;

/// Most outputs.
pub const OUTPUTS: usize = 15;

/// Most rows given, but for filling and joining; most rows of a disjoint list, and the room
/// to lend for them.
pub const ROWS: usize = 128;

/// Most rows given for filling.
pub const FILL_ROWS: usize = 512;

/// Most rows given for joining: those of a smaller block.
pub const JOIN_ROWS: usize = SMALLER_ROWS;

/// Most rows of a smaller block, and the room to lend for them.
pub const SMALLER_ROWS: usize = 512;

/// The room to lend for writing row text.
pub const TEXT_ROOM: usize = 4_255;

/// The room to lend for a sheet.
pub const SHEET_ROOM: usize = 17_518;

/// Room for any model that is written: 16 inputs, 15 outputs and 512 smaller rows
/// give no longer one. A model asks for its own length alone.
pub const MODEL_ROOM: usize = 156_420;

/// The program reads at most this many bytes.
pub const PROGRAM_READS: usize = 8_192;
