//! Why a call is refused.

use std::fmt;

/// Why a call is refused, with the places that it names. docs/REFUSALS.md says
/// of each what to do about it.
#[derive(Clone, Copy, Debug, PartialEq, Eq, Hash)]
pub enum Refusal {
    /// 1: the number of inputs n is out of range.
    Inputs,
    /// 2: the number of outputs k is out of range.
    Outputs,
    /// 3: the weight limit w is not 1 to n, t or x is not below 2^n, the type is
    /// neither [`FR`](crate::FR) nor [`FD`](crate::FD), or the line of
    /// [`FR`](crate::FR) is left out in writing.
    Limit,
    /// 4: no row or too many, flat rows of unequal length, a table without 2^n
    /// entries, a matrix without n rows, a symmetric block without n + 1 words, not as
    /// many counts as outputs or patterns as they say.
    Count,
    /// 5: the room lent for a result, or to work in, is too short.
    Room,
    /// 6: a row, a table entry or a pattern, counted from 0, is malformed.
    Record { index: usize },
    /// 6: the word that a symmetric block has for this count of ones is malformed.
    Word { count: usize },
    /// 6: a row of the matrix, counted from 0, is not below 2^n.
    MatrixRow { index: usize },
    /// 7: two rows, counted from 0, share a point.
    SharedPoint { first: usize, second: usize },
    /// 8: a row of the matrix, counted from 0, is the XOR of some rows before
    /// it, or 0.
    DependentRow { index: usize },
    /// 9: at this step, counted from 1, the smaller rows pass 512.
    TooManyRows { step: usize },
    /// 10: a line of the text, counted from 1, is not of the form due there.
    Line { line: usize },
    /// 11: an output bit, counted from 0, is 0 in every row's word, so that no row drives
    /// that column; the lowest such bit. Looked for after 7 and before 9.
    UndrivenColumn { bit: usize },
    /// 14: more than 128 rows would come out of the list that is made disjoint.
    TooManyDisjoint,
}

impl Refusal {
    /// The number and the two places, as the program prints them: "refused N A B".
    pub fn numbers(self) -> (u32, usize, usize) {
        match self {
            Refusal::Inputs => (1, 0, 0),
            Refusal::Outputs => (2, 0, 0),
            Refusal::Limit => (3, 0, 0),
            Refusal::Count => (4, 0, 0),
            Refusal::Room => (5, 0, 0),
            Refusal::Record { index } => (6, 0, index),
            Refusal::Word { count } => (6, 0, count),
            Refusal::MatrixRow { index } => (6, 1, index),
            Refusal::SharedPoint { first, second } => (7, first, second),
            Refusal::DependentRow { index } => (8, index, 0),
            Refusal::TooManyRows { step } => (9, step, 0),
            Refusal::Line { line } => (10, line, 0),
            Refusal::UndrivenColumn { bit } => (11, bit, 0),
            Refusal::TooManyDisjoint => (14, 0, 0),
        }
    }

    /// The refusal of a number and its places; none for 0. Above 11 the library gives no
    /// number but 14, so the last case is 14.
    pub(crate) fn of(number: u32, a: usize, b: usize) -> Option<Refusal> {
        Some(match number {
            0 => return None,
            1 => Refusal::Inputs,
            2 => Refusal::Outputs,
            3 => Refusal::Limit,
            4 => Refusal::Count,
            5 => Refusal::Room,
            6 if a == 0 => Refusal::Record { index: b },
            6 => Refusal::MatrixRow { index: b },
            7 => Refusal::SharedPoint {
                first: a,
                second: b,
            },
            8 => Refusal::DependentRow { index: a },
            9 => Refusal::TooManyRows { step: a },
            10 => Refusal::Line { line: a },
            11 => Refusal::UndrivenColumn { bit: a },
            _ => Refusal::TooManyDisjoint,
        })
    }

    /// The refusal of a call whose records are the words of a symmetric block.
    pub(crate) fn of_words(self) -> Refusal {
        match self {
            Refusal::Record { index } => Refusal::Word { count: index },
            other => other,
        }
    }
}

impl fmt::Display for Refusal {
    fn fmt(&self, out: &mut fmt::Formatter<'_>) -> fmt::Result {
        match self {
            Refusal::Inputs => write!(out, "the number of inputs is out of range"),
            Refusal::Outputs => write!(out, "the number of outputs is out of range"),
            Refusal::Limit => write!(out, "the weight limit, t, x or the type is out of range"),
            Refusal::Count => {
                write!(
                    out,
                    "the number of rows, entries, words or patterns is out of range"
                )
            }
            Refusal::Room => {
                write!(out, "the room lent for a result or to work in is too short")
            }
            Refusal::Record { index } => {
                write!(out, "record {index}, counted from 0, is malformed")
            }
            Refusal::Word { count } => write!(out, "the word for count {count} is malformed"),
            Refusal::MatrixRow { index } => {
                write!(out, "matrix row {index}, counted from 0, is malformed")
            }
            Refusal::SharedPoint { first, second } => {
                write!(
                    out,
                    "rows {first} and {second}, counted from 0, share a point"
                )
            }
            Refusal::DependentRow { index } => {
                write!(
                    out,
                    "matrix row {index}, counted from 0, is the XOR of some before it, or 0"
                )
            }
            Refusal::TooManyRows { step } => {
                write!(out, "at step {step} the smaller rows pass 512")
            }
            Refusal::Line { line } => write!(out, "line {line} is not of the form due there"),
            Refusal::UndrivenColumn { bit } => write!(out, "no row drives output bit {bit}"),
            Refusal::TooManyDisjoint => {
                write!(
                    out,
                    "more than 128 rows would come out of the disjoint list"
                )
            }
        }
    }
}

impl std::error::Error for Refusal {}
