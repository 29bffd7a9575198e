//! The functions of the static library as C has them: bindings/c/irwystl.h says
//! what each does and asks for. The functions of this crate call these, and need
//! no `unsafe`.

use crate::{Headings, Imported, Measures, ModelSize, Reason, Refusal, Row, Smaller, Taken, Why};

#[repr(C)]
#[derive(Clone, Copy, Debug, PartialEq, Eq)]
pub struct Answer {
    pub number: u32,
    pub a: usize,
    pub b: usize,
}

#[repr(C)]
#[derive(Clone, Copy, Debug, PartialEq, Eq)]
pub struct ValueAnswer {
    pub number: u32,
    pub a: usize,
    pub b: usize,
    pub value: u64,
}

#[repr(C)]
#[derive(Clone, Copy, Debug, PartialEq, Eq)]
pub struct TableMethodAnswer {
    pub number: u32,
    pub a: usize,
    pub b: usize,
    pub before: u64,
    pub after: u64,
}

#[repr(C)]
#[derive(Clone, Copy, Debug, PartialEq, Eq)]
pub struct RowMethodAnswer {
    pub number: u32,
    pub a: usize,
    pub b: usize,
    pub before: u64,
    pub after: u64,
    pub count: usize,
}

/// The reason of a [`WhyAnswer`]: t is 0.
pub const ZERO: u32 = 1;

/// The reason of a [`WhyAnswer`]: t has more one-bits than the weight limit.
pub const OVER: u32 = 2;

/// The reason of a [`WhyAnswer`]: t was taken at the step that is named.
pub const TAKEN: u32 = 3;

/// The reason of a [`WhyAnswer`]: t is the XOR of the numbers of the set that is named.
pub const XOR: u32 = 4;

#[repr(C)]
#[derive(Clone, Copy, Debug, PartialEq, Eq)]
pub struct WhyAnswer {
    pub number: u32,
    pub a: usize,
    pub b: usize,
    pub reason: u32,
    pub step: usize,
    pub set: u32,
}

#[repr(C)]
#[derive(Clone, Copy, Debug, PartialEq, Eq)]
pub struct JoinAnswer {
    pub number: u32,
    pub a: usize,
    pub b: usize,
    pub count: usize,
}

#[repr(C)]
#[derive(Clone, Copy, Debug, PartialEq, Eq)]
pub struct DisjoinAnswer {
    pub number: u32,
    pub a: usize,
    pub b: usize,
    pub count: usize,
}

#[repr(C)]
#[derive(Clone, Copy, Debug, PartialEq, Eq)]
pub struct TextAnswer {
    pub number: u32,
    pub a: usize,
    pub b: usize,
    pub count: usize,
}

#[repr(C)]
#[derive(Clone, Copy, Debug, PartialEq, Eq)]
pub struct ReadAnswer {
    pub number: u32,
    pub a: usize,
    pub b: usize,
    pub n: usize,
    pub k: usize,
    pub block_type: usize,
    pub type_line: usize,
    pub count: usize,
}

#[repr(C)]
#[derive(Clone, Copy, Debug, PartialEq, Eq)]
pub struct ModelAnswer {
    pub number: u32,
    pub a: usize,
    pub b: usize,
    pub n: usize,
    pub k: usize,
    pub patterns: usize,
}

#[repr(C)]
#[derive(Clone, Copy, Debug, PartialEq, Eq)]
pub struct ImportAnswer {
    pub number: u32,
    pub a: usize,
    pub b: usize,
    pub count: usize,
    pub length: usize,
}

/// The results, or why there are none.
fn result<R>(number: u32, a: usize, b: usize, results: R) -> Result<R, Refusal> {
    Refusal::of(number, a, b).map_or(Ok(results), Err)
}

impl Answer {
    pub(crate) fn result(self) -> Result<(), Refusal> {
        result(self.number, self.a, self.b, ())
    }
}

impl ValueAnswer {
    pub(crate) fn result(self) -> Result<u64, Refusal> {
        result(self.number, self.a, self.b, self.value)
    }
}

impl TableMethodAnswer {
    pub(crate) fn result(self) -> Result<Measures, Refusal> {
        let [before, after] = [self.before, self.after];
        result(self.number, self.a, self.b, Measures { before, after })
    }
}

impl RowMethodAnswer {
    pub(crate) fn result(self) -> Result<Smaller, Refusal> {
        let smaller = Smaller {
            before: self.before,
            after: self.after,
            count: self.count,
        };
        result(self.number, self.a, self.b, smaller)
    }
}

impl WhyAnswer {
    /// With the numbers that were taken, of which there are n in an answer. The library
    /// gives no reason above 4, so the last case is 4.
    pub(crate) fn result(self, n: usize, taken: &[u32]) -> Result<Why, Refusal> {
        let taken = taken.iter().take(n).copied();
        let steps = (1..).zip(taken.clone());
        let in_set = steps.filter(|(step, _)| self.set >> (step - 1) & 1 == 1);
        let reason = match self.reason {
            ZERO => Reason::Zero,
            OVER => Reason::Over,
            TAKEN => Reason::Taken { step: self.step },
            _ => Reason::Xor {
                of: in_set
                    .map(|(step, number)| Taken { step, number })
                    .collect(),
            },
        };
        let why = Why {
            reason,
            taken: taken.collect(),
        };
        result(self.number, self.a, self.b, why)
    }
}

impl JoinAnswer {
    pub(crate) fn result(self) -> Result<usize, Refusal> {
        result(self.number, self.a, self.b, self.count)
    }
}

impl DisjoinAnswer {
    pub(crate) fn result(self) -> Result<usize, Refusal> {
        result(self.number, self.a, self.b, self.count)
    }
}

impl TextAnswer {
    pub(crate) fn result(self) -> Result<usize, Refusal> {
        result(self.number, self.a, self.b, self.count)
    }
}

impl ReadAnswer {
    pub(crate) fn result(self) -> Result<Headings, Refusal> {
        let told = Headings {
            n: self.n,
            k: self.k,
            block_type: self.block_type,
            type_line: self.type_line,
            count: self.count,
        };
        result(self.number, self.a, self.b, told)
    }
}

impl ModelAnswer {
    pub(crate) fn result(self) -> Result<ModelSize, Refusal> {
        let size = ModelSize {
            n: self.n,
            k: self.k,
            patterns: self.patterns,
        };
        result(self.number, self.a, self.b, size)
    }
}

impl ImportAnswer {
    pub(crate) fn result(self) -> Imported {
        Imported {
            sheet: result(self.number, self.a, self.b, self.count),
            line: self.length,
        }
    }
}

extern "C" {
    pub fn irwystl_table_value(
        n: usize,
        k: usize,
        block_type: usize,
        t: usize,
        table: *const u16,
        table_length: usize,
    ) -> ValueAnswer;

    pub fn irwystl_table_spectrum(
        n: usize,
        k: usize,
        block_type: usize,
        table: *const u16,
        table_length: usize,
        values: *mut u32,
        values_length: usize,
        working: *mut i32,
        working_length: usize,
    ) -> Answer;

    pub fn irwystl_table_method(
        n: usize,
        k: usize,
        block_type: usize,
        w: usize,
        table: *const u16,
        table_length: usize,
        basis: *mut u32,
        basis_length: usize,
        sigma: *mut u32,
        sigma_length: usize,
        smaller: *mut u16,
        smaller_length: usize,
    ) -> TableMethodAnswer;

    pub fn irwystl_restore_table(
        n: usize,
        k: usize,
        block_type: usize,
        sigma: *const u32,
        sigma_length: usize,
        smaller: *const u16,
        smaller_length: usize,
        table: *mut u16,
        table_length: usize,
    ) -> Answer;

    pub fn irwystl_symmetric_block(
        n: usize,
        k: usize,
        block_type: usize,
        words: *const u16,
        words_length: usize,
        table: *mut u16,
        table_length: usize,
        smaller: *mut u16,
        smaller_length: usize,
    ) -> TableMethodAnswer;

    pub fn irwystl_table_symmetric(
        n: usize,
        k: usize,
        block_type: usize,
        table: *const u16,
        table_length: usize,
    ) -> ValueAnswer;

    pub fn irwystl_records_row_value(
        n: usize,
        k: usize,
        block_type: usize,
        t: usize,
        rows: *const Row,
        rows_length: usize,
    ) -> ValueAnswer;

    pub fn irwystl_records_row_method(
        n: usize,
        k: usize,
        block_type: usize,
        w: usize,
        rows: *const Row,
        rows_length: usize,
        basis: *mut u32,
        basis_length: usize,
        sigma: *mut u32,
        sigma_length: usize,
        smaller: *mut Row,
        smaller_length: usize,
    ) -> RowMethodAnswer;

    pub fn irwystl_records_why_not(
        n: usize,
        k: usize,
        block_type: usize,
        w: usize,
        t: usize,
        rows: *const Row,
        rows_length: usize,
        taken: *mut u32,
    ) -> WhyAnswer;

    pub fn irwystl_records_join_rows(
        n: usize,
        k: usize,
        rows: *mut Row,
        rows_length: usize,
    ) -> JoinAnswer;

    pub fn irwystl_records_disjoin_rows(
        n: usize,
        k: usize,
        rows: *const Row,
        rows_length: usize,
        disjoint: *mut Row,
        disjoint_length: usize,
    ) -> DisjoinAnswer;

    pub fn irwystl_records_fill_table(
        n: usize,
        k: usize,
        block_type: usize,
        rows: *const Row,
        rows_length: usize,
        table: *mut u16,
        table_length: usize,
    ) -> Answer;

    pub fn irwystl_records_write_text(
        n: usize,
        k: usize,
        block_type: usize,
        type_line: usize,
        rows: *const Row,
        rows_length: usize,
        out: *mut u8,
        out_length: usize,
    ) -> TextAnswer;

    pub fn irwystl_records_read_text(
        text: *const u8,
        text_length: usize,
        rows: *mut Row,
        rows_length: usize,
    ) -> ReadAnswer;

    pub fn irwystl_records_sheet(
        n: usize,
        k: usize,
        block_type: usize,
        w: usize,
        rows: *const Row,
        rows_length: usize,
        out: *mut u8,
        out_length: usize,
    ) -> TextAnswer;

    pub fn irwystl_records_write_model(
        n: usize,
        k: usize,
        block_type: usize,
        w: usize,
        rows: *const Row,
        rows_length: usize,
        out: *mut u8,
        out_length: usize,
    ) -> TextAnswer;

    pub fn irwystl_row_value(
        n: usize,
        k: usize,
        block_type: usize,
        t: usize,
        masks: *const u32,
        masks_length: usize,
        values: *const u32,
        values_length: usize,
        words: *const u32,
        words_length: usize,
    ) -> ValueAnswer;

    pub fn irwystl_row_method(
        n: usize,
        k: usize,
        block_type: usize,
        w: usize,
        masks: *const u32,
        masks_length: usize,
        values: *const u32,
        values_length: usize,
        words: *const u32,
        words_length: usize,
        basis: *mut u32,
        basis_length: usize,
        sigma: *mut u32,
        sigma_length: usize,
        smaller_masks: *mut u32,
        smaller_masks_length: usize,
        smaller_values: *mut u32,
        smaller_values_length: usize,
        smaller_words: *mut u32,
        smaller_words_length: usize,
    ) -> RowMethodAnswer;

    pub fn irwystl_why_not(
        n: usize,
        k: usize,
        block_type: usize,
        w: usize,
        t: usize,
        masks: *const u32,
        masks_length: usize,
        values: *const u32,
        values_length: usize,
        words: *const u32,
        words_length: usize,
        taken: *mut u32,
    ) -> WhyAnswer;

    pub fn irwystl_join_rows(
        n: usize,
        k: usize,
        masks: *mut u32,
        masks_length: usize,
        values: *mut u32,
        values_length: usize,
        words: *mut u32,
        words_length: usize,
    ) -> JoinAnswer;

    pub fn irwystl_disjoin_rows(
        n: usize,
        k: usize,
        masks: *const u32,
        masks_length: usize,
        values: *const u32,
        values_length: usize,
        words: *const u32,
        words_length: usize,
        disjoint_masks: *mut u32,
        disjoint_masks_length: usize,
        disjoint_values: *mut u32,
        disjoint_values_length: usize,
        disjoint_words: *mut u32,
        disjoint_words_length: usize,
    ) -> DisjoinAnswer;

    pub fn irwystl_fill_table(
        n: usize,
        k: usize,
        block_type: usize,
        masks: *const u32,
        masks_length: usize,
        values: *const u32,
        values_length: usize,
        words: *const u32,
        words_length: usize,
        table: *mut u16,
        table_length: usize,
    ) -> Answer;

    pub fn irwystl_write_text(
        n: usize,
        k: usize,
        block_type: usize,
        type_line: usize,
        masks: *const u32,
        masks_length: usize,
        values: *const u32,
        values_length: usize,
        words: *const u32,
        words_length: usize,
        out: *mut u8,
        out_length: usize,
    ) -> TextAnswer;

    pub fn irwystl_read_text(
        text: *const u8,
        text_length: usize,
        masks: *mut u32,
        masks_length: usize,
        values: *mut u32,
        values_length: usize,
        words: *mut u32,
        words_length: usize,
    ) -> ReadAnswer;

    pub fn irwystl_sheet(
        n: usize,
        k: usize,
        block_type: usize,
        w: usize,
        masks: *const u32,
        masks_length: usize,
        values: *const u32,
        values_length: usize,
        words: *const u32,
        words_length: usize,
        out: *mut u8,
        out_length: usize,
    ) -> TextAnswer;

    pub fn irwystl_write_model(
        n: usize,
        k: usize,
        block_type: usize,
        w: usize,
        masks: *const u32,
        masks_length: usize,
        values: *const u32,
        values_length: usize,
        words: *const u32,
        words_length: usize,
        out: *mut u8,
        out_length: usize,
    ) -> TextAnswer;

    pub fn irwystl_read_model(
        text: *const u8,
        text_length: usize,
        matrix: *mut u32,
        matrix_length: usize,
        counts: *mut usize,
        counts_length: usize,
        masks: *mut u32,
        masks_length: usize,
        values: *mut u32,
        values_length: usize,
    ) -> ModelAnswer;

    pub fn irwystl_model_value(
        n: usize,
        k: usize,
        x: usize,
        matrix: *const u32,
        matrix_length: usize,
        counts: *const usize,
        counts_length: usize,
        masks: *const u32,
        masks_length: usize,
        values: *const u32,
        values_length: usize,
    ) -> ValueAnswer;

    pub fn irwystl_print_text(text: *const u8, text_length: usize, out: *mut u8) -> usize;

    pub fn irwystl_print_model(text: *const u8, text_length: usize, out: *mut u8) -> usize;

    pub fn irwystl_print_joined(text: *const u8, text_length: usize, out: *mut u8) -> usize;

    pub fn irwystl_print_disjoint(text: *const u8, text_length: usize, out: *mut u8) -> usize;

    pub fn irwystl_import_text(
        name: *const u8,
        name_length: usize,
        text: *const u8,
        text_length: usize,
        sheet: *mut u8,
        line: *mut u8,
    ) -> ImportAnswer;
}
