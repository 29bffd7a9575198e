//! The product's operations, from its static library, as one more implementation
//! of 01 and 02: so that the tests and the times that are written over
//! `reference::Operations` run over the product too. The functions are those that
//! the Rust binding declares, as C has them: with a refusal, too, every result
//! that comes back is looked at.

use irwystl::raw::{
    self, DisjoinAnswer, JoinAnswer, ModelAnswer, ReadAnswer, RowMethodAnswer, TableMethodAnswer,
    TextAnswer, ValueAnswer, WhyAnswer,
};
use reference::{
    Answer, Flat, FlatRoom, Measures, ModelHead, Operations, Reason, Row, Smaller, TextHead,
    MODEL_ROOM, ROW_INPUTS, SHEET_ROOM, TEXT_ROOM,
};

/// The product.
pub struct Product;

/// Number and places, with results.
fn answer<R>(number: u32, a: usize, b: usize, results: R) -> Answer<R> {
    Answer {
        number,
        a: a as u32,
        b: b as u32,
        results,
    }
}

fn plain(r: raw::Answer) -> Answer<()> {
    answer(r.number, r.a, r.b, ())
}

fn value(r: ValueAnswer) -> Answer<u64> {
    answer(r.number, r.a, r.b, r.value)
}

/// A value that is 1 for yes, and else 0.
fn yes(r: ValueAnswer) -> Answer<bool> {
    assert!(r.value <= 1, "neither yes nor no: {}", r.value);
    answer(r.number, r.a, r.b, r.value == 1)
}

fn measures(r: TableMethodAnswer) -> Answer<Measures> {
    let [before, after] = [r.before, r.after];
    answer(r.number, r.a, r.b, Measures { before, after })
}

fn smaller_rows(r: RowMethodAnswer) -> Answer<Smaller> {
    let results = Smaller {
        before: r.before,
        after: r.after,
        rows: r.count,
    };
    answer(r.number, r.a, r.b, results)
}

/// A reason, or none, with its step and its set, which are 0 where it has none.
fn why(r: WhyAnswer) -> Answer<Option<Reason>> {
    let reason = match (r.reason, r.step, r.set) {
        (0, 0, 0) => None,
        (raw::ZERO, 0, 0) => Some(Reason::Zero),
        (raw::OVER, 0, 0) => Some(Reason::Over),
        (raw::TAKEN, step, 0) => Some(Reason::Taken { step }),
        (raw::XOR, 0, set) => Some(Reason::Xor { set }),
        other => panic!("no reason, step and set: {other:?}"),
    };
    answer(r.number, r.a, r.b, reason)
}

fn rows_left(r: JoinAnswer) -> Answer<usize> {
    answer(r.number, r.a, r.b, r.count)
}

fn rows_made(r: DisjoinAnswer) -> Answer<usize> {
    answer(r.number, r.a, r.b, r.count)
}

fn bytes_written(r: TextAnswer) -> Answer<usize> {
    answer(r.number, r.a, r.b, r.count)
}

fn head(r: ReadAnswer) -> Answer<TextHead> {
    let results = TextHead {
        n: r.n,
        k: r.k,
        block_type: r.block_type,
        type_line: r.type_line,
        rows: r.count,
    };
    answer(r.number, r.a, r.b, results)
}

fn model_head(r: ModelAnswer) -> Answer<ModelHead> {
    let results = ModelHead {
        n: r.n,
        k: r.k,
        patterns: r.patterns,
    };
    answer(r.number, r.a, r.b, results)
}

/// Records as the binding has them: the same three numbers in the same order.
fn given(rows: &[Row]) -> *const irwystl::Row {
    rows.as_ptr().cast()
}

fn lent(rows: &mut [Row]) -> *mut irwystl::Row {
    rows.as_mut_ptr().cast()
}

/// Every pointer below comes from a slice that is lent for the whole call,
/// together with that slice's length, or from an array of the length that is asked for,
/// and nothing that is written overlaps another.
impl Operations for Product {
    fn table_value(n: usize, k: usize, block_type: usize, t: usize, table: &[u16]) -> Answer<u64> {
        value(unsafe { raw::irwystl_table_value(n, k, block_type, t, table.as_ptr(), table.len()) })
    }

    fn table_spectrum(
        n: usize,
        k: usize,
        block_type: usize,
        table: &[u16],
        values: &mut [u32],
        working: &mut [i32],
    ) -> Answer<()> {
        plain(unsafe {
            raw::irwystl_table_spectrum(
                n,
                k,
                block_type,
                table.as_ptr(),
                table.len(),
                values.as_mut_ptr(),
                values.len(),
                working.as_mut_ptr(),
                working.len(),
            )
        })
    }

    fn table_method(
        n: usize,
        k: usize,
        block_type: usize,
        w: usize,
        table: &[u16],
        smaller: &mut [u16],
        columns: &mut [u32],
        sigma: &mut [u32],
    ) -> Answer<Measures> {
        measures(unsafe {
            raw::irwystl_table_method(
                n,
                k,
                block_type,
                w,
                table.as_ptr(),
                table.len(),
                columns.as_mut_ptr(),
                columns.len(),
                sigma.as_mut_ptr(),
                sigma.len(),
                smaller.as_mut_ptr(),
                smaller.len(),
            )
        })
    }

    fn restore(
        n: usize,
        k: usize,
        block_type: usize,
        sigma: &[u32],
        smaller: &[u16],
        table: &mut [u16],
    ) -> Answer<()> {
        plain(unsafe {
            raw::irwystl_restore_table(
                n,
                k,
                block_type,
                sigma.as_ptr(),
                sigma.len(),
                smaller.as_ptr(),
                smaller.len(),
                table.as_mut_ptr(),
                table.len(),
            )
        })
    }

    fn symmetric_block(
        n: usize,
        k: usize,
        block_type: usize,
        words: &[u16],
        table: &mut [u16],
        smaller: &mut [u16],
    ) -> Answer<Measures> {
        measures(unsafe {
            raw::irwystl_symmetric_block(
                n,
                k,
                block_type,
                words.as_ptr(),
                words.len(),
                table.as_mut_ptr(),
                table.len(),
                smaller.as_mut_ptr(),
                smaller.len(),
            )
        })
    }

    fn table_symmetric(n: usize, k: usize, block_type: usize, table: &[u16]) -> Answer<bool> {
        yes(unsafe { raw::irwystl_table_symmetric(n, k, block_type, table.as_ptr(), table.len()) })
    }

    fn row_value(n: usize, k: usize, block_type: usize, t: usize, rows: Flat) -> Answer<u64> {
        value(unsafe {
            raw::irwystl_row_value(
                n,
                k,
                block_type,
                t,
                rows.masks.as_ptr(),
                rows.masks.len(),
                rows.values.as_ptr(),
                rows.values.len(),
                rows.words.as_ptr(),
                rows.words.len(),
            )
        })
    }

    fn row_value_records(
        n: usize,
        k: usize,
        block_type: usize,
        t: usize,
        rows: &[Row],
    ) -> Answer<u64> {
        value(unsafe {
            raw::irwystl_records_row_value(n, k, block_type, t, given(rows), rows.len())
        })
    }

    fn row_method(
        n: usize,
        k: usize,
        block_type: usize,
        w: usize,
        rows: Flat,
        smaller: FlatRoom,
        columns: &mut [u32],
        sigma: &mut [u32],
    ) -> Answer<Smaller> {
        smaller_rows(unsafe {
            raw::irwystl_row_method(
                n,
                k,
                block_type,
                w,
                rows.masks.as_ptr(),
                rows.masks.len(),
                rows.values.as_ptr(),
                rows.values.len(),
                rows.words.as_ptr(),
                rows.words.len(),
                columns.as_mut_ptr(),
                columns.len(),
                sigma.as_mut_ptr(),
                sigma.len(),
                smaller.masks.as_mut_ptr(),
                smaller.masks.len(),
                smaller.values.as_mut_ptr(),
                smaller.values.len(),
                smaller.words.as_mut_ptr(),
                smaller.words.len(),
            )
        })
    }

    fn row_method_records(
        n: usize,
        k: usize,
        block_type: usize,
        w: usize,
        rows: &[Row],
        smaller: &mut [Row],
        columns: &mut [u32],
        sigma: &mut [u32],
    ) -> Answer<Smaller> {
        smaller_rows(unsafe {
            raw::irwystl_records_row_method(
                n,
                k,
                block_type,
                w,
                given(rows),
                rows.len(),
                columns.as_mut_ptr(),
                columns.len(),
                sigma.as_mut_ptr(),
                sigma.len(),
                lent(smaller),
                smaller.len(),
            )
        })
    }

    fn why_not(
        n: usize,
        k: usize,
        block_type: usize,
        w: usize,
        t: usize,
        rows: Flat,
        taken: &mut [u32; ROW_INPUTS],
    ) -> Answer<Option<Reason>> {
        why(unsafe {
            raw::irwystl_why_not(
                n,
                k,
                block_type,
                w,
                t,
                rows.masks.as_ptr(),
                rows.masks.len(),
                rows.values.as_ptr(),
                rows.values.len(),
                rows.words.as_ptr(),
                rows.words.len(),
                taken.as_mut_ptr(),
            )
        })
    }

    fn why_not_records(
        n: usize,
        k: usize,
        block_type: usize,
        w: usize,
        t: usize,
        rows: &[Row],
        taken: &mut [u32; ROW_INPUTS],
    ) -> Answer<Option<Reason>> {
        why(unsafe {
            raw::irwystl_records_why_not(
                n,
                k,
                block_type,
                w,
                t,
                given(rows),
                rows.len(),
                taken.as_mut_ptr(),
            )
        })
    }

    fn join(n: usize, k: usize, rows: FlatRoom) -> Answer<usize> {
        rows_left(unsafe {
            raw::irwystl_join_rows(
                n,
                k,
                rows.masks.as_mut_ptr(),
                rows.masks.len(),
                rows.values.as_mut_ptr(),
                rows.values.len(),
                rows.words.as_mut_ptr(),
                rows.words.len(),
            )
        })
    }

    fn join_records(n: usize, k: usize, rows: &mut [Row]) -> Answer<usize> {
        rows_left(unsafe { raw::irwystl_records_join_rows(n, k, lent(rows), rows.len()) })
    }

    fn disjoin(n: usize, k: usize, rows: Flat, disjoint: FlatRoom) -> Answer<usize> {
        rows_made(unsafe {
            raw::irwystl_disjoin_rows(
                n,
                k,
                rows.masks.as_ptr(),
                rows.masks.len(),
                rows.values.as_ptr(),
                rows.values.len(),
                rows.words.as_ptr(),
                rows.words.len(),
                disjoint.masks.as_mut_ptr(),
                disjoint.masks.len(),
                disjoint.values.as_mut_ptr(),
                disjoint.values.len(),
                disjoint.words.as_mut_ptr(),
                disjoint.words.len(),
            )
        })
    }

    fn disjoin_records(n: usize, k: usize, rows: &[Row], disjoint: &mut [Row]) -> Answer<usize> {
        let length = disjoint.len();
        rows_made(unsafe {
            raw::irwystl_records_disjoin_rows(n, k, given(rows), rows.len(), lent(disjoint), length)
        })
    }

    fn fill(n: usize, k: usize, block_type: usize, rows: Flat, table: &mut [u16]) -> Answer<()> {
        plain(unsafe {
            raw::irwystl_fill_table(
                n,
                k,
                block_type,
                rows.masks.as_ptr(),
                rows.masks.len(),
                rows.values.as_ptr(),
                rows.values.len(),
                rows.words.as_ptr(),
                rows.words.len(),
                table.as_mut_ptr(),
                table.len(),
            )
        })
    }

    fn fill_records(
        n: usize,
        k: usize,
        block_type: usize,
        rows: &[Row],
        table: &mut [u16],
    ) -> Answer<()> {
        plain(unsafe {
            raw::irwystl_records_fill_table(
                n,
                k,
                block_type,
                given(rows),
                rows.len(),
                table.as_mut_ptr(),
                table.len(),
            )
        })
    }

    fn read_text(text: &[u8], room: FlatRoom) -> Answer<TextHead> {
        head(unsafe {
            raw::irwystl_read_text(
                text.as_ptr(),
                text.len(),
                room.masks.as_mut_ptr(),
                room.masks.len(),
                room.values.as_mut_ptr(),
                room.values.len(),
                room.words.as_mut_ptr(),
                room.words.len(),
            )
        })
    }

    fn read_text_records(text: &[u8], room: &mut [Row]) -> Answer<TextHead> {
        head(unsafe {
            raw::irwystl_records_read_text(text.as_ptr(), text.len(), lent(room), room.len())
        })
    }

    fn write_text(
        n: usize,
        k: usize,
        block_type: usize,
        type_line: usize,
        rows: Flat,
        text: &mut [u8],
    ) -> Answer<usize> {
        bytes_written(unsafe {
            raw::irwystl_write_text(
                n,
                k,
                block_type,
                type_line,
                rows.masks.as_ptr(),
                rows.masks.len(),
                rows.values.as_ptr(),
                rows.values.len(),
                rows.words.as_ptr(),
                rows.words.len(),
                text.as_mut_ptr(),
                text.len(),
            )
        })
    }

    fn write_text_records(
        n: usize,
        k: usize,
        block_type: usize,
        type_line: usize,
        rows: &[Row],
        text: &mut [u8],
    ) -> Answer<usize> {
        bytes_written(unsafe {
            raw::irwystl_records_write_text(
                n,
                k,
                block_type,
                type_line,
                given(rows),
                rows.len(),
                text.as_mut_ptr(),
                text.len(),
            )
        })
    }

    fn sheet(
        n: usize,
        k: usize,
        block_type: usize,
        w: usize,
        rows: Flat,
        bytes: &mut [u8],
    ) -> Answer<usize> {
        bytes_written(unsafe {
            raw::irwystl_sheet(
                n,
                k,
                block_type,
                w,
                rows.masks.as_ptr(),
                rows.masks.len(),
                rows.values.as_ptr(),
                rows.values.len(),
                rows.words.as_ptr(),
                rows.words.len(),
                bytes.as_mut_ptr(),
                bytes.len(),
            )
        })
    }

    fn sheet_records(
        n: usize,
        k: usize,
        block_type: usize,
        w: usize,
        rows: &[Row],
        bytes: &mut [u8],
    ) -> Answer<usize> {
        bytes_written(unsafe {
            raw::irwystl_records_sheet(
                n,
                k,
                block_type,
                w,
                given(rows),
                rows.len(),
                bytes.as_mut_ptr(),
                bytes.len(),
            )
        })
    }

    fn program(input: &[u8]) -> Vec<u8> {
        let mut out = vec![0; SHEET_ROOM];
        let count =
            unsafe { raw::irwystl_print_text(input.as_ptr(), input.len(), out.as_mut_ptr()) };
        out.truncate(count);
        out
    }

    fn write_model(
        n: usize,
        k: usize,
        block_type: usize,
        w: usize,
        rows: Flat,
        bytes: &mut [u8],
    ) -> Answer<usize> {
        bytes_written(unsafe {
            raw::irwystl_write_model(
                n,
                k,
                block_type,
                w,
                rows.masks.as_ptr(),
                rows.masks.len(),
                rows.values.as_ptr(),
                rows.values.len(),
                rows.words.as_ptr(),
                rows.words.len(),
                bytes.as_mut_ptr(),
                bytes.len(),
            )
        })
    }

    fn write_model_records(
        n: usize,
        k: usize,
        block_type: usize,
        w: usize,
        rows: &[Row],
        bytes: &mut [u8],
    ) -> Answer<usize> {
        bytes_written(unsafe {
            raw::irwystl_records_write_model(
                n,
                k,
                block_type,
                w,
                given(rows),
                rows.len(),
                bytes.as_mut_ptr(),
                bytes.len(),
            )
        })
    }

    fn read_model(
        text: &[u8],
        matrix: &mut [u32],
        counts: &mut [usize],
        masks: &mut [u32],
        values: &mut [u32],
    ) -> Answer<ModelHead> {
        model_head(unsafe {
            raw::irwystl_read_model(
                text.as_ptr(),
                text.len(),
                matrix.as_mut_ptr(),
                matrix.len(),
                counts.as_mut_ptr(),
                counts.len(),
                masks.as_mut_ptr(),
                masks.len(),
                values.as_mut_ptr(),
                values.len(),
            )
        })
    }

    fn model_value(
        n: usize,
        k: usize,
        x: usize,
        matrix: &[u32],
        counts: &[usize],
        masks: &[u32],
        values: &[u32],
    ) -> Answer<u64> {
        value(unsafe {
            raw::irwystl_model_value(
                n,
                k,
                x,
                matrix.as_ptr(),
                matrix.len(),
                counts.as_ptr(),
                counts.len(),
                masks.as_ptr(),
                masks.len(),
                values.as_ptr(),
                values.len(),
            )
        })
    }

    fn print_model(input: &[u8]) -> Vec<u8> {
        let mut out = vec![0; MODEL_ROOM];
        let count =
            unsafe { raw::irwystl_print_model(input.as_ptr(), input.len(), out.as_mut_ptr()) };
        out.truncate(count);
        out
    }

    fn print_joined(input: &[u8]) -> Vec<u8> {
        let mut out = vec![0; TEXT_ROOM];
        let count =
            unsafe { raw::irwystl_print_joined(input.as_ptr(), input.len(), out.as_mut_ptr()) };
        out.truncate(count);
        out
    }

    fn print_disjoint(input: &[u8]) -> Vec<u8> {
        let mut out = vec![0; TEXT_ROOM];
        let count =
            unsafe { raw::irwystl_print_disjoint(input.as_ptr(), input.len(), out.as_mut_ptr()) };
        out.truncate(count);
        out
    }
}
