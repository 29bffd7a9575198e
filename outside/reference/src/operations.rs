//! All operations under one trait, each operation on rows in both forms, so that
//! one test or one timing runs over any implementation of 01 and 02.

use crate::{
    Answer, Flat, FlatRoom, Measures, ModelHead, Reason, Row, Smaller, TextHead, ROW_INPUTS,
};

/// An implementation of 01 and 02. What a function is lent and gives is said at the
/// function of the same name in this library.
pub trait Operations {
    fn table_value(n: usize, k: usize, block_type: usize, t: usize, table: &[u16]) -> Answer<u64>;

    fn table_spectrum(
        n: usize,
        k: usize,
        block_type: usize,
        table: &[u16],
        values: &mut [u32],
        working: &mut [i32],
    ) -> Answer<()>;

    fn table_method(
        n: usize,
        k: usize,
        block_type: usize,
        w: usize,
        table: &[u16],
        smaller: &mut [u16],
        columns: &mut [u32],
        sigma: &mut [u32],
    ) -> Answer<Measures>;

    fn restore(
        n: usize,
        k: usize,
        block_type: usize,
        sigma: &[u32],
        smaller: &[u16],
        table: &mut [u16],
    ) -> Answer<()>;

    fn symmetric_block(
        n: usize,
        k: usize,
        block_type: usize,
        words: &[u16],
        table: &mut [u16],
        smaller: &mut [u16],
    ) -> Answer<Measures>;

    fn table_symmetric(n: usize, k: usize, block_type: usize, table: &[u16]) -> Answer<bool>;

    fn row_value(n: usize, k: usize, block_type: usize, t: usize, rows: Flat) -> Answer<u64>;

    fn row_value_records(
        n: usize,
        k: usize,
        block_type: usize,
        t: usize,
        rows: &[Row],
    ) -> Answer<u64>;

    fn row_method(
        n: usize,
        k: usize,
        block_type: usize,
        w: usize,
        rows: Flat,
        smaller: FlatRoom,
        columns: &mut [u32],
        sigma: &mut [u32],
    ) -> Answer<Smaller>;

    fn row_method_records(
        n: usize,
        k: usize,
        block_type: usize,
        w: usize,
        rows: &[Row],
        smaller: &mut [Row],
        columns: &mut [u32],
        sigma: &mut [u32],
    ) -> Answer<Smaller>;

    fn why_not(
        n: usize,
        k: usize,
        block_type: usize,
        w: usize,
        t: usize,
        rows: Flat,
        taken: &mut [u32; ROW_INPUTS],
    ) -> Answer<Option<Reason>>;

    fn why_not_records(
        n: usize,
        k: usize,
        block_type: usize,
        w: usize,
        t: usize,
        rows: &[Row],
        taken: &mut [u32; ROW_INPUTS],
    ) -> Answer<Option<Reason>>;

    fn join(n: usize, k: usize, rows: FlatRoom) -> Answer<usize>;

    fn join_records(n: usize, k: usize, rows: &mut [Row]) -> Answer<usize>;

    fn disjoin(n: usize, k: usize, rows: Flat, disjoint: FlatRoom) -> Answer<usize>;

    fn disjoin_records(n: usize, k: usize, rows: &[Row], disjoint: &mut [Row]) -> Answer<usize>;

    fn fill(n: usize, k: usize, block_type: usize, rows: Flat, table: &mut [u16]) -> Answer<()>;

    fn fill_records(
        n: usize,
        k: usize,
        block_type: usize,
        rows: &[Row],
        table: &mut [u16],
    ) -> Answer<()>;

    fn read_text(text: &[u8], room: FlatRoom) -> Answer<TextHead>;

    fn read_text_records(text: &[u8], room: &mut [Row]) -> Answer<TextHead>;

    fn write_text(
        n: usize,
        k: usize,
        block_type: usize,
        type_line: usize,
        rows: Flat,
        text: &mut [u8],
    ) -> Answer<usize>;

    fn write_text_records(
        n: usize,
        k: usize,
        block_type: usize,
        type_line: usize,
        rows: &[Row],
        text: &mut [u8],
    ) -> Answer<usize>;

    fn sheet(
        n: usize,
        k: usize,
        block_type: usize,
        w: usize,
        rows: Flat,
        bytes: &mut [u8],
    ) -> Answer<usize>;

    fn sheet_records(
        n: usize,
        k: usize,
        block_type: usize,
        w: usize,
        rows: &[Row],
        bytes: &mut [u8],
    ) -> Answer<usize>;

    fn program(input: &[u8]) -> Vec<u8>;

    fn write_model(
        n: usize,
        k: usize,
        block_type: usize,
        w: usize,
        rows: Flat,
        bytes: &mut [u8],
    ) -> Answer<usize>;

    fn write_model_records(
        n: usize,
        k: usize,
        block_type: usize,
        w: usize,
        rows: &[Row],
        bytes: &mut [u8],
    ) -> Answer<usize>;

    fn read_model(
        text: &[u8],
        matrix: &mut [u32],
        counts: &mut [usize],
        masks: &mut [u32],
        values: &mut [u32],
    ) -> Answer<ModelHead>;

    fn model_value(
        n: usize,
        k: usize,
        x: usize,
        matrix: &[u32],
        counts: &[usize],
        masks: &[u32],
        values: &[u32],
    ) -> Answer<u64>;

    fn print_model(input: &[u8]) -> Vec<u8>;

    fn print_joined(input: &[u8]) -> Vec<u8>;

    fn print_disjoint(input: &[u8]) -> Vec<u8>;
}

/// The operations that are written to be read beside 01.
pub struct Plain;

/// The operations that are written for speed.
pub struct Fast;

/// The trait for a type, from the functions of a module.
macro_rules! operations_of {
    ($name:ident, $module:path) => {
        impl Operations for $name {
            fn table_value(
                n: usize,
                k: usize,
                block_type: usize,
                t: usize,
                table: &[u16],
            ) -> Answer<u64> {
                use $module as operations;
                operations::table_value(n, k, block_type, t, table)
            }

            fn table_spectrum(
                n: usize,
                k: usize,
                block_type: usize,
                table: &[u16],
                values: &mut [u32],
                working: &mut [i32],
            ) -> Answer<()> {
                use $module as operations;
                operations::table_spectrum(n, k, block_type, table, values, working)
            }

            fn table_method(
                n: usize,
                k: usize,
                block_type: usize,
                w: usize,
                table: &[u16],
                smaller: &mut [u16],
                columns: &mut [u32],
                sigma: &mut [u32],
            ) -> Answer<Measures> {
                use $module as operations;
                operations::table_method(n, k, block_type, w, table, smaller, columns, sigma)
            }

            fn restore(
                n: usize,
                k: usize,
                block_type: usize,
                sigma: &[u32],
                smaller: &[u16],
                table: &mut [u16],
            ) -> Answer<()> {
                use $module as operations;
                operations::restore(n, k, block_type, sigma, smaller, table)
            }

            fn symmetric_block(
                n: usize,
                k: usize,
                block_type: usize,
                words: &[u16],
                table: &mut [u16],
                smaller: &mut [u16],
            ) -> Answer<Measures> {
                use $module as operations;
                operations::symmetric_block(n, k, block_type, words, table, smaller)
            }

            fn table_symmetric(
                n: usize,
                k: usize,
                block_type: usize,
                table: &[u16],
            ) -> Answer<bool> {
                use $module as operations;
                operations::table_symmetric(n, k, block_type, table)
            }

            fn row_value(
                n: usize,
                k: usize,
                block_type: usize,
                t: usize,
                rows: Flat,
            ) -> Answer<u64> {
                use $module as operations;
                operations::row_value(n, k, block_type, t, rows)
            }

            fn row_value_records(
                n: usize,
                k: usize,
                block_type: usize,
                t: usize,
                rows: &[Row],
            ) -> Answer<u64> {
                use $module as operations;
                operations::row_value(n, k, block_type, t, rows)
            }

            fn row_method(
                n: usize,
                k: usize,
                block_type: usize,
                w: usize,
                rows: Flat,
                smaller: FlatRoom,
                columns: &mut [u32],
                sigma: &mut [u32],
            ) -> Answer<Smaller> {
                use $module as operations;
                operations::row_method(n, k, block_type, w, rows, smaller, columns, sigma)
            }

            fn row_method_records(
                n: usize,
                k: usize,
                block_type: usize,
                w: usize,
                rows: &[Row],
                smaller: &mut [Row],
                columns: &mut [u32],
                sigma: &mut [u32],
            ) -> Answer<Smaller> {
                use $module as operations;
                operations::row_method(n, k, block_type, w, rows, smaller, columns, sigma)
            }

            fn why_not(
                n: usize,
                k: usize,
                block_type: usize,
                w: usize,
                t: usize,
                rows: Flat,
                taken: &mut [u32; ROW_INPUTS],
            ) -> Answer<Option<Reason>> {
                use $module as operations;
                operations::why_not(n, k, block_type, w, t, rows, taken)
            }

            fn why_not_records(
                n: usize,
                k: usize,
                block_type: usize,
                w: usize,
                t: usize,
                rows: &[Row],
                taken: &mut [u32; ROW_INPUTS],
            ) -> Answer<Option<Reason>> {
                use $module as operations;
                operations::why_not(n, k, block_type, w, t, rows, taken)
            }

            fn join(n: usize, k: usize, rows: FlatRoom) -> Answer<usize> {
                use $module as operations;
                operations::join(n, k, rows)
            }

            fn join_records(n: usize, k: usize, rows: &mut [Row]) -> Answer<usize> {
                use $module as operations;
                operations::join(n, k, rows)
            }

            fn disjoin(n: usize, k: usize, rows: Flat, disjoint: FlatRoom) -> Answer<usize> {
                use $module as operations;
                operations::disjoin(n, k, rows, disjoint)
            }

            fn disjoin_records(
                n: usize,
                k: usize,
                rows: &[Row],
                disjoint: &mut [Row],
            ) -> Answer<usize> {
                use $module as operations;
                operations::disjoin(n, k, rows, disjoint)
            }

            fn fill(
                n: usize,
                k: usize,
                block_type: usize,
                rows: Flat,
                table: &mut [u16],
            ) -> Answer<()> {
                use $module as operations;
                operations::fill(n, k, block_type, rows, table)
            }

            fn fill_records(
                n: usize,
                k: usize,
                block_type: usize,
                rows: &[Row],
                table: &mut [u16],
            ) -> Answer<()> {
                use $module as operations;
                operations::fill(n, k, block_type, rows, table)
            }

            fn read_text(text: &[u8], room: FlatRoom) -> Answer<TextHead> {
                use $module as operations;
                operations::read_text(text, room)
            }

            fn read_text_records(text: &[u8], room: &mut [Row]) -> Answer<TextHead> {
                use $module as operations;
                operations::read_text(text, room)
            }

            fn write_text(
                n: usize,
                k: usize,
                block_type: usize,
                type_line: usize,
                rows: Flat,
                text: &mut [u8],
            ) -> Answer<usize> {
                use $module as operations;
                operations::write_text(n, k, block_type, type_line, rows, text)
            }

            fn write_text_records(
                n: usize,
                k: usize,
                block_type: usize,
                type_line: usize,
                rows: &[Row],
                text: &mut [u8],
            ) -> Answer<usize> {
                use $module as operations;
                operations::write_text(n, k, block_type, type_line, rows, text)
            }

            fn sheet(
                n: usize,
                k: usize,
                block_type: usize,
                w: usize,
                rows: Flat,
                bytes: &mut [u8],
            ) -> Answer<usize> {
                use $module as operations;
                operations::sheet(n, k, block_type, w, rows, bytes)
            }

            fn sheet_records(
                n: usize,
                k: usize,
                block_type: usize,
                w: usize,
                rows: &[Row],
                bytes: &mut [u8],
            ) -> Answer<usize> {
                use $module as operations;
                operations::sheet(n, k, block_type, w, rows, bytes)
            }

            fn program(input: &[u8]) -> Vec<u8> {
                use $module as operations;
                operations::program(input)
            }

            fn write_model(
                n: usize,
                k: usize,
                block_type: usize,
                w: usize,
                rows: Flat,
                bytes: &mut [u8],
            ) -> Answer<usize> {
                use $module as operations;
                operations::write_model(n, k, block_type, w, rows, bytes)
            }

            fn write_model_records(
                n: usize,
                k: usize,
                block_type: usize,
                w: usize,
                rows: &[Row],
                bytes: &mut [u8],
            ) -> Answer<usize> {
                use $module as operations;
                operations::write_model(n, k, block_type, w, rows, bytes)
            }

            fn read_model(
                text: &[u8],
                matrix: &mut [u32],
                counts: &mut [usize],
                masks: &mut [u32],
                values: &mut [u32],
            ) -> Answer<ModelHead> {
                use $module as operations;
                operations::read_model(text, matrix, counts, masks, values)
            }

            fn model_value(
                n: usize,
                k: usize,
                x: usize,
                matrix: &[u32],
                counts: &[usize],
                masks: &[u32],
                values: &[u32],
            ) -> Answer<u64> {
                use $module as operations;
                operations::model_value(n, k, x, matrix, counts, masks, values)
            }

            fn print_model(input: &[u8]) -> Vec<u8> {
                use $module as operations;
                operations::print_model(input)
            }

            fn print_joined(input: &[u8]) -> Vec<u8> {
                use $module as operations;
                operations::print_joined(input)
            }

            fn print_disjoint(input: &[u8]) -> Vec<u8> {
                use $module as operations;
                operations::print_disjoint(input)
            }
        }
    };
}

operations_of!(Plain, crate::plain);
operations_of!(Fast, crate::fast);
