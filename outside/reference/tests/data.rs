//! The reference against the cases with answers (outside/CASES.md).

use reference::data::{check_lists, check_models, check_operations};
use reference::{Fast, Plain};

#[test]
fn every_operation_has_the_answer_due() {
    check_operations::<Plain>();
}

#[test]
fn every_fast_operation_has_the_answer_due() {
    check_operations::<Fast>();
}

#[test]
fn every_list_has_the_sheet_due() {
    check_lists::<Plain>();
}

#[test]
fn every_list_has_the_sheet_due_fast() {
    check_lists::<Fast>();
}

#[test]
fn every_model_is_the_one_due() {
    check_models::<Plain>();
}

#[test]
fn every_model_is_the_one_due_fast() {
    check_models::<Fast>();
}
