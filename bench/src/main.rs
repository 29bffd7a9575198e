//! Times of the product's operations beside those of plain Rust
//! (`reference::Fast`), on the same inputs in the same run.
//!
//! `bench/run [RUNS]`: each time is the median of so many runs, 15 where none is
//! given.

mod calls;
mod inputs;
mod print;
mod timing;

use calls::Call;
use inputs::Table;
use print::Line;
use product::Product;
use reference::{Fast, Plain};
use std::process::ExitCode;
use std::time::Duration;

fn main() -> ExitCode {
    let runs = match std::env::args().nth(1).map(|runs| runs.parse()) {
        None => 15,
        Some(Ok(runs)) if runs > 0 => runs,
        Some(_) => {
            eprintln!("the number of runs is a whole number from 1 on");
            return ExitCode::FAILURE;
        }
    };
    let tables: Vec<String> = inputs::tables()
        .iter()
        .map(|Table { title, calls }| {
            let lines: Vec<Line> = calls.iter().map(|call| line(call, runs)).collect();
            print::table(title, &lines)
        })
        .collect();
    print!("{}", tables.join("\n"));
    ExitCode::SUCCESS
}

/// The times of a call, the product's and Rust's, the product's of those beside it, and
/// the plain operation's where it is asked for.
fn line(call: &Call, runs: usize) -> Line {
    let [rust, ours] = call.compare::<Fast, Product>(runs);
    let time = |call: &Call| (call.name.clone(), call.time::<Fast, Product>(runs));
    let mut beside: Vec<(String, Duration)> = call.beside.iter().map(time).collect();
    if call.plainly {
        beside.push(("Rust as 02 says it".into(), call.time::<Fast, Plain>(runs)));
    }
    Line {
        name: call.name.clone(),
        ours,
        rust,
        beside,
    }
}
