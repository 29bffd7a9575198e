//! The table of times.

use std::time::Duration;

/// A line of the table.
pub struct Line {
    pub name: String,
    pub ours: Duration,
    pub rust: Duration,
    /// Times of other calls or of another implementation, each under its name.
    pub beside: Vec<(String, Duration)>,
}

/// A table under its title: name, our time, Rust's time, how many times as long ours
/// is, and the times beside, which have the same names in every line.
pub fn table(title: &str, lines: &[Line]) -> String {
    let names = lines.iter().map(|line| line.name.as_str());
    let width = names.chain([title]).map(str::len).max().unwrap_or(0);
    let row = |name: &str, ours: &str, rust: &str, ratio: &str, beside: &str| {
        format!("{name:width$}  {ours:>10}  {rust:>10}  {ratio:>6}{beside}\n")
    };
    let first = lines.first().map_or(&[][..], |line| &line.beside);
    let names: String = first.iter().map(|(name, _)| column(name, name)).collect();
    let mut table = row(title, "ours", "Rust", "ratio", &names);
    for line in lines {
        let ratio = line.ours.as_secs_f64() / line.rust.as_secs_f64();
        let [ours, rust] = [shown(line.ours), shown(line.rust)];
        let times = line.beside.iter();
        let times: String = times
            .map(|(name, time)| column(name, &shown(*time)))
            .collect();
        table += &row(&line.name, &ours, &rust, &format!("{ratio:.2}"), &times);
    }
    table
}

/// A text in the column of this name.
fn column(name: &str, text: &str) -> String {
    let width = name.len().max(10);
    format!("  {text:>width$}")
}

/// A time in the unit that suits it.
fn shown(time: Duration) -> String {
    let micros = time.as_secs_f64() * 1e6;
    if micros < 1_000.0 {
        format!("{micros:.1} us")
    } else if micros < 1_000_000.0 {
        format!("{:.2} ms", micros / 1e3)
    } else {
        format!("{:.2} s", micros / 1e6)
    }
}
