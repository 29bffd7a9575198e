//! `rust_import FILE..`: the bulk import as plain Rust does it, with the same
//! lines and files, for the bench to time. It has one pass: an older sheet is
//! replaced at its list's turn.

use std::fs::{self, File};
use std::io::{self, Write};
use std::path::Path;

/// What became of a file: the place of its count.
const BECAME: [&str; 3] = ["new", "changed", "unchanged"];
const REFUSED: usize = 3;
const UNREAD: usize = 4;
const UNWRITTEN: usize = 5;

fn main() {
    let mut counts = [0; 6];
    let mut left = Vec::new();
    let names: Vec<String> = std::env::args().skip(1).collect();
    for name in &names {
        let (line, became) = import(name);
        println!("{name} {line}");
        counts[became] += 1;
        if became >= REFUSED {
            left.push(name);
        }
    }
    sync_folders(&names);
    for name in left {
        println!("no current sheet: {name}");
    }
    let [new, changed, unchanged, refused, unread, unwritten] = counts;
    let sheets = new + changed + unchanged;
    println!(
        "sheets {sheets} (new {new}, changed {changed}, unchanged {unchanged}), refused {refused}, not read {unread}, not written {unwritten}, passed over 0"
    );
}

/// What is said of a file, and which count it belongs to.
fn import(name: &str) -> (String, usize) {
    let text = match fs::read(name) {
        Ok(text) => text,
        Err(why) => return (format!("can't be read: {why}"), UNREAD),
    };
    let printed = reference::fast::program(&text[..text.len().min(8_192)]);
    let words = String::from_utf8_lossy(&printed).into_owned();
    if words.starts_with("refused") {
        return (words.trim_end().to_string(), REFUSED);
    }
    let became = match fs::read(format!("{name}.sheet")) {
        Ok(older) if older == printed => 2,
        Ok(_) => 1,
        Err(_) => 0,
    };
    match write(name, &printed, became) {
        Ok(()) => {
            let line = format!("sheet {} {}", measures(&words), BECAME[became]);
            (line, became)
        }
        Err(why) => (format!("can't be written: {why}"), UNWRITTEN),
    }
}

/// The sheet, beside its list and with its permissions: to a new name first,
/// then renamed. One that is unchanged is not written.
fn write(name: &str, sheet: &[u8], became: usize) -> io::Result<()> {
    if BECAME[became] == "unchanged" {
        return Ok(());
    }
    let [new, path] = [format!("{name}.sheet.new"), format!("{name}.sheet")];
    let mut file = File::options().write(true).create_new(true).open(&new)?;
    file.set_permissions(fs::metadata(name)?.permissions())?;
    file.write_all(sheet)?;
    file.sync_all()?;
    fs::rename(new, path)
}

/// The folders, down to the device: once for lists in a row of one folder.
fn sync_folders(names: &[String]) {
    let mut last = None;
    for name in names {
        let folder = Path::new(name).parent();
        if folder != last {
            last = folder;
            let folder = folder.filter(|path| *path != Path::new(""));
            if let Ok(file) = File::open(folder.unwrap_or(Path::new("."))) {
                // a system that does not let it is left at that, as by the product
                let _ = file.sync_all();
            }
        }
    }
}

/// The number of smaller rows and the measures that a sheet has.
fn measures(sheet: &str) -> String {
    let lines: Vec<&str> = sheet.lines().collect();
    let rows = lines.iter().find_map(|line| line.strip_prefix("table "));
    format!("{} {} {}", rows.unwrap_or("0"), lines[6], lines[7])
}
