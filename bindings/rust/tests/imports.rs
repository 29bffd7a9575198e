//! `sheet_of` and `import_text` on the texts with answers (outside/CASES.md): the
//! sheet due, or the refusal; and the line.

use irwystl::{import_text, sheet_of, Refusal, LINE_ROOM, SHEET_ROOM};
use std::fs;
use std::path::Path;

const HELD: u8 = 0xAB;

/// The texts, each with what the program prints for it.
fn texts() -> Vec<(Vec<u8>, String)> {
    let folder = Path::new(env!("CARGO_MANIFEST_DIR")).join("../../crates/run_texts/data");
    let entries = fs::read_dir(folder)
        .unwrap()
        .map(|entry| entry.unwrap().path());
    let named = entries.filter(|path| path.extension().map_or(false, |end| end == "txt"));
    named
        .map(|path| {
            let due = fs::read_to_string(path.with_extension("sheet")).unwrap();
            (fs::read(path).unwrap(), due)
        })
        .collect()
}

/// The refusal that a printed text tells, as its line has it.
fn told(refusal: Refusal) -> String {
    let (number, a, b) = refusal.numbers();
    format!("refused {number} {a} {b}\n")
}

/// "sheet ROWS BEFORE AFTER" off a sheet.
fn measured(sheet: &str) -> String {
    let lines: Vec<&str> = sheet.lines().collect();
    let measure = lines.iter().position(|line| *line == "measure 2").unwrap();
    let rows = lines
        .iter()
        .find_map(|line| line.strip_prefix("table "))
        .unwrap();
    format!(
        "sheet {rows} {} {}\n",
        lines[measure + 1],
        lines[measure + 2]
    )
}

#[test]
fn every_text_has_its_sheet_or_refusal() {
    let texts = texts();
    for (text, due) in &texts {
        let got = sheet_of(text).unwrap_or_else(told);
        assert_eq!(&got, due);
    }
    assert_eq!(texts.len(), 319);
}

#[test]
fn every_text_is_imported_with_its_line() {
    for (text, due) in texts() {
        let mut sheet = [HELD; SHEET_ROOM];
        let mut line = [HELD; LINE_ROOM];
        let imported = import_text(b"fan.pla", &text, &mut sheet, &mut line);
        let refused = due.starts_with("refused ");
        let [due_sheet, says] = match refused {
            true => [String::new(), due],
            false => [due.clone(), measured(&due)],
        };
        assert_eq!(
            imported.sheet.map_err(told),
            if refused {
                Err(says.clone())
            } else {
                Ok(due_sheet.len())
            }
        );
        let (written, beyond) = sheet.split_at(due_sheet.len());
        assert_eq!(written, due_sheet.as_bytes());
        assert!(beyond.iter().all(|byte| *byte == HELD));
        let (written, beyond) = line.split_at(imported.line);
        assert_eq!(written, format!("fan.pla {says}").trim_end().as_bytes());
        assert!(beyond.iter().all(|byte| *byte == HELD));
    }
}

#[test]
fn refusals_name_their_places() {
    let of = |name: &str| {
        let folder = Path::new(env!("CARGO_MANIFEST_DIR")).join("../../crates/run_texts/data");
        sheet_of(&fs::read(folder.join(name)).unwrap()).unwrap_err()
    };
    assert_eq!(of("refused_1.txt"), Refusal::Inputs);
    assert_eq!(of("refused_2.txt"), Refusal::Outputs);
    assert_eq!(of("refused_4.txt"), Refusal::Count);
    assert_eq!(
        of("refused_7.txt"),
        Refusal::SharedPoint {
            first: 1,
            second: 2
        }
    );
    assert_eq!(of("0082-around_512.txt"), Refusal::TooManyRows { step: 10 });
    assert_eq!(of("refused_10.txt"), Refusal::Line { line: 5 });
}
