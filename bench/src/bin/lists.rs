//! `lists FOLDER`: writes the 300 row texts of the bench to files of a folder,
//! for the bulk import.

use reference::inputs::{driven_text, Random};
use std::path::Path;
use std::process::ExitCode;

fn main() -> ExitCode {
    let folder = match std::env::args().nth(1) {
        Some(folder) => folder,
        None => {
            eprintln!("lists FOLDER");
            return ExitCode::FAILURE;
        }
    };
    for seed in 0..300 {
        let file = Path::new(&folder).join(format!("{seed:03}.pla"));
        if let Err(why) = std::fs::write(&file, driven_text(&mut Random::new(seed))) {
            eprintln!("{}: {why}", file.display());
            return ExitCode::FAILURE;
        }
    }
    ExitCode::SUCCESS
}
