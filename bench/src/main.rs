//! Our entries and the Rust on the same images: answers compared, then times or instructions.

// The judge's modules, as they stand.
#[allow(dead_code)]
#[path = "../../tests/compare/src/evaluate.rs"]
mod evaluate;
#[allow(dead_code)]
#[path = "../../tests/compare/src/generate/mod.rs"]
mod generate;
#[allow(dead_code)]
#[path = "../../tests/compare/src/image.rs"]
mod image;
#[allow(dead_code)]
#[path = "../../tests/compare/src/judge.rs"]
mod judge;
#[allow(dead_code)]
#[path = "../../tests/compare/src/net.rs"]
mod net;
#[allow(dead_code)]
#[path = "../../tests/compare/src/notation.rs"]
mod notation;
#[allow(dead_code)]
#[path = "../../tests/compare/src/rng.rs"]
mod rng;
#[allow(dead_code)]
#[path = "../../tests/compare/src/room.rs"]
mod room;
#[path = "../../tests/compare/src/trees.rs"]
mod trees;

mod cases;
mod compare;
mod measure;
mod ours;
mod plain;
mod table;
mod work;

use std::path::PathBuf;
use std::process::ExitCode;

const USAGE: &str = "bench compare           compare the answers of both sides on every network
bench count FOLDER      each piece of work once under callgrind; its names go to FOLDER/names
bench time [FOLDER]     time every piece of work; instructions are taken from FOLDER";

fn main() -> ExitCode {
    let words: Vec<String> = std::env::args().skip(1).collect();
    let words: Vec<&str> = words.iter().map(String::as_str).collect();
    let cases = cases::all();
    match words[..] {
        ["compare"] => return compare::all(&cases),
        ["count", folder] => measure::count(&cases, &PathBuf::from(folder)),
        ["time"] => table::print(&cases, None),
        ["time", folder] => table::print(&cases, Some(&PathBuf::from(folder))),
        _ => {
            eprintln!("{USAGE}");
            return ExitCode::from(2);
        }
    }
    ExitCode::SUCCESS
}
