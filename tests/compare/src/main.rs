//! The comparison's command line: check, record, normal-forms, differences, share.

mod compare;
mod differences;
mod evaluate;
mod face;
mod generate;
mod image;
mod judge;
mod listing;
mod net;
mod normal_forms;
mod notation;
mod panics;
mod record;
mod rng;
mod room;
mod selfcheck;
mod shrink;
mod tally;
mod trees;

use std::io::Read;
use std::path::{Path, PathBuf};
use std::process::ExitCode;

use compare::Until;
use tally::Tally;

const USAGE: &str = "compare check --root FOLDER [--seed N] [--seconds N | --count N]
compare record --root FOLDER [--seed N]
compare normal-forms --root FOLDER
compare differences [--seed N]
compare share    what the program share prints for standard input
FOLDER is the repository: recorded answers and lists stand under its crates.";

struct Options {
    root: PathBuf,
    seed: u64,
    until: Until,
}

/// The words behind the command; none if there is one that is not known.
fn options(words: &[String]) -> Option<Options> {
    let mut options = Options {
        root: PathBuf::from("../.."),
        seed: 1,
        until: Until::Seconds(45),
    };
    for pair in words.chunks(2) {
        let [name, value] = pair else {
            return None;
        };
        match name.as_str() {
            "--root" => options.root = PathBuf::from(value),
            "--seed" => options.seed = value.parse().ok()?,
            "--seconds" => options.until = Until::Seconds(value.parse().ok()?),
            "--count" => options.until = Until::Count(value.parse().ok()?),
            _ => return None,
        }
    }
    Some(options)
}

fn main() -> ExitCode {
    panics::install();
    let words: Vec<String> = std::env::args().skip(1).collect();
    let known = words.split_first().and_then(|(command, rest)| {
        let options = options(rest)?;
        Some((command.as_str(), options))
    });
    let Some((command, options)) = known else {
        eprintln!("{USAGE}");
        return ExitCode::from(2);
    };
    match command {
        "check" => check(&options),
        "record" => {
            record::write(&recorded(&options.root), options.seed);
            let mut tally = Tally::default();
            record::verify(&mut tally, &recorded(&options.root));
            tally.line("read back");
            status(&tally)
        }
        "normal-forms" => {
            let count = normal_forms::write(&lists(&options.root));
            println!("{count} gates");
            ExitCode::SUCCESS
        }
        "share" => {
            let mut bytes = Vec::new();
            std::io::stdin().read_to_end(&mut bytes).unwrap();
            print!("{}", listing::share_program(&bytes));
            ExitCode::SUCCESS
        }
        "differences" => {
            differences::show(options.seed, 100_000);
            ExitCode::SUCCESS
        }
        _ => {
            eprintln!("{USAGE}");
            ExitCode::from(2)
        }
    }
}

fn recorded(root: &Path) -> PathBuf {
    root.join("crates").join("replay").join("data")
}

fn lists(root: &Path) -> PathBuf {
    root.join("crates").join("normal_forms")
}

fn status(tally: &Tally) -> ExitCode {
    if tally.failed == 0 {
        ExitCode::SUCCESS
    } else {
        ExitCode::FAILURE
    }
}

/// Self-checks, the files in the repository, then the library.
fn check(options: &Options) -> ExitCode {
    let networks = match options.until {
        Until::Seconds(seconds) => 40 * seconds,
        Until::Count(count) => count,
    };
    let mut all = selfcheck::run(options.seed, networks.max(2_000));
    let mut files = Tally::default();
    record::verify(&mut files, &recorded(&options.root));
    files.line("recorded answers against the judge");
    all.add(&files);
    let mut forms = Tally::default();
    normal_forms::verify(&mut forms, &lists(&options.root));
    forms.line("list of normal forms against the judge");
    all.add(&forms);
    all.add(&compare::run(options.seed, options.until));
    println!("{} passed, {} failed", all.passed, all.failed);
    status(&all)
}
