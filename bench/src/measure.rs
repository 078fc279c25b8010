//! Times by the clock, and instructions by callgrind.

use std::collections::HashMap;
use std::fs;
use std::hint::black_box;
use std::path::Path;
use std::time::{Duration, Instant};

use crate::cases::Case;
use crate::work::{rows, Row, Work};

const ROUNDS: usize = 25;
/// How long the runs of one round take, at least, and how many they are at most.
const ROUND: Duration = Duration::from_micros(500);
const MOST: usize = 1_000;

/// Callgrind writes a file whenever this is entered: what was executed since the time before.
#[no_mangle]
#[inline(never)]
pub extern "C" fn bench_mark() {
    black_box(());
}

/// The three sides of a row, in the order of the columns.
fn sides<'a, 'b>(row: &'b mut Row<'a>) -> Vec<(&'static str, &'b mut Box<dyn Work + 'a>)> {
    let all = [
        ("ours", &mut row.ours),
        ("reader", &mut row.reader),
        ("alone", &mut row.alone),
    ];
    let there = all
        .into_iter()
        .filter_map(|(name, w)| Some((name, w.as_mut()?)));
    there.collect()
}

fn name(case: &Case, row: &str, side: &str) -> String {
    format!("{}|{row}|{side}", case.name)
}

fn round(work: &mut dyn Work, runs: usize) -> Duration {
    work.prepare(runs);
    let start = Instant::now();
    for _ in 0..runs {
        work.run();
    }
    start.elapsed()
}

/// Nanoseconds for one run of each side: the least of the rounds, the sides taking turns.
pub fn time(case: &Case, row: &mut Row) -> HashMap<String, f64> {
    let row_name = row.name;
    let mut sides = sides(row);
    let mut least = HashMap::new();
    let mut runs = Vec::new();
    for (_, work) in &mut sides {
        round(work.as_mut(), 3);
        let one = round(work.as_mut(), 1).max(Duration::from_nanos(50));
        let wanted = ROUND.as_nanos() / one.as_nanos() + 1;
        runs.push((wanted as usize).min(MOST));
    }
    for _ in 0..ROUNDS {
        for ((side, work), runs) in sides.iter_mut().zip(&runs) {
            let each = round(work.as_mut(), *runs).as_nanos() as f64 / *runs as f64;
            let kept = least.entry(name(case, row_name, side)).or_insert(each);
            *kept = kept.min(each);
        }
    }
    least
}

/// Each piece of work once unmeasured, then once measured; the names of the measured in order.
pub fn count(cases: &[Case], folder: &Path) {
    let mut names = String::new();
    for case in cases {
        for mut row in rows(case) {
            let row_name = row.name;
            for (side, work) in sides(&mut row) {
                work.prepare(2);
                work.run();
                bench_mark();
                work.run();
                bench_mark();
                names += &name(case, row_name, side);
                names.push('\n');
            }
        }
    }
    fs::write(folder.join("names"), names).unwrap();
}

/// Instructions of each measured piece: of its two marks the second wrote its file.
pub fn counted(folder: &Path) -> HashMap<String, f64> {
    let names = fs::read_to_string(folder.join("names")).unwrap();
    let mut counts = HashMap::new();
    for (number, name) in names.lines().enumerate() {
        let file = folder.join(format!("callgrind.{}", 2 * number + 2));
        let text = fs::read_to_string(&file).unwrap();
        let total = text.lines().find_map(|l| l.strip_prefix("totals: "));
        let total = total.unwrap_or_else(|| panic!("{}: no total", file.display()));
        counts.insert(name.to_string(), total.trim().parse().unwrap());
    }
    counts
}
