//! The printed tables.

use std::collections::HashMap;
use std::path::Path;

use crate::cases::Case;
use crate::measure;
use crate::ours;
use crate::work::{rows, CYCLE, PASSES};

type Figures = HashMap<String, f64>;

/// Times of every row, and instructions where they were counted.
pub fn print(cases: &[Case], counts: Option<&Path>) {
    for (entry, name) in PASSES {
        if !ours::has(entry) {
            println!("{name}: the library has no ll_{name} yet, so it is not measured");
        }
    }
    let mut times = Figures::new();
    let mut order = Vec::new();
    for case in cases {
        for mut row in rows(case) {
            times.extend(measure::time(case, &mut row));
            order.push((case.name.clone(), row.name));
        }
    }
    println!("\nmicroseconds for one call\n");
    table(&order, &times, |ns| format!("{:.2}", ns / 1_000.0));
    if let Some(folder) = counts {
        println!("\ninstructions for one call\n");
        table(&order, &measure::counted(folder), |n| format!("{n:.0}"));
    }
}

fn table(order: &[(String, &'static str)], figures: &Figures, shown: impl Fn(f64) -> String) {
    println!(
        "| network | work | ours | Rust | ours / Rust | Rust, alone | ours / alone \
         | ours, alone | alone / alone |"
    );
    println!("|---|---|--:|--:|--:|--:|--:|--:|--:|");
    for (case, row) in order {
        let figure = |row: &str, side: &str| figures.get(&format!("{case}|{row}|{side}")).copied();
        let less = |all: Option<f64>, rest: Option<f64>| match (all, rest) {
            (Some(all), Some(rest)) if all > rest => Some(all - rest),
            _ => None,
        };
        let ours = figure(row, "ours");
        let reader = figure(row, "reader");
        // a cycle is what a call takes above one that is refused before it; a pass, above reading and writing
        let (rust, rust_alone, ours_alone) = if *row == CYCLE {
            (None, less(figure(row, "alone"), reader), less(ours, reader))
        } else {
            let alone = figure(row, "alone");
            let beside = match *row {
                "evaluate" => "check and load",
                _ if alone.is_some() => "read",
                _ => *row,
            };
            let rust = figure(beside, "reader").map(|r| r + alone.unwrap_or(0.0));
            let ours_alone = match beside {
                "read" if *row != "read" => less(ours, figure("read", "ours")),
                _ => None,
            };
            (rust, alone, ours_alone)
        };
        let show = |x: Option<f64>| x.map_or("-".to_string(), &shown);
        let ratio = |ours: Option<f64>, rust: Option<f64>| match (ours, rust) {
            (Some(ours), Some(rust)) if rust > 0.0 => format!("{:.2}", ours / rust),
            _ => "-".to_string(),
        };
        println!(
            "| {case} | {row} | {} | {} | {} | {} | {} | {} | {} |",
            show(ours),
            show(rust),
            ratio(ours, rust),
            show(rust_alone),
            ratio(ours, rust_alone),
            show(ours_alone),
            ratio(ours_alone, rust_alone)
        );
    }
}
