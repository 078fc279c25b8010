//! The judge held to document 01: hand-checked cases, the ladder of refusals, agreement by running.

pub mod agree;
pub mod hand;
pub mod ladder;

use crate::tally::Tally;

/// All self-checks; so many random networks for those by running.
pub fn run(seed: u64, networks: u64) -> Tally {
    let mut all = Tally::default();
    let mut part = |name: &str, checks: &dyn Fn(&mut Tally)| {
        let mut tally = Tally::default();
        checks(&mut tally);
        tally.line(name);
        all.add(&tally);
    };
    part("self-check: words of the Rust's signals", &hand::words);
    part("self-check: cases checked by hand", &hand::cases);
    part("self-check: the program share and listings", &hand::program);
    part("self-check: the ladder of refusals", &ladder::images);
    part("self-check: limits", &ladder::limits);
    part("self-check: images there and back", &|t| {
        agree::images(t, seed, networks)
    });
    part("self-check: passes by evaluation and mapping", &|t| {
        agree::passes(t, seed, networks)
    });
    part(
        "self-check: flatten and factor against document 01's text",
        &|t| agree::stages(t, seed, networks),
    );
    part("self-check: the Rust unchanged, by evaluation", &|t| {
        agree::unchanged(t, seed, networks)
    });
    part("self-check: two inputs and the gate bound of share", &|t| {
        agree::shape_of_share(t, seed, networks)
    });
    all
}
