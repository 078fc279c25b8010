//! Counts what passed and what failed, and keeps the printed lines in order.

use std::collections::BTreeMap;

#[derive(Debug, Default)]
pub struct Tally {
    pub passed: u64,
    pub failed: u64,
}

impl Tally {
    pub fn add(&mut self, other: &Tally) {
        self.passed += other.passed;
        self.failed += other.failed;
    }

    /// One check: says so only if it failed.
    pub fn check(&mut self, what: &str, holds: bool) {
        if holds {
            self.passed += 1;
        } else {
            self.failed += 1;
            println!("FAILED: {what}");
        }
    }

    /// One check of equality: shows both sides if they differ.
    pub fn equal<T: PartialEq + std::fmt::Debug>(&mut self, what: &str, is: T, should: T) {
        let holds = is == should;
        self.check(what, holds);
        if !holds {
            println!("  is     {is:?}\n  should {should:?}");
        }
    }

    pub fn line(&self, name: &str) {
        println!("{name}: {} passed, {} failed", self.passed, self.failed);
    }
}

/// How many inputs of which answer were compared.
#[derive(Debug, Default)]
pub struct Answers(BTreeMap<u32, u64>);

impl Answers {
    pub fn count(&mut self, number: u32) {
        *self.0.entry(number).or_default() += 1;
    }

    pub fn total(&self) -> u64 {
        self.0.values().sum()
    }

    pub fn shown(&self) -> String {
        let each: Vec<String> = self.0.iter().map(|(n, c)| format!("{n}: {c}")).collect();
        each.join(", ")
    }
}
