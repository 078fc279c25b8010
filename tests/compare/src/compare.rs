//! Runs the library's entries against the judge over everything the generator makes.

use std::time::{Duration, Instant};

use crate::face::{self, Face};
use crate::generate::{self, calls, damage, limits, small};
use crate::image;
use crate::judge::{self, Call, Entry, ENTRIES};
use crate::listing::listing;
use crate::panics;
use crate::rng::Rng;
use crate::shrink;
use crate::tally::{Answers, Tally};

/// How long random images are tried: for so long, or so many of them.
#[derive(Debug, Clone, Copy)]
pub enum Until {
    Seconds(u64),
    Count(u64),
}

/// One entry under comparison.
struct Subject {
    entry: Entry,
    answers: Answers,
    tally: Tally,
    worst: Option<(Call, String)>,
}

struct Comparison {
    face: Face,
    subjects: Vec<Subject>,
    seed: u64,
    samples: u64,
}

/// Compares every entry that the library has; prints a line for each of the ten.
pub fn run(seed: u64, until: Until) -> Tally {
    let subject = |entry| Subject {
        entry,
        answers: Answers::default(),
        tally: Tally::default(),
        worst: None,
    };
    let there = ENTRIES.into_iter().filter(|e| face::has(*e));
    let mut comparison = Comparison {
        face: Face::new(),
        subjects: there.map(subject).collect(),
        seed,
        samples: 0,
    };
    if !face::has_library() {
        println!("the library libexports.a is not there: no entry is compared");
    }
    if !comparison.subjects.is_empty() {
        comparison.fixed();
        comparison.rest(until);
    }
    comparison.report()
}

impl Comparison {
    /// What is tried in every run: each limit, each rule of the layout.
    fn fixed(&mut self) {
        for at in limits::all() {
            let image = image::write(&at.net);
            self.sample(&image, Some(at.number), false);
        }
        for (_, image, _) in crate::selfcheck::ladder::all_images() {
            self.sample(&image, None, true);
        }
    }

    /// All small networks and all small damage in a mixed order, between random images, until the
    /// time is over; where a count is given, all of them and so many random images.
    fn rest(&mut self, until: Until) {
        let start = Instant::now();
        let small = self.small();
        let (mut random, mut at) = (0, 0);
        let over = |random: u64| match until {
            Until::Seconds(s) => start.elapsed() >= Duration::from_secs(s),
            Until::Count(n) => random >= n,
        };
        for number in 0u64.. {
            for image in generate::round(self.seed, number) {
                if over(random) {
                    break;
                }
                self.sample(&image, None, (random + number) % 8 == 0);
                random += 1;
            }
            let some = match until {
                Until::Seconds(_) => (at + 100).min(small.len()),
                Until::Count(_) => small.len(),
            };
            for image in &small[at..some] {
                self.sample(image, None, false);
            }
            at = some;
            if over(random) {
                break;
            }
        }
        println!(
            "{at} of {} small images and {random} random ones",
            small.len()
        );
    }

    /// All networks of one gate, many of two, and all cuts, flips and prefixes of a few images.
    fn small(&mut self) -> Vec<Vec<u8>> {
        let mut rng = Rng::of(self.seed, "small", 0);
        let nets = [small::one_gate(), small::two_plain_gates()].concat();
        let mut images: Vec<Vec<u8>> = nets.iter().map(image::write).collect();
        for _ in 0..3 {
            let whole = image::write(&small::three_gates(rng.word()));
            images.extend(damage::thorough(&whole, &mut rng));
        }
        for k in (1..images.len()).rev() {
            images.swap(k, rng.below(k + 1));
        }
        images
    }

    /// One image through every entry.
    fn sample(&mut self, image: &[u8], limit: Option<u32>, thorough: bool) {
        self.samples += 1;
        let mut rng = Rng::of(self.seed, "calls", self.samples);
        for at in 0..self.subjects.len() {
            let entry = self.subjects[at].entry;
            let mut all = if thorough {
                calls::thorough(entry, image, &mut rng)
            } else {
                vec![calls::plain(entry, image, &mut rng)]
            };
            if let (Some(number), true) = (limit, entry.has_limit()) {
                all.push(Call {
                    number,
                    ..all[0].clone()
                });
            }
            for call in all {
                self.one(at, call.taken(entry));
            }
        }
    }

    fn one(&mut self, at: usize, call: Call) {
        let subject = &mut self.subjects[at];
        match differs(&mut self.face, subject.entry, &call) {
            Ok(number) => {
                subject.tally.passed += 1;
                subject.answers.count(number);
            }
            Err(why) => {
                subject.tally.failed += 1;
                let smaller = |(worst, _): &(Call, String)| call.image.len() < worst.image.len();
                if subject.worst.as_ref().is_none_or(smaller) {
                    subject.worst = Some((call, why));
                }
            }
        }
    }

    fn report(&mut self) -> Tally {
        let mut all = Tally::default();
        for entry in ENTRIES {
            let name = entry.functions();
            let Some(subject) = self.subjects.iter().find(|s| s.entry == entry) else {
                println!("{name}: not there yet, 0 compared");
                continue;
            };
            println!(
                "{name}: {} compared, {} differ; answers {}",
                subject.answers.total() + subject.tally.failed,
                subject.tally.failed,
                subject.answers.shown()
            );
            if let Some((call, why)) = &subject.worst {
                show_smallest(&mut self.face, entry, call, why);
            }
            all.add(&subject.tally);
        }
        all
    }
}

/// The number answered where library and judge agree, else what differs.
fn differs(face: &mut Face, entry: Entry, call: &Call) -> Result<u32, String> {
    let Some(expected) = panics::caught(|| judge::answer(entry, call)) else {
        return Err("the Rust itself panicked on what document 01 accepts".to_string());
    };
    face.compare(entry, call, &expected)?;
    Ok(expected.number)
}

fn show_smallest(face: &mut Face, entry: Entry, call: &Call, why: &str) {
    let mut fails = |c: &Call| differs(face, entry, c).is_err();
    let small = shrink::smallest(call, 20_000, &mut fails);
    let why = differs(face, entry, &small)
        .err()
        .unwrap_or(why.to_string());
    println!("  the smallest input for a difference: {why}");
    println!(
        "  number {}, lent: out {} map {} areas {:?} outputs {}",
        small.number, small.out, small.map, small.areas, small.outputs
    );
    if entry == Entry::Evaluate {
        println!("  inputs {:?}\n  state {:?}", small.inputs, small.state);
    }
    let words = small.image.chunks(4).map(|w| match w {
        [a, b, c, d] => u32::from_le_bytes([*a, *b, *c, *d]).to_string(),
        rest => format!("{rest:?}"),
    });
    let words: Vec<String> = words.collect();
    println!(
        "  image of {} bytes: {}",
        small.image.len(),
        words.join(" ")
    );
    if let Ok(read) = image::read(&small.image) {
        for line in listing(&read.net).lines() {
            println!("    {line}");
        }
    }
}
