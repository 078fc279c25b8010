//! Looks for the smallest networks on which the unchanged Rust does otherwise than document 01.

use std::collections::BTreeMap;

use crate::generate::{random, small};
use crate::image;
use crate::judge::{self, Call, Entry};
use crate::listing::listing;
use crate::net::{input, node, Gate, Kind, Net, KINDS};
use crate::notation;
use crate::panics;
use crate::rng::Rng;
use crate::shrink;
use crate::trees::unchanged::glue as rust;

const PASSES: [Entry; 7] = [
    Entry::Canonical,
    Entry::Dedup,
    Entry::Cleanup,
    Entry::Sort,
    Entry::Flatten,
    Entry::Factor,
    Entry::Share,
];

/// The entry, document 01's number and what the Rust does instead of it.
type Class = (Entry, u32, &'static str);

/// What the unchanged Rust makes of a network; none if it panics.
fn outcome(entry: Entry, net: &Net, limit: u32) -> Option<(Net, Vec<u32>)> {
    panics::caught(|| match entry {
        Entry::Canonical => rust::canonical(net),
        Entry::Dedup => rust::dedup(net),
        Entry::Cleanup => rust::cleanup(net),
        Entry::Sort => rust::sort(net),
        Entry::Flatten => (rust::flatten(net, limit), Vec::new()),
        Entry::Factor => (rust::factor(net), Vec::new()),
        _ => (rust::share(net, limit), Vec::new()),
    })
}

fn class(entry: Entry, net: &Net, limit: u32) -> Option<Class> {
    let call = Call {
        number: limit,
        ..Call::ample(&image::write(net))
    };
    let answer = panics::caught(|| judge::answer(entry, &call))?;
    let does = match (answer.number, outcome(entry, net, limit)) {
        (0, None) => "panics",
        (0, Some((new, mapping))) => {
            if image::write(&new) == answer.image && mapping == answer.mapping {
                return None;
            }
            "gives another network"
        }
        (_, None) => "panics",
        (7, Some(_)) if !rust::cleanup(net).0.is_sorted() => "accepts what an output reaches",
        (_, Some(_)) => "accepts",
    };
    Some((entry, answer.number, does))
}

/// One-gate networks with signals that may be absent, which no image that is read can hold.
fn absent() -> Vec<Net> {
    let mut nets = Vec::new();
    for s in [input(0), node(1)] {
        for kind in KINDS {
            let count = (0..4).find(|n| kind.takes(*n) && *n > 0).unwrap();
            let mut ins = vec![0; count];
            ins[0] = s;
            let gate = match kind {
                Kind::Lut => Gate::lut(&ins, 1),
                _ => Gate::new(kind, &ins),
            };
            for outs in ["", "x0"] {
                nets.push(Net {
                    inputs: 0,
                    nodes: vec![gate.clone()],
                    outs: notation::signals(outs),
                });
            }
        }
        nets.push(Net {
            inputs: 0,
            nodes: Vec::new(),
            outs: vec![s],
        });
    }
    nets
}

/// One n-ary And of four signals, repeats among them.
fn repeats() -> Vec<Net> {
    let signals = notation::signals("0 1 i0 i1");
    let list = |k: usize| {
        (0..4)
            .map(|p| signals[k >> (2 * p) & 3])
            .collect::<Vec<u32>>()
    };
    let alone = |k| Net {
        inputs: 2,
        nodes: vec![Gate::new(Kind::And, &list(k))],
        outs: Vec::new(),
    };
    (0..256).map(alone).collect()
}

/// Networks just past a limit that document 01 adds, with the entry that refuses them.
fn past_limits() -> Vec<(&'static str, Entry, Net)> {
    use crate::generate::limits::*;
    use crate::net::Family::And;
    vec![
        ("1,025 inputs", Entry::Cleanup, input_count(1_025)),
        ("513 nodes", Entry::Cleanup, node_count(513, Kind::Buf)),
        ("65 outputs", Entry::Cleanup, output_count(65)),
        (
            "an Or of 2,049 inputs",
            Entry::Cleanup,
            gate_inputs(2_049, Kind::Or, 2_049),
        ),
        (
            "11 And2, each the one before twice",
            Entry::Flatten,
            doubling(10, And),
        ),
        (
            "2 Ands sharing 65 signals",
            Entry::Factor,
            two_sharing(65, And),
        ),
        ("257 And2", Entry::Factor, two_input_gates(257, And)),
        (
            "an And of 125 inputs beside 300 Luts",
            Entry::Factor,
            grown_inputs(125, false, And),
        ),
    ]
}

fn candidates(seed: u64, count: u64) -> Vec<Net> {
    let mut nets = absent();
    nets.extend(repeats());
    nets.extend(small::one_gate());
    for k in 0..count {
        let mut rng = Rng::of(seed, "differences", k);
        nets.push(match k % 5 {
            0 => random::network(&mut rng),
            1 => random::unsorted(&mut rng),
            2 => small::two_gates(rng.word()),
            3 => small::three_gates(rng.word()),
            _ => random::twins(&mut rng),
        });
    }
    nets
}

/// Prints each way in which the Rust differs, with how often it was met and the smallest network.
pub fn show(seed: u64, count: u64) {
    let mut met: BTreeMap<Class, (u64, Net)> = BTreeMap::new();
    for net in candidates(seed, count) {
        if net.gate_inputs() > 400 {
            continue;
        }
        for entry in PASSES {
            if let Some(class) = class(entry, &net, 64) {
                let place = met.entry(class).or_insert_with(|| (0, net.clone()));
                place.0 += 1;
                if size(&net) < size(&place.1) {
                    place.1 = net.clone();
                }
            }
        }
    }
    for (what, entry, net) in past_limits() {
        match class(entry, &net, 4_096) {
            Some((_, number, does)) => {
                println!(
                    "{}: document 01 {number}, the Rust {does}: {what}",
                    entry.name()
                )
            }
            None => println!("{}: no difference: {what}", entry.name()),
        }
    }
    for ((entry, number, does), (count, net)) in met {
        let same = |call: &Call| match image::read(&call.image) {
            Ok(read) => class(entry, &read.net, 64) == Some((entry, number, does)),
            Err(_) => false,
        };
        let call = Call {
            number: 64,
            ..Call::ample(&image::write(&net))
        };
        let small = shrink::smallest(&call, 50_000, &mut |c| c.number == 64 && same(c));
        let net = image::read(&small.image).map_or(net, |read| read.net);
        let name = entry.name();
        println!("{name}: document 01 {number}, the Rust {does}: {count} times. Smallest:");
        print_indented(&net);
        if number == 0 {
            if let Some((new, _)) = outcome(entry, &net, 64) {
                println!("  the Rust gives");
                print_indented(&new);
            }
            println!("  document 01 gives");
            print_indented(
                &image::read(&judge::answer(entry, &small).image)
                    .unwrap()
                    .net,
            );
        }
    }
}

fn print_indented(net: &Net) {
    for line in listing(net).lines() {
        println!("    {line}");
    }
}

fn size(net: &Net) -> usize {
    net.nodes.len() + net.gate_inputs() + net.outs.len()
}
