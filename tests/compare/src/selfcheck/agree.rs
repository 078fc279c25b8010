//! The parts of the judge against each other, by running them on random networks.

use crate::evaluate;
use crate::generate::{damage, random, small};
use crate::image;
use crate::judge::{self, Call, Entry, MAX_PAIR_PLACES};
use crate::net::{is_node, node, node_of, Family, Gate, Kind, Net};
use crate::rng::Rng;
use crate::room;
use crate::tally::Tally;
use crate::trees::{ordered, unchanged};

const FAMILIES: [Family; 2] = [Family::And, Family::Xor];

/// Random networks: the same for a seed and a part.
fn networks(seed: u64, part: &'static str, count: u64) -> impl Iterator<Item = (Net, Rng)> {
    (0..count).map(move |k| {
        let mut rng = Rng::of(seed, part, k);
        let net = match k % 8 {
            6 => random::twins(&mut rng),
            7 => small::three_gates(rng.word()),
            _ => random::network(&mut rng),
        };
        (net, rng)
    })
}

fn ask(entry: Entry, net: &Net, number: u32) -> Result<(Net, Vec<u32>), u32> {
    let call = Call {
        number,
        ..Call::ample(&image::write(net))
    };
    let answer = judge::answer(entry, &call);
    match answer.number {
        0 => Ok((image::read(&answer.image).unwrap().net, answer.mapping)),
        number => Err(number),
    }
}

fn limit(rng: &mut Rng) -> u32 {
    rng.pick(&[0, 1, 2, 3, 4, 5, 8, 64, 2_048, u32::MAX])
}

fn cycles(net: &Net, rng: &mut Rng) -> Vec<Vec<u64>> {
    let word = |rng: &mut Rng| rng.word() & rng.pick(&[!0, !0, rng.clone().word()]);
    (0..8)
        .map(|_| (0..net.inputs).map(|_| word(rng)).collect())
        .collect()
}

/// Whether both give the same outputs in every cycle of 64 fresh runs.
fn same_outputs(a: &Net, b: &Net, rng: &mut Rng) -> bool {
    let cycles = cycles(a, rng);
    a.inputs == b.inputs && evaluate::run(a, &cycles) == evaluate::run(b, &cycles)
}

/// Whether each old node carries what its mapped signal carries; of those asked for.
fn same_nodes(old: &Net, new: &Net, mapping: &[u32], asked: &[bool], rng: &mut Rng) -> bool {
    let chosen = (0..old.nodes.len()).filter(|v| asked[*v]);
    let (mut old, mut new) = (old.clone(), new.clone());
    old.outs = chosen.clone().map(|v| node(v as u32)).collect();
    new.outs = chosen.map(|v| mapping[v]).collect();
    same_outputs(&old, &new, rng)
}

fn reached(net: &Net) -> Vec<bool> {
    let mut reached = vec![false; net.nodes.len()];
    let outs = net.outs.iter().filter(|s| is_node(**s));
    let mut open: Vec<usize> = outs.map(|s| node_of(*s) as usize).collect();
    while let Some(v) = open.pop() {
        if !reached[v] {
            reached[v] = true;
            open.extend(net.nodes[v].names());
        }
    }
    reached
}

/// Writing and reading, record parts, prefixes.
pub fn images(t: &mut Tally, seed: u64, count: u64) {
    for (net, mut rng) in networks(seed, "images", count) {
        let bytes = image::write(&net);
        let read = image::read(&bytes).unwrap();
        t.equal("reading what was written", &read.net, &net);
        t.equal("writing what was read", &image::write(&read.net), &bytes);
        let prefix = rng.below(9);
        let behind = damage::prefixed(&bytes, prefix, &mut rng);
        let again = image::read(&behind).unwrap();
        t.equal("behind a prefix", (&again.net, again.body), (&net, prefix));
        let mut parts = Vec::new();
        for k in 0..net.nodes.len() {
            let (at, length) = image::record(&behind, k as u32);
            parts.extend_from_slice(&behind[at..at + length]);
            let mut own = Vec::new();
            image::write_record(&net.nodes[k], &mut own);
            t.check("a record's part", behind[at..at + length] == own);
        }
        let records_end = bytes.len() - 16 - 4 * net.outs.len();
        t.check("the parts are all records", parts == bytes[..records_end]);
        t.equal(
            "no node",
            image::record(&behind, net.nodes.len() as u32).1,
            0,
        );
        let broken = damage::damaged(&bytes, &mut rng);
        if let Ok(read) = image::read(&broken) {
            let whole = image::write(&read.net);
            t.check("damaged but readable", whole == broken[read.body..]);
        }
    }
}

/// Every pass: outputs in every cycle, the mapping, the form of what comes out.
pub fn passes(t: &mut Tally, seed: u64, count: u64) {
    use Entry::*;
    for (net, mut rng) in networks(seed, "passes", count) {
        let all = vec![true; net.nodes.len()];
        for entry in [Canonical, Dedup, Cleanup, Sort] {
            let name = entry.name();
            let (new, mapping) = ask(entry, &net, 0).unwrap();
            t.check(&name, same_outputs(&net, &new, &mut rng));
            let kept = reached(&net);
            let asked = if entry == Cleanup { &kept } else { &all };
            t.check(&name, same_nodes(&net, &new, &mapping, asked, &mut rng));
            t.check(&name, new.is_sorted());
            let outs: Vec<u32> = net.outs.iter().map(|s| mapped(*s, &mapping)).collect();
            t.check(&name, new.outs == outs);
            if entry == Cleanup {
                let count = kept.iter().filter(|r| **r).count();
                t.check(&name, new.nodes.len() == count);
                t.check(&name, (0..kept.len()).all(|v| kept[v] || mapping[v] == 0));
            }
        }
        let number = limit(&mut rng);
        for entry in [Flatten, Factor, Share] {
            if let Ok((new, _)) = ask(entry, &net, number) {
                t.check(&entry.name(), same_outputs(&net, &new, &mut rng));
            }
        }
    }
    for k in 0..count {
        let mut rng = Rng::of(seed, "unsorted", k);
        let net = random::unsorted(&mut rng);
        let (clean, _) = ask(Cleanup, &net, 0).unwrap();
        let sorted = ask(Sort, &net, 0);
        t.equal(
            "8 for a loop",
            sorted.as_ref().err().copied(),
            net.has_loop().then_some(8),
        );
        if let Ok((new, mapping)) = sorted {
            t.check("sorted", new.is_sorted());
            let places: Vec<u32> = mapping.iter().map(|s| node_of(*s)).collect();
            t.check("sort renumbers", new == random::renumbered(&net, &places));
            let (clean, _) = ask(Sort, &clean, 0).unwrap();
            t.check("cleanup, then sort", same_outputs(&clean, &new, &mut rng));
        }
    }
}

fn mapped(s: u32, mapping: &[u32]) -> u32 {
    if is_node(s) {
        mapping[node_of(s) as usize] ^ (s & 1)
    } else {
        s
    }
}

/// Flattening and factoring as document 01 words them, against the Rust with ordered sets.
pub fn stages(t: &mut Tally, seed: u64, count: u64) {
    for (net, mut rng) in networks(seed, "stages", count) {
        let number = limit(&mut rng);
        if let Some(nodes) = room::flattened(&net, number) {
            let flat = Net {
                nodes,
                ..net.clone()
            };
            let (clean, _) = ordered::glue::cleanup(&flat);
            let (own, _) = ordered::glue::canonical(&clean);
            t.equal(
                "flatten",
                ask(Entry::Flatten, &net, number),
                Ok((own, vec![])),
            );
        }
        if !room::has_repeat(&net) {
            one_factoring(t, &net);
        }
        let (canonical, _) = ordered::glue::canonical(&net);
        one_factoring(t, &canonical);
        if let Ok((shared, _)) = ask(Entry::Share, &net, number) {
            t.check("share whole", shared == ordered::glue::share(&net, number));
        }
        if let Ok((factored, _)) = ask(Entry::Factor, &net, 0) {
            t.check("factor whole", factored == ordered::glue::factor(&net));
        }
    }
}

fn one_factoring(t: &mut Tally, net: &Net) {
    for family in FAMILIES {
        let lists = room::lists(net, family);
        let repeats = family == Family::Xor && !net.nodes.iter().all(no_repeat);
        if repeats || room::pair_places(&lists) > MAX_PAIR_PLACES {
            continue;
        }
        let first = net.nodes.len() as u32;
        let own = room::factoring(&lists, first);
        t.equal(
            "factoring",
            ordered::glue::factoring(&lists, first),
            own.clone(),
        );
        // the network of the pass, built from document 01's steps
        let mut grown = net.clone();
        let mut became = own.1.iter();
        for g in &mut grown.nodes {
            if g.kind.family() == Some(family) && g.ins.len() >= 2 {
                *g = Gate::new(Kind::Buf, &[*became.next().unwrap()]);
            }
        }
        let two = [Kind::And2, Kind::Xor2][family as usize];
        grown
            .nodes
            .extend(own.0.iter().map(|(a, b)| Gate::new(two, &[*a, *b])));
        let counts = (grown.nodes.len(), grown.gate_inputs());
        t.equal(
            "room of a pass",
            room::grown(net, family, own.0.len()),
            counts,
        );
        let (sorted, _) = ordered::glue::sort(&grown);
        let (canonical, _) = ordered::glue::canonical(&sorted);
        t.check(
            "a pass",
            ordered::glue::factor_pass(net, family) == canonical,
        );
    }
}

fn no_repeat(g: &Gate) -> bool {
    (0..g.ins.len()).all(|k| !g.ins[..k].contains(&g.ins[k]))
}

/// The Rust as it stands: equal where no tie is met, equal in every cycle where one is.
pub fn unchanged(t: &mut Tally, seed: u64, count: u64) {
    for (net, mut rng) in networks(seed, "unchanged", count) {
        let number = limit(&mut rng);
        use unchanged::glue as rust;
        t.check(
            "canonical",
            Ok(rust::canonical(&net)) == ask(Entry::Canonical, &net, 0),
        );
        t.check("dedup", Ok(rust::dedup(&net)) == ask(Entry::Dedup, &net, 0));
        t.check(
            "cleanup",
            Ok(rust::cleanup(&net)) == ask(Entry::Cleanup, &net, 0),
        );
        t.check("sort", Ok(rust::sort(&net)) == ask(Entry::Sort, &net, 0));
        if let Ok((flat, _)) = ask(Entry::Flatten, &net, number) {
            t.check("flatten", rust::flatten(&net, number) == flat);
        }
        if ask(Entry::Factor, &net, 0).is_ok() {
            t.check("factor", same_outputs(&net, &rust::factor(&net), &mut rng));
        }
        if let Ok((shared, _)) = ask(Entry::Share, &net, number) {
            let other = rust::share(&net, number);
            t.check("share", same_outputs(&net, &other, &mut rng));
            t.check("share", same_outputs(&shared, &other, &mut rng));
        }
    }
}

/// Gates that a network needs if every And and Xor is built of two-input gates without sharing.
fn bound(flat: &Net) -> usize {
    let gates = flat.nodes.iter();
    gates
        .map(|g| match g.kind.family() {
            Some(_) => g.ins.len() - 1,
            None => 1,
        })
        .sum()
}

/// Every And and Xor that share leaves has two inputs, nothing needs normalizing to two inputs,
/// and there are no more gates than the flattened network needs without sharing.
pub fn shape_of_share(t: &mut Tally, seed: u64, count: u64) {
    for (net, mut rng) in networks(seed, "shape", count) {
        let number = limit(&mut rng);
        let Ok((shared, _)) = ask(Entry::Share, &net, number) else {
            continue;
        };
        let (flat, _) = ask(Entry::Flatten, &net, number).unwrap();
        use Kind::*;
        let two = shared.nodes.iter();
        let plain = two
            .clone()
            .all(|g| matches!(g.kind, And2 | Xor2 | Maj | Mux | Dff | Lut));
        t.check("two inputs", plain);
        t.check("the gate bound", shared.nodes.len() <= bound(&flat));
    }
}
