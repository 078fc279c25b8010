//! The calls that are made with an image: limits, record numbers, every buffer at and one short.

use crate::image;
use crate::judge::{self, Call, Entry, AREA};
use crate::rng::Rng;

/// The flattening limits that are always tried.
pub const LIMITS: [u32; 7] = [0, 1, 2, 3, 64, 2_048, u32::MAX];

fn bits(count: usize, rng: &mut Rng) -> Vec<u8> {
    (0..count).map(|_| (rng.word() & 1) as u8).collect()
}

/// A call whose buffers suffice, most often by more than is needed, with random inputs and state.
pub fn plain(entry: Entry, bytes: &[u8], rng: &mut Rng) -> Call {
    let (inputs, nodes, outputs) = counts(bytes);
    let more = [0, 0, 1, 7];
    let mut call = Call::ample(bytes);
    call.out = call.image.len() + rng.pick(&[0, 3, 9_000]);
    call.map = nodes + rng.pick(&more);
    call.areas = [AREA + rng.pick(&more), AREA + rng.pick(&more)];
    call.inputs = bits(inputs + rng.pick(&more), rng);
    call.state = bits(nodes + rng.pick(&more), rng);
    call.outputs = outputs + rng.pick(&more);
    call.number = match entry {
        Entry::Flatten | Entry::Share if rng.one_in(2) => rng.pick(&LIMITS),
        Entry::Flatten | Entry::Share => rng.below(16) as u32,
        Entry::Record => rng.below(nodes + 1) as u32,
        _ => 0,
    };
    call
}

/// Inputs, nodes and outputs of an image; a few where it has none.
fn counts(bytes: &[u8]) -> (usize, usize, usize) {
    match image::read(bytes) {
        Ok(read) => (
            read.net.inputs as usize,
            read.net.nodes.len(),
            read.net.outs.len(),
        ),
        Err(_) => (5, 5, 5),
    }
}

/// The plain call and what it takes to try every buffer of it.
pub fn thorough(entry: Entry, bytes: &[u8], rng: &mut Rng) -> Vec<Call> {
    let base = plain(entry, bytes, rng);
    let mut calls = vec![base.clone()];
    let mut add = |change: &dyn Fn(&mut Call)| {
        let mut call = base.clone();
        change(&mut call);
        calls.push(call);
    };
    if entry == Entry::Record {
        let nodes = counts(bytes).1 as u32;
        for k in [
            0,
            1,
            nodes.saturating_sub(1),
            nodes,
            nodes + 1,
            512,
            u32::MAX,
        ] {
            add(&|c| c.number = k);
        }
        return calls;
    }
    for (area, words) in [(0, AREA - 1), (1, AREA - 1), (0, 0), (1, 0)] {
        add(&|c| c.areas[area] = words);
    }
    add(&|c| c.areas = [AREA, AREA]);
    add(&|c| c.areas = [AREA + 100, AREA + 1]);
    if entry.has_limit() {
        for limit in LIMITS {
            add(&|c| c.number = limit);
        }
    }
    let ample = Call {
        number: base.number,
        ..Call::ample(bytes)
    };
    let answer = judge::answer(entry, &ample);
    if entry.writes_image() {
        for out in around(answer.length) {
            add(&|c| c.out = out);
        }
    }
    if entry.has_mapping() {
        for map in around(answer.mapping.len()) {
            add(&|c| {
                c.map = map;
                c.out = 16_500;
            });
        }
    }
    if entry == Entry::Evaluate {
        evaluations(&base, rng, &mut calls);
    }
    calls
}

/// Nothing, one short, just enough, one more.
fn around(length: usize) -> Vec<usize> {
    let mut lengths = vec![0, length, length + 1];
    lengths.extend(length.checked_sub(1));
    lengths
}

fn evaluations(base: &Call, rng: &mut Rng, calls: &mut Vec<Call>) {
    let (inputs, nodes, outputs) = counts(&base.image);
    for count in around(inputs) {
        let inputs = bits(count, rng);
        calls.push(Call {
            inputs,
            ..base.clone()
        });
    }
    for count in around(nodes) {
        let state = bits(count, rng);
        calls.push(Call {
            state,
            ..base.clone()
        });
    }
    for outputs in around(outputs) {
        calls.push(Call {
            outputs,
            ..base.clone()
        });
    }
    // bytes above one: among the inputs, behind them, in the state of any node, behind it
    for at in 0..base.inputs.len().min(12) {
        let mut call = base.clone();
        call.inputs[at] = rng.pick(&[2, 3, 255]);
        calls.push(call);
    }
    for at in 0..base.state.len().min(40) {
        let mut call = base.clone();
        call.state[at] = rng.pick(&[2, 3, 255]);
        calls.push(call);
    }
    // any bytes where none is looked at
    let mut call = base.clone();
    if let Ok(read) = image::read(&base.image) {
        for at in 0..call.state.len() {
            let flip_flop = read.net.nodes.get(at).is_some_and(|g| g.is_flip_flop());
            if !flip_flop {
                call.state[at] = rng.word() as u8;
            }
        }
        for byte in &mut call.inputs[inputs..] {
            *byte = rng.word() as u8;
        }
        calls.push(call);
    }
}
