//! The networks that are measured: duplicate filters, medium ones, and one at each limit.

use crate::generate::{limits, random};
use crate::image;
use crate::judge::{self, Call, Entry};
use crate::net::{input, node, Family, Gate, Kind, Net, ONE, ZERO};
use crate::rng::Rng;

pub struct Case {
    pub name: String,
    pub net: Net,
    pub image: Vec<u8>,
}

/// The flattening limit of every call.
pub const LIMIT: u32 = 64;

/// Says of telegrams whether one of the last so many had the same bits (identity and access number):
/// input 0 says that a telegram is there, the bits follow. Each slot has a flip-flop for each bit and
/// one for whether it holds anything, an Xor for each bit and a tree of And2; a telegram not seen goes
/// into slot 0, and what stood there into the next.
fn filter(slots: u32, bits: u32) -> Net {
    let mut nodes: Vec<Gate> = Vec::new();
    let mut add = |kind: Kind, ins: &[u32]| {
        nodes.push(Gate::new(kind, ins));
        node(nodes.len() as u32 - 1)
    };
    let size = bits + 1;
    let held = |slot: u32, bit: u32| node(slot * size + bit);
    // what takes a telegram in is the last node
    let all = slots * (size + 2 * bits) + (slots - 1) + 1;
    let take = node(all - 1);
    for slot in 0..slots {
        for bit in 0..bits {
            let from = match slot {
                0 => input(1 + bit),
                _ => held(slot - 1, bit),
            };
            add(Kind::Dff, &[from, take, ZERO]);
        }
        let full = if slot == 0 { ONE } else { held(slot - 1, bits) };
        add(Kind::Dff, &[full, take, ZERO]);
    }
    let mut seen = Vec::new();
    for slot in 0..slots {
        let differ: Vec<u32> = (0..bits)
            .map(|bit| add(Kind::Xor2, &[input(1 + bit), held(slot, bit)]))
            .collect();
        let mut tree: Vec<u32> = differ.iter().map(|s| s ^ 1).collect();
        tree.push(held(slot, bits));
        while tree.len() > 1 {
            tree = tree
                .chunks(2)
                .map(|two| match two {
                    [a, b] => add(Kind::And2, &[*a, *b]),
                    _ => two[0],
                })
                .collect();
        }
        seen.push(tree[0]);
    }
    let mut any = seen[0];
    for s in &seen[1..] {
        any = add(Kind::And2, &[any ^ 1, s ^ 1]) ^ 1;
    }
    let last = add(Kind::And2, &[input(0), any ^ 1]);
    assert_eq!(last, take);
    Net {
        inputs: 1 + bits,
        nodes,
        outs: vec![any, take],
    }
}

/// The first network of the generator with so many nodes that every entry accepts.
fn generated(low: usize, high: usize) -> Net {
    let accepted = |net: &Net| {
        let call = Call::ample(&image::write(net));
        let all = [Entry::Canonical, Entry::Factor, Entry::Share];
        all.iter().all(|e| judge::answer(*e, &call).number == 0)
    };
    (0..)
        .map(|number| random::network(&mut Rng::of(1, "medium", number)))
        .find(|net| (low..=high).contains(&net.nodes.len()) && accepted(net))
        .unwrap()
}

/// The network renumbered at random.
fn mixed(net: &Net) -> Net {
    let mut rng = Rng::of(1, "mixed", 0);
    let mut numbers: Vec<u32> = (0..net.nodes.len() as u32).collect();
    for k in (1..numbers.len()).rev() {
        numbers.swap(k, rng.below(k + 1));
    }
    random::renumbered(net, &numbers)
}

/// 512 gates of four inputs, no two alike, 1,024 inputs and 64 outputs.
fn four_inputs(gate: impl Fn(u32, [u32; 4]) -> Gate, ins: impl Fn(u32) -> [u32; 4]) -> Net {
    Net {
        inputs: 1_024,
        nodes: (0..512).map(|v| gate(v, ins(v))).collect(),
        outs: (448..512).map(node).collect(),
    }
}

fn far(v: u32) -> [u32; 4] {
    let before = if v == 0 { input(1_023) } else { node(v - 1) };
    [
        input(2 * v),
        before,
        input(2 * v + 1) ^ 1,
        input((v * 7 + 3) % 1_024),
    ]
}

fn near(v: u32) -> [u32; 4] {
    [input(1_023), input(1_022), input(1_021), input(v)]
}

pub fn all() -> Vec<Case> {
    let mut cases = Vec::new();
    let mut add = |name: &str, net: Net| {
        cases.push(Case {
            name: name.to_string(),
            image: image::write(&net),
            net,
        })
    };
    add("empty", Net::default());
    for (slots, bits) in [(1, 4), (1, 8), (2, 7), (1, 16)] {
        let net = filter(slots, bits);
        let name = format!("filter {slots} x {bits} bits, {} gates", net.nodes.len());
        add(&name, net);
    }
    let net = filter(2, 33);
    add(
        &format!("filter 2 x 33 bits, {} gates", net.nodes.len()),
        net,
    );
    let net = generated(190, 210);
    let name = format!("all kinds, {} nodes", net.nodes.len());
    let unsorted = mixed(&net);
    add(&name, net);
    add(&format!("{name}, unsorted"), unsorted);
    add("1,024 inputs, no node", limits::input_count(1_024));
    add("64 outputs, one node", limits::output_count(64));
    add("512 Buf in a row", limits::node_count(512, Kind::Buf));
    add("512 Dff in a row", limits::node_count(512, Kind::Dff));
    add(
        "512 And2, no two alike",
        limits::grown_nodes(512, 0, Family::And),
    );
    let and = |_: u32, ins: [u32; 4]| Gate::new(Kind::And, &ins);
    add(
        "512 And of 4 inputs, three in common",
        four_inputs(and, near),
    );
    let lut = |v: u32, ins: [u32; 4]| Gate::lut(&ins, u64::from(v) * 127 + 1);
    add(
        "the largest image, 512 Lut of 4 inputs",
        four_inputs(lut, far),
    );
    add(
        "2,048 gate inputs, And of 24",
        limits::gate_inputs(2_048, Kind::And, 24),
    );
    add(
        "2,048 gate inputs, Xor of 1,017",
        limits::gate_inputs(2_048, Kind::Xor, 1_017),
    );
    // limits of flatten, factor and share
    add(
        "2,048 gate inputs once flattened",
        limits::flattened(2_048, Family::And),
    );
    add(
        "4,096 pair places, And",
        limits::all_out(limits::places(4_096, Family::And)),
    );
    add(
        "4,096 pair places, Xor",
        limits::all_out(limits::places(4_096, Family::Xor)),
    );
    add(
        "256 And2, 512 nodes once factored",
        limits::two_input_gates(256, Family::And),
    );
    // every input inverted and plain, in falling order: the most work for sorting a gate's inputs
    let falling: Vec<u32> = (0..2_048).map(|k| input(k / 2) ^ (k % 2 ^ 1)).collect();
    let mut nodes = vec![Gate::new(Kind::And, &[]); 511];
    nodes.push(Gate::new(Kind::And, &falling));
    add(
        "512 nodes, one of them an And of 2,048 inputs",
        Net {
            inputs: 1_024,
            nodes,
            outs: vec![node(511)],
        },
    );
    cases
}
