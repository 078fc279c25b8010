//! Networks at each limit of document 01, one short of it and one over.

use crate::net::{input, is_node, node, Family, Gate, Kind, Net};
use crate::notation;
use crate::rng::Rng;

/// A network at a limit, and the flattening limit that brings it there.
pub struct AtLimit {
    pub from: &'static str,
    pub net: Net,
    pub number: u32,
}

const FAMILIES: [Family; 2] = [Family::And, Family::Xor];

fn two(family: Family) -> Kind {
    match family {
        Family::And => Kind::And2,
        Family::Xor => Kind::Xor2,
    }
}

fn nary(family: Family) -> Kind {
    match family {
        Family::And => Kind::And,
        Family::Xor => Kind::Xor,
    }
}

fn inputs(from: u32, count: usize) -> Vec<u32> {
    (from..from + count as u32).map(input).collect()
}

fn last_node(nodes: &[Gate]) -> u32 {
    node(nodes.len() as u32 - 1)
}

/// 3: so many inputs, of which the last is an output.
pub fn input_count(count: u32) -> Net {
    Net {
        inputs: count,
        nodes: Vec::new(),
        outs: vec![input(count - 1)],
    }
}

/// 3: so many nodes, each naming the one before.
pub fn node_count(count: usize, kind: Kind) -> Net {
    let mut nodes = Vec::new();
    for v in 0..count {
        let before = if v == 0 { input(0) } else { node(v as u32 - 1) };
        nodes.push(match kind {
            Kind::And => Gate::new(kind, &[]),
            Kind::Dff => Gate::new(kind, &[before, input(1), input(2)]),
            Kind::Mux => Gate::new(kind, &[before, input(1), input(2)]),
            _ => Gate::new(Kind::Buf, &[before]),
        });
    }
    let outs = vec![last_node(&nodes)];
    Net {
        inputs: 3,
        nodes,
        outs,
    }
}

/// 3: so many outputs.
pub fn output_count(count: usize) -> Net {
    Net {
        inputs: 1,
        nodes: vec![notation::gate("Buf !i0")],
        outs: (0..count).map(|k| [node(0), input(0)][k % 2]).collect(),
    }
}

/// 5: so many gate inputs, in gates of so many.
pub fn gate_inputs(count: usize, kind: Kind, width: usize) -> Net {
    let mut nodes = Vec::new();
    let mut left = count;
    while left > 0 {
        let take = left.min(width);
        let from = (nodes.len() % 7) as u32;
        nodes.push(Gate::new(kind, &inputs(from, take)));
        left -= take;
    }
    let outs = vec![last_node(&nodes)];
    Net {
        inputs: 1_024,
        nodes,
        outs,
    }
}

/// 10: so many gate inputs once flattened with a limit of 64 or more; the last gate unreached.
pub fn flattened(total: usize, family: Family) -> Net {
    let mut nodes = vec![Gate::new(nary(family), &inputs(0, 60))];
    for k in 0..32 {
        nodes.push(Gate::new(two(family), &[node(0), input(60 + k)]));
    }
    let rest = total - 60 - 32 * 61;
    nodes.push(Gate::new(nary(family), &inputs(200, rest)));
    Net {
        inputs: 1_024,
        outs: (1..33).map(node).collect(),
        nodes,
    }
}

/// 10: passes 2,048 on the way if the old inputs of gates not yet treated are counted in; has
/// exactly the total once flattened, since what is left only names an empty gate.
pub fn shrinking(total: usize, family: Family) -> Net {
    let mut nodes = vec![
        Gate::new(nary(family), &[]),
        Gate::new(nary(family), &inputs(0, 30)),
    ];
    let mut now = 30;
    while now + 31 <= total {
        let own = input(100 + nodes.len() as u32);
        nodes.push(Gate::new(two(family), &[node(1), own]));
        now += 31;
    }
    nodes.push(Gate::new(nary(family), &inputs(500, total - now)));
    let mut spare = 2_048 - nodes.iter().map(|g| g.ins.len()).sum::<usize>();
    while spare > 0 {
        let width = spare.min(200);
        nodes.push(Gate::new(nary(family), &vec![node(0); width]));
        spare -= width;
    }
    Net {
        inputs: 1_024,
        outs: (1..nodes.len() as u32).take(64).map(node).collect(),
        nodes,
    }
}

/// 10: doubles at every gate, far past any memory if it were flattened without a stop.
pub fn doubling(gates: u32, family: Family) -> Net {
    let mut nodes = vec![Gate::new(two(family), &[input(0), input(1)])];
    for v in 0..gates {
        nodes.push(Gate::new(two(family), &[node(v), node(v)]));
    }
    Net {
        inputs: 2,
        outs: vec![last_node(&nodes)],
        nodes,
    }
}

/// 11: gates with so many pair places, each with one signal of its own.
pub fn places(mut total: usize, family: Family) -> Vec<Gate> {
    let mut groups = Vec::new();
    if total % 2 == 1 {
        groups.push((3, 2));
        total -= 3;
    }
    while total > 0 {
        let width = (2..).take_while(|m| m * (m - 1) <= total).last().unwrap();
        groups.push((2, width));
        total -= width * (width - 1);
    }
    let (mut gates, mut next) = (Vec::new(), 0);
    for (copies, width) in groups {
        let shared = inputs(next, width);
        next += width as u32;
        for _ in 0..copies {
            let mut ins = shared.clone();
            ins.push(input(next));
            next += 1;
            gates.push(Gate::new(nary(family), &ins));
        }
    }
    gates
}

/// Document 01's case: two gates that share so many signals, each with one of its own.
pub fn two_sharing(shared: usize, family: Family) -> Net {
    let gate = |own: u32| {
        let mut ins = inputs(0, shared);
        ins.push(input(own));
        Gate::new(nary(family), &ins)
    };
    all_out(vec![gate(100), gate(101)])
}

pub fn all_out(nodes: Vec<Gate>) -> Net {
    Net {
        inputs: 1_024,
        outs: (0..nodes.len() as u32).map(node).collect(),
        nodes,
    }
}

/// 12: `pairs` gates of two inputs of their own and `tables` tables reaching them all: twice the
/// pairs and the tables are the nodes of the pass.
pub fn grown_nodes(pairs: u32, tables: u32, family: Family) -> Net {
    let mut nodes: Vec<Gate> = (0..pairs)
        .map(|k| Gate::new(two(family), &[input(2 * k), input(2 * k + 1)]))
        .collect();
    for t in 0..tables {
        let mut ins: Vec<u32> = (5 * t..5 * t + 5)
            .map(|k| if k < pairs { node(k) } else { input(k % 1_024) })
            .collect();
        if t > 0 {
            ins.push(last_node(&nodes));
        }
        nodes.push(Gate::lut(&ins, 0x6996_9669_9669_6997));
    }
    Net {
        inputs: 1_024,
        outs: nodes
            .len()
            .checked_sub(1)
            .map(|v| node(v as u32))
            .into_iter()
            .collect(),
        nodes,
    }
}

/// 12: one gate of so many inputs of its own beside 300 tables, of which one has five inputs if
/// asked: 1,800 gate inputs (or one less) and twice the width less one.
pub fn grown_inputs(width: usize, five: bool, family: Family) -> Net {
    let mut nodes = vec![Gate::new(nary(family), &inputs(700, width))];
    for t in 0..300u32 {
        let mut ins = inputs(t, if five && t == 7 { 4 } else { 5 });
        ins.push(last_node(&nodes));
        nodes.push(Gate::lut(
            &ins,
            0x8000_0001_1234_5678 >> (ins.len() % 2 * 40),
        ));
    }
    Net {
        inputs: 1_024,
        outs: vec![node(0), last_node(&nodes)],
        nodes,
    }
}

/// So many gates of two inputs of their own and nothing else, the first 64 of them outputs.
pub fn two_input_gates(count: u32, family: Family) -> Net {
    let mut net = all_out(grown_nodes(count, 0, family).nodes);
    net.outs.truncate(64);
    net
}

/// Two networks side by side; inputs are shared.
pub fn beside(a: &Net, b: &Net) -> Net {
    let shift = a.nodes.len() as u32;
    let map = |s: u32| if is_node(s) { s + 2 * shift } else { s };
    let mut both = a.clone();
    both.inputs = a.inputs.max(b.inputs);
    for g in &b.nodes {
        let mut moved = g.clone();
        moved.ins = g.ins.iter().map(|s| map(*s)).collect();
        both.nodes.push(moved);
    }
    both.outs.extend(b.outs.iter().map(|s| map(*s)));
    both.outs.truncate(64);
    both
}

/// A network near a limit of flattening or factoring, on either side of it.
pub fn near(rng: &mut Rng) -> Net {
    let family = rng.pick(&FAMILIES);
    let net = match rng.below(6) {
        0 => flattened(rng.between(2_040, 2_056), family),
        1 => shrinking(rng.between(2_040, 2_056), family),
        2 => all_out(places(rng.between(4_080, 4_112), family)),
        3 => {
            let pairs = rng.between(120, 230);
            grown_nodes(
                pairs as u32,
                (510 + rng.below(5) - 2 * pairs) as u32,
                family,
            )
        }
        4 => grown_inputs(rng.between(120, 129), rng.one_in(2), family),
        _ => {
            let (a, b) = (rng.between(3_000, 4_120), rng.between(3_000, 4_120));
            beside(
                &all_out(places(a, Family::And)),
                &all_out(places(b, Family::Xor)),
            )
        }
    };
    if rng.one_in(3) {
        beside(&net, &super::random::network(rng))
    } else {
        net
    }
}

/// Every limit, at, one short and one over.
pub fn all() -> Vec<AtLimit> {
    let mut ret = Vec::new();
    let mut add = |from, net, number| ret.push(AtLimit { from, net, number });
    for step in 0..3 {
        add("inputs", input_count(1_023 + step as u32), 64);
        for kind in [Kind::Buf, Kind::And] {
            add("nodes", node_count(511 + step, kind), 64);
        }
        for kind in [Kind::Dff, Kind::Mux] {
            add("nodes, other kinds", node_count(511 + step, kind), 64);
        }
        add("outputs", output_count(63 + step), 64);
        for (kind, width) in [(Kind::Or, 1_000), (Kind::And, 24)] {
            add("gate inputs", gate_inputs(2_047 + step, kind, width), 0);
        }
        for (kind, width) in [(Kind::Xor, 700), (Kind::Nor, 5)] {
            add(
                "gate inputs, other kinds",
                gate_inputs(2_047 + step, kind, width),
                0,
            );
        }
        for family in FAMILIES {
            add("flattened", flattened(2_047 + step, family), 64);
            add("flattened, held back", flattened(2_047 + step, family), 60);
            add("shrinking", shrinking(2_047 + step, family), 2_048);
            let few = all_out(places(4_095 + step, family));
            add("pair places", few.clone(), 200);
            add("shared signals", two_sharing(63 + step, family), 200);
            add(
                "nodes of a pass",
                grown_nodes(200, 111 + step as u32, family),
                2,
            );
            let (width, five) = [(124, false), (125, true), (125, false)][step];
            add("inputs of a pass", grown_inputs(width, five, family), 200);
        }
        // the order of the two passes
        let and_places = all_out(places(4_095 + step, Family::And));
        let xor_places = all_out(places(4_095 + step, Family::Xor));
        add("both passes", beside(&and_places, &xor_places), 200);
        let and_nodes = grown_nodes(150, 211 + step as u32, Family::And);
        add(
            "both passes",
            beside(&and_nodes, &all_out(places(4_098, Family::Xor))),
            200,
        );
        let xor_nodes = grown_nodes(100, 100 + step as u32, Family::Xor);
        add(
            "both passes",
            beside(&all_out(places(4_098, Family::And)), &xor_nodes),
            200,
        );
    }
    for family in FAMILIES {
        for gates in [9, 10, 11, 500] {
            for number in [2, 64, 2_048, u32::MAX] {
                add("doubling", doubling(gates, family), number);
            }
        }
        // 257 gates of two inputs alone
        for pairs in [255, 256, 257] {
            add("two-input gates", two_input_gates(pairs, family), 2);
        }
    }
    ret
}
