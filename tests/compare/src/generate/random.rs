//! Random valid networks of many shapes, and unsorted and looped ones made from them.

use crate::net::{input, is_node, node, node_of, Gate, Kind, Net, KINDS};
use crate::rng::Rng;

/// What a random network is made of.
#[derive(Debug, Clone)]
struct Shape {
    inputs: u32,
    nodes: usize,
    outs: usize,
    kinds: Vec<Kind>,
    /// The widest n-ary gate.
    width: usize,
    /// One in so many signals is a constant, inverted, a node, and of nodes one of the last few.
    constant: usize,
    inverted: usize,
    named: usize,
    recent: usize,
    /// Whether a signal may stand twice in a gate.
    repeats: bool,
}

const NARY: [Kind; 6] = [
    Kind::And,
    Kind::Or,
    Kind::Nand,
    Kind::Nor,
    Kind::Xor,
    Kind::Xnor,
];

fn shape(rng: &mut Rng) -> Shape {
    use Kind::*;
    let family = if rng.one_in(2) {
        vec![And2, And3, And]
    } else {
        vec![Xor2, Xor3, Xor]
    };
    let mut shape = Shape {
        inputs: rng.between(1, 8) as u32,
        nodes: rng.between(0, 24),
        outs: rng.between(0, 5),
        kinds: KINDS.to_vec(),
        width: 6,
        constant: 12,
        inverted: 3,
        named: 2,
        recent: 3,
        repeats: true,
    };
    match rng.below(14) {
        // gates of one family that share many signals: ties; narrow ones first
        0..4 => {
            shape.kinds = vec![if rng.one_in(2) { And } else { Xor }];
            let narrow = rng.one_in(2);
            shape.nodes = rng.between(2, if narrow { 30 } else { 14 });
            shape.inputs = rng.between(3, if narrow { 8 } else { 14 }) as u32;
            shape.width = rng.between(3, if narrow { 5 } else { 12 });
            shape.named = rng.pick(&[2, 5, 1_000]);
            shape.inverted = rng.pick(&[3, 1_000]);
            shape.constant = 1_000;
            shape.recent = 1_000;
            shape.repeats = false;
            shape.outs = shape.nodes;
        }
        // chains to flatten
        4 | 5 => {
            shape.kinds = family;
            shape.kinds.push(rng.pick(&KINDS));
            shape.constant = 30;
            shape.inverted = rng.pick(&[4, 12]);
            shape.recent = 1;
            shape.nodes = rng.between(2, 30);
            shape.repeats = rng.one_in(2);
        }
        // flip-flops
        6 => shape.kinds = vec![Dff, Dff, Dff, And2, Xor2, Mux, Maj, Buf],
        // buffers, empty and one-input gates
        7 => {
            shape.kinds = vec![Buf, Buf, And, Or, Nand, Nor, Xor, Xnor, Dff];
            shape.width = rng.between(0, 2);
        }
        // tables
        8 => shape.kinds = vec![Lut, Lut, Buf, Dff, And2],
        // Or, Nand and Nor beside Xnor, without repeats, so that factor takes them
        9 => {
            shape.kinds = NARY.to_vec();
            shape.kinds.extend([And2, Xor3, Dff]);
            shape.repeats = false;
        }
        // both families, without repeats
        10 => {
            shape.kinds = vec![And2, And3, And, Xor2, Xor3, Xor, Xnor, Dff, Mux];
            shape.repeats = false;
            shape.nodes = rng.between(4, 50);
            shape.outs = rng.between(1, 12);
            shape.width = 8;
        }
        // few signals: much is equal
        11 => {
            shape.inputs = rng.between(0, 2) as u32;
            shape.constant = 4;
        }
        // large
        12 if rng.one_in(6) => {
            shape.inputs = rng.pick(&[20, 200, 1_024]);
            shape.nodes = rng.between(100, 512);
            shape.outs = rng.between(1, 64);
            shape.width = rng.between(2, 9);
            shape.repeats = false;
            shape.recent = rng.pick(&[2, 20]);
        }
        _ => {}
    }
    shape
}

/// A valid, sorted network.
pub fn network(rng: &mut Rng) -> Net {
    let shape = shape(rng);
    let mut nodes: Vec<Gate> = Vec::new();
    let mut total = 0;
    for v in 0..shape.nodes {
        let kind = rng.pick(&shape.kinds);
        let count = match kind {
            Kind::Lut => rng.below(7),
            _ if kind.is_nary() && rng.one_in(8) => rng.below(3),
            _ if kind.is_nary() => rng.between(shape.width.min(2), shape.width),
            _ => (0..4).find(|n| kind.takes(*n)).unwrap(),
        };
        total += count;
        if total > 2_048 {
            break;
        }
        let reach = if kind == Kind::Dff { shape.nodes } else { v };
        let mut ins: Vec<u32> = Vec::new();
        for _ in 0..count {
            let mut s = signal(&shape, reach, rng);
            for _ in 0..20 {
                if shape.repeats || !ins.contains(&s) {
                    break;
                }
                s = signal(&shape, reach, rng);
            }
            ins.push(s);
        }
        nodes.push(match kind {
            Kind::Lut => Gate::lut(&ins, rng.word()),
            _ => Gate::new(kind, &ins),
        });
    }
    let mut outs = Vec::new();
    for k in 0..shape.outs {
        outs.push(if k < nodes.len() && shape.outs >= shape.nodes {
            node(k as u32) ^ rng.one_in(3) as u32
        } else if nodes.is_empty() || rng.one_in(5) {
            signal(&shape, nodes.len(), rng)
        } else {
            node(rng.below(nodes.len()) as u32) ^ rng.one_in(3) as u32
        });
    }
    let mut net = Net {
        inputs: shape.inputs,
        nodes,
        outs,
    };
    keep_present(&mut net);
    net
}

fn signal(shape: &Shape, reach: usize, rng: &mut Rng) -> u32 {
    let plain = if rng.one_in(shape.constant) {
        0
    } else if reach > 0 && (shape.inputs == 0 || rng.one_in(shape.named)) {
        let low = if rng.one_in(shape.recent) {
            reach.saturating_sub(4)
        } else {
            0
        };
        node(rng.between(low, reach - 1) as u32)
    } else if shape.inputs > 0 {
        input(rng.below(shape.inputs as usize) as u32)
    } else {
        0
    };
    plain ^ rng.one_in(shape.inverted) as u32
}

/// Flip-flops may name nodes that were never made: those become zero.
fn keep_present(net: &mut Net) {
    let nodes = net.nodes.len() as u32;
    for g in &mut net.nodes {
        for s in &mut g.ins {
            if is_node(*s) && node_of(*s) >= nodes {
                *s &= 1;
            }
        }
    }
}

/// A network with most of its nodes twice; what named one of the two names either. So nodes become
/// equal only once what they name is merged, flip-flops too.
pub fn twins(rng: &mut Rng) -> Net {
    let net = network(rng);
    let room = net.nodes.len() <= 200 && net.gate_inputs() <= 900;
    if !room {
        return net;
    }
    let (mut places, mut next) = (Vec::new(), 0);
    for _ in &net.nodes {
        let copies = rng.pick(&[1, 2, 2]);
        places.push((next, copies));
        next += copies;
    }
    let either = |s: u32, rng: &mut Rng| {
        if is_node(s) {
            let (first, copies) = places[node_of(s) as usize];
            node(first + rng.below(copies as usize) as u32) ^ (s & 1)
        } else {
            s
        }
    };
    let mut nodes = Vec::new();
    for (g, (_, copies)) in net.nodes.iter().zip(&places) {
        for _ in 0..*copies {
            let mut copy = g.clone();
            copy.ins = g.ins.iter().map(|s| either(*s, rng)).collect();
            nodes.push(copy);
        }
    }
    Net {
        inputs: net.inputs,
        nodes,
        outs: net.outs.iter().map(|s| either(*s, rng)).collect(),
    }
}

/// A network that is most often not sorted: renumbered, or with signals to any node.
pub fn unsorted(rng: &mut Rng) -> Net {
    let mut net = network(rng);
    let count = net.nodes.len();
    if count == 0 {
        return net;
    }
    if rng.one_in(3) {
        for _ in 0..rng.between(1, 3) {
            let v = rng.below(count);
            let width = net.nodes[v].ins.len();
            if width > 0 {
                net.nodes[v].ins[rng.below(width)] = node(rng.below(count) as u32);
            }
        }
        return net;
    }
    let mut new_number: Vec<u32> = (0..count as u32).collect();
    for k in (1..count).rev() {
        new_number.swap(k, rng.below(k + 1));
    }
    renumbered(&net, &new_number)
}

/// The network with node v at the place `new_number[v]`.
pub fn renumbered(net: &Net, new_number: &[u32]) -> Net {
    let map = |s: u32| {
        if is_node(s) {
            node(new_number[node_of(s) as usize]) ^ (s & 1)
        } else {
            s
        }
    };
    let mut nodes = net.nodes.clone();
    for (v, g) in net.nodes.iter().enumerate() {
        let mut moved = g.clone();
        moved.ins = g.ins.iter().map(|s| map(*s)).collect();
        nodes[new_number[v] as usize] = moved;
    }
    Net {
        inputs: net.inputs,
        nodes,
        outs: net.outs.iter().map(|s| map(*s)).collect(),
    }
}
