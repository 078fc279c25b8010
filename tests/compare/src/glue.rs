// Networks into a module tree and back, and the tree's passes on our networks; stands in both trees.

use super::network::{BinaryType, Gate, NaryType, Network, Normalization, Signal, TernaryType};
use super::optim::share_logic::{self, doors};
use crate::net::{self, Kind, Net};

pub fn signal(word: u32) -> Signal {
    let plain = if net::is_input(word) {
        Signal::from_input(net::input_of(word))
    } else if net::is_node(word) {
        Signal::from_var(net::node_of(word))
    } else {
        Signal::zero()
    };
    plain ^ net::is_inverted(word)
}

fn signals(words: &[u32]) -> Vec<Signal> {
    words.iter().map(|w| signal(*w)).collect()
}

fn words(signals: &[Signal]) -> Vec<u32> {
    signals.iter().map(|s| s.raw()).collect()
}

pub fn gate_in(g: &net::Gate) -> Gate {
    let v = signals(&g.ins);
    let nary = |kind| Gate::Nary(v.clone().into(), kind);
    match g.kind {
        Kind::And2 => Gate::and(v[0], v[1]),
        Kind::Xor2 => Gate::xor(v[0], v[1]),
        Kind::And3 => Gate::and3(v[0], v[1], v[2]),
        Kind::Xor3 => Gate::xor3(v[0], v[1], v[2]),
        Kind::Maj => Gate::maj(v[0], v[1], v[2]),
        Kind::Mux => Gate::mux(v[0], v[1], v[2]),
        Kind::And => nary(NaryType::And),
        Kind::Or => nary(NaryType::Or),
        Kind::Nand => nary(NaryType::Nand),
        Kind::Nor => nary(NaryType::Nor),
        Kind::Xor => nary(NaryType::Xor),
        Kind::Xnor => nary(NaryType::Xnor),
        Kind::Buf => Gate::Buf(v[0]),
        Kind::Dff => Gate::dff(v[0], v[1], v[2]),
        Kind::Lut => Gate::lut(&v, volute::Lut::from_table(v.len(), g.table)),
    }
}

pub fn gate_out(g: &Gate) -> net::Gate {
    let (kind, table) = match g {
        Gate::Binary(_, BinaryType::And) => (Kind::And2, 0),
        Gate::Binary(_, BinaryType::Xor) => (Kind::Xor2, 0),
        Gate::Ternary(_, TernaryType::And) => (Kind::And3, 0),
        Gate::Ternary(_, TernaryType::Xor) => (Kind::Xor3, 0),
        Gate::Ternary(_, TernaryType::Maj) => (Kind::Maj, 0),
        Gate::Ternary(_, TernaryType::Mux) => (Kind::Mux, 0),
        Gate::Nary(_, NaryType::And) => (Kind::And, 0),
        Gate::Nary(_, NaryType::Or) => (Kind::Or, 0),
        Gate::Nary(_, NaryType::Nand) => (Kind::Nand, 0),
        Gate::Nary(_, NaryType::Nor) => (Kind::Nor, 0),
        Gate::Nary(_, NaryType::Xor) => (Kind::Xor, 0),
        Gate::Nary(_, NaryType::Xnor) => (Kind::Xnor, 0),
        Gate::Buf(_) => (Kind::Buf, 0),
        Gate::Dff(_) => (Kind::Dff, 0),
        Gate::Lut(lut) => (Kind::Lut, lut.lut.table()),
    };
    net::Gate {
        kind,
        ins: words(g.dependencies()),
        table,
    }
}

pub fn net_in(net: &Net) -> Network {
    let mut ret = Network::new();
    ret.add_inputs(net.inputs as usize);
    for g in &net.nodes {
        ret.add(gate_in(g));
    }
    for s in &net.outs {
        ret.add_output(signal(*s));
    }
    ret
}

pub fn net_out(net: &Network) -> Net {
    Net {
        inputs: net.nb_inputs() as u32,
        nodes: (0..net.nb_nodes()).map(|i| gate_out(net.gate(i))).collect(),
        outs: (0..net.nb_outputs()).map(|i| net.output(i).raw()).collect(),
    }
}

/// A copied signal, or a gate and whether it is inverted.
pub fn normal_form(g: &net::Gate) -> Result<u32, (net::Gate, bool)> {
    match gate_in(g).make_canonical() {
        Normalization::Copy(s) => Ok(s.raw()),
        Normalization::Node(g, inv) => Err((gate_out(&g), inv)),
    }
}

fn with_mapping(net: &Net, pass: impl Fn(&mut Network) -> Box<[Signal]>) -> (Net, Vec<u32>) {
    let mut inside = net_in(net);
    let mapping = pass(&mut inside);
    (net_out(&inside), words(&mapping))
}

pub fn canonical(net: &Net) -> (Net, Vec<u32>) {
    with_mapping(net, |n| n.make_canonical())
}

pub fn dedup(net: &Net) -> (Net, Vec<u32>) {
    with_mapping(net, |n| n.deduplicate())
}

pub fn cleanup(net: &Net) -> (Net, Vec<u32>) {
    with_mapping(net, |n| n.cleanup())
}

pub fn sort(net: &Net) -> (Net, Vec<u32>) {
    with_mapping(net, |n| n.topo_sort())
}

pub fn flatten(net: &Net, limit: u32) -> Net {
    net_out(&share_logic::flatten_nary(&net_in(net), limit as usize))
}

pub fn factor(net: &Net) -> Net {
    net_out(&share_logic::factor_nary(&net_in(net)))
}

pub fn share(net: &Net, limit: u32) -> Net {
    let mut inside = net_in(net);
    share_logic::share_logic(&mut inside, limit as usize);
    net_out(&inside)
}

pub fn factor_pass(net: &Net, family: net::Family) -> Net {
    let inside = net_in(net);
    net_out(&match family {
        net::Family::And => doors::and_pass(&inside),
        net::Family::Xor => doors::xor_pass(&inside),
    })
}

/// The pairs and joins that factoring builds over the lists, in order, and what each list became.
pub fn factoring(lists: &[Vec<u32>], first: u32) -> (Vec<(u32, u32)>, Vec<u32>) {
    let (built, became) = doors::run(lists.iter().map(|v| signals(v)).collect(), first);
    let built = built.iter().map(|(a, b)| (a.raw(), b.raw())).collect();
    (built, words(&became))
}
