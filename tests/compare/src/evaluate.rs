//! Evaluation by document 01's rules, 64 streams at once: bit k of every word is stream k.

use crate::net::{input_of, is_input, is_inverted, is_node, node_of, Gate, Kind, Net};

/// One cycle of a sorted network: the outputs; flip-flops' words of `state` change at the end.
pub fn cycle(net: &Net, inputs: &[u64], state: &mut [u64]) -> Vec<u64> {
    let mut values = vec![0u64; net.nodes.len()];
    for v in net.flip_flops() {
        values[v] = state[v];
    }
    let value = |values: &[u64], s: u32| {
        let plain = if is_input(s) {
            inputs[input_of(s) as usize]
        } else if is_node(s) {
            values[node_of(s) as usize]
        } else {
            0
        };
        plain ^ if is_inverted(s) { !0 } else { 0 }
    };
    for (v, g) in net.nodes.iter().enumerate() {
        if !g.is_flip_flop() {
            let ins: Vec<u64> = g.ins.iter().map(|s| value(&values, *s)).collect();
            values[v] = gate(g, &ins);
        }
    }
    for v in net.flip_flops() {
        let ins = &net.nodes[v].ins;
        let (d, enable, reset) = (
            value(&values, ins[0]),
            value(&values, ins[1]),
            value(&values, ins[2]),
        );
        state[v] = (!enable & values[v]) | (enable & !reset & d);
    }
    net.outs.iter().map(|s| value(&values, *s)).collect()
}

fn gate(g: &Gate, v: &[u64]) -> u64 {
    let and = || v.iter().fold(!0, |a, b| a & b);
    let or = || v.iter().fold(0, |a, b| a | b);
    let xor = || v.iter().fold(0, |a, b| a ^ b);
    match g.kind {
        Kind::And2 | Kind::And3 | Kind::And => and(),
        Kind::Xor2 | Kind::Xor3 | Kind::Xor => xor(),
        Kind::Or => or(),
        Kind::Nand => !and(),
        Kind::Nor => !or(),
        Kind::Xnor => !xor(),
        Kind::Maj => (v[0] & v[1]) | (v[0] & v[2]) | (v[1] & v[2]),
        Kind::Mux => (v[0] & v[1]) | (!v[0] & v[2]),
        Kind::Buf => v[0],
        Kind::Lut => {
            let row = |stream: u32| -> u32 {
                let bits = v.iter().enumerate();
                bits.map(|(k, w)| ((w >> stream & 1) as u32) << k).sum()
            };
            (0..64u32).fold(0, |word, stream| {
                word | (g.table >> row(stream) & 1) << stream
            })
        }
        Kind::Dff => unreachable!("a flip-flop shows its state"),
    }
}

/// The outputs of each cycle of a fresh run.
pub fn run(net: &Net, cycles: &[Vec<u64>]) -> Vec<Vec<u64>> {
    let mut state = vec![0; net.nodes.len()];
    cycles.iter().map(|c| cycle(net, c, &mut state)).collect()
}
