//! A plain evaluation over flat tables like those of a work area: kind, first input and count.

use crate::net::{input_of, is_input, is_inverted, is_node, node_of, Kind, Net};

pub struct Tables {
    gates: Vec<(Kind, usize, usize)>,
    ins: Vec<u32>,
    luts: Vec<u64>,
    outs: Vec<u32>,
}

impl Tables {
    pub fn new(net: &Net) -> Tables {
        let mut tables = Tables {
            gates: Vec::new(),
            ins: Vec::new(),
            luts: Vec::new(),
            outs: net.outs.clone(),
        };
        for g in &net.nodes {
            tables.gates.push((g.kind, tables.ins.len(), g.ins.len()));
            tables.ins.extend(&g.ins);
            tables.luts.push(g.table);
        }
        tables
    }

    /// One cycle; `values` has room for each node.
    pub fn cycle(&self, inputs: &[u8], state: &mut [u8], outputs: &mut [u8], values: &mut [u8]) {
        let value = |values: &[u8], s: u32| -> u8 {
            let plain = if is_input(s) {
                inputs[input_of(s) as usize]
            } else if is_node(s) {
                values[node_of(s) as usize]
            } else {
                0
            };
            plain ^ is_inverted(s) as u8
        };
        for (v, (kind, first, count)) in self.gates.iter().enumerate() {
            let ins = &self.ins[*first..first + count];
            let mut each = ins.iter().map(|s| value(values, *s));
            let shown = match kind {
                Kind::And2 | Kind::And3 | Kind::And => each.all(|b| b == 1) as u8,
                Kind::Nand => !each.all(|b| b == 1) as u8,
                Kind::Or => each.any(|b| b == 1) as u8,
                Kind::Nor => !each.any(|b| b == 1) as u8,
                Kind::Xor2 | Kind::Xor3 | Kind::Xor => each.fold(0, |a, b| a ^ b),
                Kind::Xnor => each.fold(1, |a, b| a ^ b),
                Kind::Maj => (each.sum::<u8>() > 1) as u8,
                Kind::Mux => value(values, ins[if value(values, ins[0]) == 1 { 1 } else { 2 }]),
                Kind::Buf => value(values, ins[0]),
                Kind::Dff => state[v],
                Kind::Lut => {
                    let row = each.rev().fold(0, |row, b| 2 * row + u32::from(b));
                    (self.luts[v] >> row & 1) as u8
                }
            };
            values[v] = shown;
        }
        for (byte, s) in outputs.iter_mut().zip(&self.outs) {
            *byte = value(values, *s);
        }
        for (v, (kind, first, _)) in self.gates.iter().enumerate() {
            if *kind == Kind::Dff && value(values, self.ins[first + 1]) == 1 {
                let reset = value(values, self.ins[first + 2]);
                state[v] = value(values, self.ins[*first]) & (reset ^ 1);
            }
        }
    }
}
