//! Images: refusals 2 to 6, reading, writing, and the part that holds record k.

use crate::net::{input_of, is_input, is_node, node_of, Gate, Kind, Net};

pub const MAX_INPUTS: u32 = 1_024;
pub const MAX_NODES: usize = 512;
pub const MAX_OUTPUTS: usize = 64;
pub const MAX_GATE_INPUTS: usize = 2_048;

fn word(bytes: &[u8], at: usize) -> u32 {
    u32::from_le_bytes(bytes[at..at + 4].try_into().unwrap())
}

/// An image of which 2 to 6 do not hold.
#[derive(Debug, Clone, PartialEq, Eq)]
pub struct Read {
    pub net: Net,
    /// Where the first record is: the length of the prefix.
    pub body: usize,
    /// Where each record begins and how long it is, in bytes of the whole image.
    pub records: Vec<(usize, usize)>,
}

/// The network in an image, or the first number of 2 to 6 that it meets.
pub fn read(image: &[u8]) -> Result<Read, u32> {
    // 2
    if image.len() < 16 {
        return Err(2);
    }
    let end = image.len();
    let (inputs, nodes, outputs, distance) = (
        word(image, end - 16),
        word(image, end - 12),
        word(image, end - 8),
        word(image, end - 4),
    );
    if distance < 16 || distance % 4 != 0 || distance as usize > end {
        return Err(2);
    }
    // 3
    if inputs > MAX_INPUTS || nodes > MAX_NODES as u32 || outputs > MAX_OUTPUTS as u32 {
        return Err(3);
    }
    // 4
    let body = end - distance as usize;
    let outputs_end = end - 16;
    let outputs_length = 4 * outputs as usize;
    if body + outputs_length > outputs_end {
        return Err(4);
    }
    let outputs_at = outputs_end - outputs_length;
    let mut at = body;
    let mut gates = Vec::new();
    let mut records = Vec::new();
    for _ in 0..nodes {
        let (gate, length) = read_record(&image[at..outputs_at]).ok_or(4u32)?;
        gates.push(gate);
        records.push((at, length));
        at += length;
    }
    if at != outputs_at {
        return Err(4);
    }
    let outs = (0..outputs as usize).map(|k| word(image, outputs_at + 4 * k));
    let net = Net {
        inputs,
        nodes: gates,
        outs: outs.collect(),
    };
    // 5
    if net.gate_inputs() > MAX_GATE_INPUTS {
        return Err(5);
    }
    // 6
    let absent = |s: &u32| {
        if is_input(*s) {
            input_of(*s) >= inputs
        } else {
            is_node(*s) && node_of(*s) >= nodes
        }
    };
    if net.nodes.iter().flat_map(|g| &g.ins).any(absent) || net.outs.iter().any(absent) {
        return Err(6);
    }
    Ok(Read { net, body, records })
}

/// The record that the bytes begin with, and its length; none if it breaks the layout.
fn read_record(bytes: &[u8]) -> Option<(Gate, usize)> {
    if bytes.len() < 4 {
        return None;
    }
    let header = word(bytes, 0);
    let (code, count, top) = (header & 0xff, (header >> 8 & 0xffff) as usize, header >> 24);
    let kind = Kind::from_code(code)?;
    if top != 0 || !kind.takes(count) {
        return None;
    }
    let table_words = if kind == Kind::Lut { 2 } else { 0 };
    let length = 4 * (1 + count + table_words);
    if bytes.len() < length {
        return None;
    }
    let ins = (0..count).map(|k| word(bytes, 4 + 4 * k)).collect();
    let mut table = 0;
    if kind == Kind::Lut {
        let low = word(bytes, 4 + 4 * count);
        let high = word(bytes, 8 + 4 * count);
        table = u64::from(low) | u64::from(high) << 32;
        if count < 6 && table >> (1u32 << count) != 0 {
            return None;
        }
    }
    Some((Gate { kind, ins, table }, length))
}

pub fn write_record(g: &Gate, bytes: &mut Vec<u8>) {
    let mut push = |w: u32| bytes.extend_from_slice(&w.to_le_bytes());
    push(g.kind.code() + 256 * g.ins.len() as u32);
    for s in &g.ins {
        push(*s);
    }
    if g.kind == Kind::Lut {
        push(g.table as u32);
        push((g.table >> 32) as u32);
    }
}

/// The image of a network, without prefix.
pub fn write(net: &Net) -> Vec<u8> {
    let mut bytes = Vec::new();
    for g in &net.nodes {
        write_record(g, &mut bytes);
    }
    for s in &net.outs {
        bytes.extend_from_slice(&s.to_le_bytes());
    }
    let distance = bytes.len() as u32 + 16;
    for w in [
        net.inputs,
        net.nodes.len() as u32,
        net.outs.len() as u32,
        distance,
    ] {
        bytes.extend_from_slice(&w.to_le_bytes());
    }
    bytes
}

/// Where the part holding record k begins and how long it is; `(0, 0)` for the empty part.
pub fn record(image: &[u8], k: u32) -> (usize, usize) {
    match read(image) {
        Ok(read) => read.records.get(k as usize).copied().unwrap_or((0, 0)),
        Err(_) => (0, 0),
    }
}
