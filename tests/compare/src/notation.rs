//! Networks written as text, for lists of hand-made cases: `And3 i0 !x1 1`, `Lut i0 i1 8`.

use crate::net::{input, node, Gate, Kind, Net, KINDS, ONE, ZERO};

pub fn signal(text: &str) -> u32 {
    let (plain, inverted) = match text.strip_prefix('!') {
        Some(rest) => (rest, 1),
        None => (text, 0),
    };
    let number = || plain[1..].parse::<u32>().expect(text);
    let word = match plain.as_bytes()[0] {
        b'0' => ZERO,
        b'1' => ONE,
        b'i' => input(number()),
        b'x' => node(number()),
        _ => panic!("no signal: {text}"),
    };
    word ^ inverted
}

pub fn signals(text: &str) -> Vec<u32> {
    text.split_whitespace().map(signal).collect()
}

pub fn gate(text: &str) -> Gate {
    let mut words: Vec<&str> = text.split_whitespace().collect();
    let name = words.remove(0);
    let kind = KINDS.into_iter().find(|k| k.name() == name).expect(text);
    let table = match kind {
        Kind::Lut => words.pop().unwrap().parse().expect(text),
        _ => 0,
    };
    let ins = words.into_iter().map(signal).collect();
    Gate { kind, ins, table }
}

pub fn net(inputs: u32, gates: &[&str], outs: &str) -> Net {
    Net {
        inputs,
        nodes: gates.iter().map(|g| gate(g)).collect(),
        outs: signals(outs),
    }
}
