//! Networks of one gate, all of them; of two and three gates, numbered so that any can be had.

use crate::net::{Gate, Kind, Net, KINDS};
use crate::notation;

/// Takes digits off a number: enumerates what is built from choices.
struct Digits(u64);

impl Digits {
    fn below(&mut self, bound: usize) -> usize {
        let digit = self.0 % bound as u64;
        self.0 /= bound as u64;
        digit as usize
    }
}

/// Every list of so many of the signals.
fn lists(signals: &[u32], count: usize) -> Vec<Vec<u32>> {
    let total = signals.len().pow(count as u32) as u64;
    let list = |number| {
        let mut digits = Digits(number);
        (0..count)
            .map(|_| signals[digits.below(signals.len())])
            .collect()
    };
    (0..total).map(list).collect()
}

fn alone(gate: Gate, inputs: u32) -> Net {
    Net {
        inputs,
        nodes: vec![gate],
        outs: notation::signals("x0 !x0"),
    }
}

/// All networks of one gate over a few inputs, constants and inversions.
pub fn one_gate() -> Vec<Net> {
    let two = notation::signals("0 1 i0 !i0 i1 !i1");
    let three = notation::signals("0 1 i0 !i0 i1 !i1 i2 !i2");
    let own = notation::signals("0 1 i0 !i0 i1 !i1 x0 !x0");
    let mut nets = Vec::new();
    for kind in KINDS {
        let (signals, counts) = match kind {
            Kind::And2 | Kind::Xor2 => (&two, 2..=2),
            Kind::And3 | Kind::Xor3 | Kind::Maj | Kind::Mux => (&three, 3..=3),
            Kind::Buf => (&three, 1..=1),
            Kind::Dff => (&own, 3..=3),
            Kind::Lut => continue,
            _ => (&three, 0..=3),
        };
        for count in counts {
            for list in lists(signals, count) {
                nets.push(alone(Gate::new(kind, &list), 3));
            }
        }
    }
    for count in 0..=2 {
        for list in lists(&two, count) {
            for table in 0..1u64 << (1 << count) {
                nets.push(alone(Gate::lut(&list, table), 3));
            }
        }
    }
    for count in 3..=6 {
        for k in 0..24u64 {
            let list: Vec<u32> = (0..count)
                .map(|p| three[(k as usize * 5 + p * 3) % 8])
                .collect();
            let table = (k + 1)
                .wrapping_mul(0x9e37_79b9_7f4a_7c15)
                .rotate_left(k as u32);
            nets.push(alone(Gate::lut(&list, table), 3));
        }
    }
    nets
}

fn gate(digits: &mut Digits, signals: &[u32]) -> Gate {
    let kind = KINDS[digits.below(KINDS.len())];
    let count = match kind {
        Kind::Lut => digits.below(3),
        _ if kind.is_nary() => digits.below(5),
        _ => (0..4).find(|n| kind.takes(*n)).unwrap(),
    };
    let ins: Vec<u32> = (0..count)
        .map(|_| signals[digits.below(signals.len())])
        .collect();
    match kind {
        Kind::Lut => Gate::lut(&ins, digits.below(16) as u64),
        _ => Gate::new(kind, &ins),
    }
}

/// The network of two gates with this number; a comb gate may name any node, so loops occur.
pub fn two_gates(number: u64) -> Net {
    let mut digits = Digits(number);
    let first = gate(&mut digits, &notation::signals("0 1 i0 !i0 i1 x0 x1 !x1"));
    let second = gate(&mut digits, &notation::signals("x0 !x0 i0 i1 !i1 1"));
    let outs = ["x1", "x0 !x1", "", "x0"];
    Net {
        inputs: 2,
        nodes: vec![first, second],
        outs: notation::signals(outs[digits.below(4)]),
    }
}

/// The network of two gates of the kinds that factoring and flip-flops turn on, all sorted.
pub fn two_plain_gates() -> Vec<Net> {
    let mut nets = Vec::new();
    let first = notation::signals("0 i0 !i0 i1");
    let second = notation::signals("x0 !x0 i0 1");
    for kind in [Kind::And2, Kind::Xor2, Kind::Buf, Kind::And, Kind::Nor] {
        let count = if kind == Kind::Buf { 1 } else { 2 };
        for a in lists(&first, count) {
            for other in [Kind::And2, Kind::Xor2, Kind::Xor, Kind::Nand] {
                for b in lists(&second, 2) {
                    nets.push(Net {
                        inputs: 2,
                        nodes: vec![Gate::new(kind, &a), Gate::new(other, &b)],
                        outs: notation::signals("x1"),
                    });
                }
            }
        }
    }
    nets
}

/// The network of three gates with this number.
pub fn three_gates(number: u64) -> Net {
    let mut digits = Digits(number);
    let first = gate(&mut digits, &notation::signals("0 1 i0 !i0 i1 i2"));
    let second = gate(&mut digits, &notation::signals("x0 !x0 i0 i1 !i2"));
    let third = gate(&mut digits, &notation::signals("x0 x1 !x1 i0 !i1"));
    let outs = ["x2", "x1 !x2", "x0 x2", "!x2 x1 x0"];
    Net {
        inputs: 3,
        nodes: vec![first, second, third],
        outs: notation::signals(outs[digits.below(4)]),
    }
}
