//! Networks as document 01 describes them: signal words, kinds, gates, sorted, loops.

use std::fmt;

pub const ZERO: u32 = 0;
pub const ONE: u32 = 1;

pub fn node(v: u32) -> u32 {
    2 * (v + 1)
}

pub fn input(v: u32) -> u32 {
    u32::MAX - 1 - 2 * v
}

pub fn is_inverted(s: u32) -> bool {
    s & 1 == 1
}

pub fn is_input(s: u32) -> bool {
    s >> 31 == 1
}

pub fn is_node(s: u32) -> bool {
    !is_input(s) && s >= 2
}

/// The number of the node that a signal names.
pub fn node_of(s: u32) -> u32 {
    s / 2 - 1
}

/// The number of the input that a signal names.
pub fn input_of(s: u32) -> u32 {
    (u32::MAX - s) / 2
}

/// `!` for inversion, then the constant, node or input.
pub struct Shown(pub u32);

impl fmt::Display for Shown {
    fn fmt(&self, f: &mut fmt::Formatter<'_>) -> fmt::Result {
        let s = self.0;
        let sign = if is_inverted(s) { "!" } else { "" };
        if is_input(s) {
            write!(f, "{sign}i{}", input_of(s))
        } else if is_node(s) {
            write!(f, "{sign}x{}", node_of(s))
        } else {
            write!(f, "{s}")
        }
    }
}

#[derive(Debug, Clone, Copy, PartialEq, Eq, PartialOrd, Ord, Hash)]
pub enum Kind {
    And2,
    Xor2,
    And3,
    Xor3,
    Maj,
    Mux,
    And,
    Or,
    Nand,
    Nor,
    Xor,
    Xnor,
    Buf,
    Dff,
    Lut,
}

#[derive(Debug, Clone, Copy, PartialEq, Eq)]
pub enum Family {
    And,
    Xor,
}

/// Every kind at the place of its code.
pub const KINDS: [Kind; 15] = [
    Kind::And2,
    Kind::Xor2,
    Kind::And3,
    Kind::Xor3,
    Kind::Maj,
    Kind::Mux,
    Kind::And,
    Kind::Or,
    Kind::Nand,
    Kind::Nor,
    Kind::Xor,
    Kind::Xnor,
    Kind::Buf,
    Kind::Dff,
    Kind::Lut,
];

impl Kind {
    pub fn code(self) -> u32 {
        self as u32
    }

    pub fn from_code(code: u32) -> Option<Kind> {
        KINDS.get(code as usize).copied()
    }

    pub fn is_nary(self) -> bool {
        (6..=11).contains(&self.code())
    }

    pub fn takes(self, count: usize) -> bool {
        match self {
            Kind::And2 | Kind::Xor2 => count == 2,
            Kind::And3 | Kind::Xor3 | Kind::Maj | Kind::Mux | Kind::Dff => count == 3,
            Kind::Buf => count == 1,
            Kind::Lut => count <= 6,
            _ => true,
        }
    }

    pub fn family(self) -> Option<Family> {
        match self {
            Kind::And2 | Kind::And3 | Kind::And => Some(Family::And),
            Kind::Xor2 | Kind::Xor3 | Kind::Xor => Some(Family::Xor),
            _ => None,
        }
    }

    /// The name in a listing: document 01's, with an N where the gate is n-ary.
    pub fn name(self) -> String {
        let letter = if self.is_nary() { "N" } else { "" };
        format!("{self:?}{letter}")
    }
}

#[derive(Debug, Clone, PartialEq, Eq, Hash)]
pub struct Gate {
    pub kind: Kind,
    pub ins: Vec<u32>,
    pub table: u64,
}

impl Gate {
    pub fn new(kind: Kind, ins: &[u32]) -> Gate {
        Gate {
            kind,
            ins: ins.to_vec(),
            table: 0,
        }
    }

    pub fn lut(ins: &[u32], table: u64) -> Gate {
        let bits = 1u32 << ins.len();
        let table = if bits < 64 {
            table & ((1u64 << bits) - 1)
        } else {
            table
        };
        Gate {
            kind: Kind::Lut,
            ins: ins.to_vec(),
            table,
        }
    }

    pub fn is_flip_flop(&self) -> bool {
        self.kind == Kind::Dff
    }

    /// The numbers of the nodes it names, with repeats.
    pub fn names(&self) -> impl Iterator<Item = usize> + '_ {
        let nodes = self.ins.iter().filter(|s| is_node(**s));
        nodes.map(|s| node_of(*s) as usize)
    }
}

impl fmt::Display for Gate {
    fn fmt(&self, f: &mut fmt::Formatter<'_>) -> fmt::Result {
        write!(f, "{}", self.kind.name())?;
        for s in &self.ins {
            write!(f, " {}", Shown(*s))?;
        }
        if self.kind == Kind::Lut {
            write!(f, " {}", self.table)?;
        }
        Ok(())
    }
}

#[derive(Debug, Clone, Default, PartialEq, Eq, Hash)]
pub struct Net {
    pub inputs: u32,
    pub nodes: Vec<Gate>,
    pub outs: Vec<u32>,
}

impl Net {
    /// Gate inputs in all, of every kind.
    pub fn gate_inputs(&self) -> usize {
        self.nodes.iter().map(|g| g.ins.len()).sum()
    }

    /// Each combinational gate names only nodes below its own number.
    pub fn is_sorted(&self) -> bool {
        let mut gates = self.nodes.iter().enumerate();
        gates.all(|(i, g)| g.is_flip_flop() || g.names().all(|v| v < i))
    }

    /// Whether combinational gates name each other in a circle: gates all of whose named
    /// combinational gates are done are done, until nothing changes.
    pub fn has_loop(&self) -> bool {
        let mut done: Vec<bool> = self.nodes.iter().map(Gate::is_flip_flop).collect();
        loop {
            let mut changed = false;
            for (i, g) in self.nodes.iter().enumerate() {
                if !done[i] && g.names().all(|v| done[v]) {
                    done[i] = true;
                    changed = true;
                }
            }
            if !changed {
                return done.contains(&false);
            }
        }
    }

    pub fn flip_flops(&self) -> impl Iterator<Item = usize> + '_ {
        let gates = self.nodes.iter().enumerate();
        gates.filter(|(_, g)| g.is_flip_flop()).map(|(i, _)| i)
    }
}
