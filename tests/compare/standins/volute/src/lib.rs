//! Stand-in for volute: a truth table of up to six variables in one 64-bit word.

use std::fmt;

#[derive(Debug, Clone, PartialEq, Eq, Hash)]
pub struct Lut {
    num_vars: usize,
    table: u64,
}

impl Lut {
    /// The table's bit number b is the value where variable k is bit k of b.
    pub fn from_table(num_vars: usize, table: u64) -> Lut {
        assert!(num_vars <= 6);
        assert!(num_vars == 6 || table >> (1u32 << num_vars) == 0);
        Lut { num_vars, table }
    }

    pub fn num_vars(&self) -> usize {
        self.num_vars
    }

    pub fn table(&self) -> u64 {
        self.table
    }
}

impl fmt::Display for Lut {
    fn fmt(&self, f: &mut fmt::Formatter<'_>) -> fmt::Result {
        let digits = (1usize << self.num_vars).div_ceil(4);
        write!(f, "Lut{}({:0digits$x})", self.num_vars, self.table)
    }
}
