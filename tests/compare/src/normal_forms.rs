//! Single gates of every kind with the normal form that the Rust gives: the list the program
//! `normal_forms` is held to.

use std::fs;
use std::path::Path;

use crate::image;
use crate::net::{input, node, Gate, Kind, Shown, KINDS};
use crate::notation;
use crate::tally::Tally;
use crate::trees::ordered::glue;

/// Triples for the kinds of three inputs: constants, repeats and opposites at every place, all
/// orders, inversions.
const TRIPLES: [&str; 36] = [
    "i0 i1 i2",
    "i2 i1 i0",
    "i1 i0 i2",
    "i1 i2 i0",
    "!i0 i1 i2",
    "i0 !i1 i2",
    "i0 i1 !i2",
    "!i2 !i1 !i0",
    "0 i0 i1",
    "i0 0 i1",
    "i0 i1 0",
    "1 i0 i1",
    "i0 1 i1",
    "i0 i1 1",
    "i0 i0 i1",
    "i0 i1 i0",
    "i1 i0 i0",
    "i0 i1 i1",
    "!i1 i0 !i1",
    "!i0 i0 i1",
    "i0 i1 !i0",
    "i1 !i0 i0",
    "i0 !i1 i1",
    "!i0 !i1 i1",
    "i0 !i0 !i1",
    "!i0 i1 !i0",
    "0 1 i0",
    "1 i0 !i0",
    "i0 0 1",
    "i0 1 0",
    "0 0 0",
    "1 1 1",
    "x2 i0 x1",
    "!x7 !x3 !x5",
    "x0 !x0 i3",
    "i511 x510 !x0",
];

const LISTS: [&str; 13] = [
    "",
    "0",
    "1",
    "!i0",
    "i0 i1",
    "i0 !i0",
    "1 i0 1 i0",
    "i0 !i1 x0",
    "i1 0 !x3 i0",
    "!i2 x1 i2 !x4",
    "i0 !i1 !i2 x3 !x0",
    "i3 i1 i3 1 !i1 x2",
    "x5 !x4 i3 !i2 x1 i0",
];

const LISTS_MORE: [&str; 6] = [
    "0 0",
    "i0 i0 i0",
    "i0 i0 i1 i1",
    "i0 i1 i2 i0 !i0",
    "i0 i0 i0 i1 i2 i3",
    "!i0 !i0 !i1 !i2 0 0",
];

const OTHERS: [&str; 29] = [
    "Buf 0",
    "Buf 1",
    "Buf i0",
    "Buf !i0",
    "Buf x9",
    "Buf !x9",
    "Dff i0 1 0",
    "Dff 0 i0 i1",
    "Dff i0 0 i1",
    "Dff i0 i1 1",
    "Dff 1 1 0",
    "Dff !x0 1 0",
    "Dff x0 !x0 !x0",
    "Dff i0 i0 i0",
    "Dff 0 0 1",
    "Dff !i3 !i2 !i1",
    "Lut 0",
    "Lut 1",
    "Lut i0 2",
    "Lut !i0 1",
    "Lut i0 i0 8",
    "Lut 0 1 6",
    "Lut i1 i0 !i0 232",
    "Lut i0 i1 i2 i3 32768",
    "Lut x4 x3 x2 x1 x0 4294967295",
    "Lut i0 i1 i2 i3 i4 i5 9223372036854775808",
    "Lut i5 i4 i3 i2 i1 i0 18446744073709551615",
    "Lut i0 i0 i0 i0 i0 i0 1",
    "Lut 0 0 0 0 0 0 0",
];

/// Forty signals, in no order, with a constant and a repeat among them that the kind drops.
fn wide(kind: Kind) -> Gate {
    let mut ins: Vec<u32> = (0..40u32)
        .map(|k| {
            let v = k * 17 % 40;
            let plain = if v % 3 == 0 { node(v) } else { input(v) };
            plain ^ (v % 5 == 1) as u32
        })
        .collect();
    let dropped = matches!(kind, Kind::And | Kind::Nand) as u32;
    ins[11] = dropped;
    ins[25] = ins[3];
    Gate::new(kind, &ins)
}

pub fn gates() -> Vec<Gate> {
    let mut ret = Vec::new();
    let few = notation::signals("0 1 i0 !i0 i1 x2");
    for kind in [Kind::And2, Kind::Xor2] {
        for a in &few {
            for b in &few {
                ret.push(Gate::new(kind, &[*a, *b]));
            }
        }
    }
    for kind in [Kind::And3, Kind::Xor3, Kind::Maj, Kind::Mux] {
        for triple in TRIPLES {
            ret.push(Gate::new(kind, &notation::signals(triple)));
        }
    }
    for kind in KINDS.into_iter().filter(|k| k.is_nary()) {
        for list in LISTS {
            ret.push(Gate::new(kind, &notation::signals(list)));
        }
        if matches!(kind, Kind::And | Kind::Xor) {
            for list in LISTS_MORE {
                ret.push(Gate::new(kind, &notation::signals(list)));
            }
        }
        ret.push(wide(kind));
    }
    ret.extend(OTHERS.iter().map(|g| notation::gate(g)));
    ret
}

/// `<gate> -> <normal form>`, `!` before the kind of an inverted gate.
pub fn line(g: &Gate) -> String {
    match glue::normal_form(g) {
        Ok(copied) => format!("{g} -> {}", Shown(copied)),
        Err((normal, inverted)) => format!("{g} -> {}{normal}", if inverted { "!" } else { "" }),
    }
}

/// The records one after another, and the lines.
fn list() -> (Vec<u8>, String) {
    let (mut records, mut lines) = (Vec::new(), String::new());
    for g in gates() {
        image::write_record(&g, &mut records);
        lines.push_str(&line(&g));
        lines.push('\n');
    }
    (records, lines)
}

/// Writes the records to `stdin` and the lines to `stdout` in the folder; says how many.
pub fn write(folder: &Path) -> usize {
    let (records, lines) = list();
    assert!(records.len() <= 16_384);
    fs::create_dir_all(folder).unwrap();
    fs::write(folder.join("stdin"), records).unwrap();
    fs::write(folder.join("stdout"), &lines).unwrap();
    lines.lines().count()
}

/// The two files in the folder are what the Rust gives.
pub fn verify(t: &mut Tally, folder: &Path) {
    let (records, lines) = list();
    let same = |name: &str, bytes: &[u8]| fs::read(folder.join(name)).is_ok_and(|f| f == bytes);
    t.check("records of the normal forms", same("stdin", &records));
    t.check(
        "lines of the normal forms",
        same("stdout", lines.as_bytes()),
    );
}
