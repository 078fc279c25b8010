//! The listing of a network, and what the program `share` prints.

use std::fmt::Write;

use crate::image;
use crate::judge::{self, Call, Entry};
use crate::net::{Net, Shown};

pub fn listing(net: &Net) -> String {
    let mut text = String::new();
    writeln!(
        text,
        "inputs {} nodes {} outputs {}",
        net.inputs,
        net.nodes.len(),
        net.outs.len()
    )
    .unwrap();
    for (v, g) in net.nodes.iter().enumerate() {
        writeln!(text, "x{v} {g}").unwrap();
    }
    for (k, s) in net.outs.iter().enumerate() {
        writeln!(text, "o{k} {}", Shown(*s)).unwrap();
    }
    text
}

/// What `share` prints for its standard input: the limit's word, then an image.
pub fn share_program(standard_input: &[u8]) -> String {
    if standard_input.len() < 4 || standard_input.len() > 16_384 {
        return "refused 2\n".to_string();
    }
    let (limit, rest) = standard_input.split_at(4);
    let call = Call {
        number: u32::from_le_bytes(limit.try_into().unwrap()),
        ..Call::ample(rest)
    };
    let answer = judge::answer(Entry::Share, &call);
    match answer.number {
        0 => listing(&image::read(&answer.image).unwrap().net),
        number => format!("refused {number}\n"),
    }
}
