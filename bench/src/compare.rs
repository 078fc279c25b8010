//! The answers of both sides on every network, before anything is measured.

use std::process::ExitCode;

use crate::cases::{Case, LIMIT};
use crate::judge::{self, Answer, Call, Entry, ENTRIES};
use crate::ours::{self, Lent};
use crate::plain::Tables;
use crate::work::bits;

/// A line for each difference; fails if there is one.
pub fn all(cases: &[Case]) -> ExitCode {
    let (mut same, mut other) = (0, 0);
    let mut tell = |what: String, equal: bool| {
        if equal {
            same += 1;
        } else {
            other += 1;
            println!("DIFFERENT: {what}");
        }
    };
    for case in cases {
        for entry in ENTRIES.into_iter().filter(|e| ours::has(*e)) {
            tell(
                format!("{}: {}", case.name, entry.name()),
                entry_agrees(case, entry),
            );
        }
        if case.net.is_sorted() {
            tell(format!("{}: ten cycles", case.name), cycles_agree(case));
        }
    }
    println!("answers compared: {same} the same, {other} different");
    ExitCode::from(u8::from(other > 0))
}

/// What our entry answers and leaves, as the judge writes it down.
fn answered(entry: Entry, call: &Call) -> Answer {
    let mut lent = Lent::new(call);
    let answer = lent.enter(entry, &call.image, call.number);
    let (number, length) = (answer as u32, (answer >> 32) as usize);
    if number != 0 {
        return Answer {
            number,
            ..Answer::default()
        };
    }
    let nodes = if entry.has_mapping() {
        nodes(&call.image)
    } else {
        0
    };
    let evaluated = entry == Entry::Evaluate;
    let outputs = if evaluated { call.outputs } else { 0 };
    Answer {
        number,
        length,
        at: 0,
        image: lent.out[..length].to_vec(),
        mapping: lent.map[..nodes].to_vec(),
        outputs: lent.outputs[..outputs].to_vec(),
        state: if evaluated { lent.state } else { Vec::new() },
    }
}

fn nodes(image: &[u8]) -> usize {
    let at = image.len() - 12;
    u32::from_le_bytes(image[at..at + 4].try_into().unwrap()) as usize
}

fn entry_agrees(case: &Case, entry: Entry) -> bool {
    let mut call = Call::ample(&case.image).taken(entry);
    call.number = LIMIT;
    if entry == Entry::Record {
        let lengths = |k: u32| {
            let mut lent = Lent::new(&call);
            call_record(&mut lent, &case.image, k)
                == judge::answer(
                    entry,
                    &Call {
                        number: k,
                        ..call.clone()
                    },
                )
                .length
        };
        return (0..case.net.nodes.len() as u32 + 2)
            .chain([u32::MAX])
            .all(lengths);
    }
    if entry == Entry::Evaluate {
        call.outputs = case.net.outs.len();
        call.inputs = bits(case.net.inputs as usize);
    }
    answered(entry, &call) == judge::answer(entry, &call)
}

fn call_record(lent: &mut Lent, image: &[u8], k: u32) -> usize {
    lent.enter(Entry::Record, image, k) as usize
}

/// Our evaluation, the judge's and the plain one, cycle after cycle.
fn cycles_agree(case: &Case) -> bool {
    let mut call = Call::ample(&case.image).taken(Entry::Evaluate);
    call.outputs = case.net.outs.len();
    let tables = Tables::new(&case.net);
    let mut state = vec![0; case.net.nodes.len()];
    let (mut values, mut outputs) = (state.clone(), vec![0; call.outputs]);
    (0..10).all(|cycle| {
        call.inputs = bits(case.net.inputs as usize + cycle)[cycle..].to_vec();
        let expected = judge::answer(Entry::Evaluate, &call);
        let is = answered(Entry::Evaluate, &call);
        tables.cycle(&call.inputs, &mut state, &mut outputs, &mut values);
        call.state = expected.state.clone();
        let plain = expected.outputs == outputs && expected.state.starts_with(&state);
        is == expected && plain
    })
}
