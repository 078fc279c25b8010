//! The pieces of work: an entry of ours, the judge's reader and writer, and the Rust's pass alone.

use std::hint::black_box;

use crate::cases::{Case, LIMIT};
use crate::image;
use crate::judge::{self, Call, Entry};
use crate::ours::{self, Lent};
use crate::plain::Tables;
use crate::trees::unchanged::glue as rust;
use crate::trees::unchanged::optim::share_logic;
use crate::trees::unchanged::Network;

pub trait Work {
    /// Makes ready what so many runs use up; not measured.
    fn prepare(&mut self, _runs: usize) {}
    fn run(&mut self);
}

/// Work that uses nothing up.
struct Plain<F: FnMut()>(F);

impl<F: FnMut()> Work for Plain<F> {
    fn run(&mut self) {
        (self.0)()
    }
}

fn plain<'a>(work: impl FnMut() + 'a) -> Option<Box<dyn Work + 'a>> {
    Some(Box::new(Plain(work)))
}

/// The Rust's pass on a network that stands in memory; copies are made and results dropped outside.
struct Pass {
    entry: Entry,
    net: Network,
    ready: Vec<Network>,
    done: Vec<Network>,
}

impl Work for Pass {
    fn prepare(&mut self, runs: usize) {
        self.ready = vec![self.net.clone(); runs];
        self.done = Vec::with_capacity(runs);
    }

    fn run(&mut self) {
        let mut net = self.ready.pop().unwrap();
        match self.entry {
            Entry::Canonical => drop(black_box(net.make_canonical())),
            Entry::Dedup => drop(black_box(net.deduplicate())),
            Entry::Cleanup => drop(black_box(net.cleanup())),
            Entry::Sort => drop(black_box(net.topo_sort())),
            Entry::Flatten => net = share_logic::flatten_nary(&net, LIMIT as usize),
            Entry::Factor => net = share_logic::factor_nary(&net),
            _ => share_logic::share_logic(&mut net, LIMIT as usize),
        }
        self.done.push(net);
    }
}

/// The name of the row that sets one cycle beside the other: both right after the same image was checked and loaded.
pub const CYCLE: &str = "cycle";

/// What is measured of one network under one name.
pub struct Row<'a> {
    pub name: &'static str,
    pub ours: Option<Box<dyn Work + 'a>>,
    /// The judge's reader, or its reader and writer; in the row of the cycle, our call that is refused before it.
    pub reader: Option<Box<dyn Work + 'a>>,
    /// The Rust's pass on a network in memory, or a plain cycle over tables that stand ready.
    pub alone: Option<Box<dyn Work + 'a>>,
}

fn call(entry: Entry, case: &Case) -> Call {
    let mut call = Call::ample(&case.image).taken(entry);
    call.number = LIMIT;
    call
}

/// One call of our entry after the other; the last answer must be the number.
fn enter<'a>(entry: Entry, case: &'a Case, call: Call, number: u64) -> Option<Box<dyn Work + 'a>> {
    let mut lent = Lent::new(&call);
    plain(move || {
        let answer = black_box(lent.enter(entry, black_box(&case.image), call.number));
        assert_eq!(answer & 0xffff_ffff, number);
    })
}

pub const PASSES: [(Entry, &str); 7] = [
    (Entry::Canonical, "canonical"),
    (Entry::Dedup, "dedup"),
    (Entry::Cleanup, "cleanup"),
    (Entry::Sort, "sort"),
    (Entry::Flatten, "flatten"),
    (Entry::Factor, "factor"),
    (Entry::Share, "share"),
];

/// The rows of a network: those whose entries are there and accept it.
pub fn rows(case: &Case) -> Vec<Row<'_>> {
    let mut rows = vec![
        Row {
            name: "check",
            ours: enter(
                Entry::Record,
                case,
                Call {
                    number: u32::MAX,
                    ..call(Entry::Record, case)
                },
                0,
            ),
            reader: None,
            alone: None,
        },
        Row {
            name: "check and load",
            ours: no_room(case),
            reader: plain(|| drop(black_box(image::read(black_box(&case.image))))),
            alone: None,
        },
        Row {
            name: "read",
            ours: enter(Entry::Read, case, call(Entry::Read, case), 0),
            reader: plain(|| {
                let read = image::read(black_box(&case.image)).unwrap();
                black_box(image::write(&read.net));
            }),
            alone: None,
        },
    ];
    for (entry, name) in PASSES {
        let accepted = judge::answer(entry, &call(entry, case)).number == 0;
        if !ours::has(entry) || !accepted {
            continue;
        }
        rows.push(Row {
            name,
            ours: enter(entry, case, call(entry, case), 0),
            reader: None,
            alone: Some(Box::new(Pass {
                entry,
                net: rust::net_in(&case.net),
                ready: Vec::new(),
                done: Vec::new(),
            })),
        });
    }
    if case.net.is_sorted() {
        rows.extend(evaluation(case));
    }
    rows
}

/// A call of evaluate that is refused once the network is loaded, with 13.
fn no_room(case: &Case) -> Option<Box<dyn Work + '_>> {
    let mut short = call(Entry::Evaluate, case);
    short.inputs.clear();
    short.state.clear();
    short.outputs = 0;
    let number = judge::answer(Entry::Evaluate, &short).number;
    if number != 13 {
        return None;
    }
    enter(Entry::Evaluate, case, short, 13)
}

/// Bytes that change with their place.
pub fn bits(count: usize) -> Vec<u8> {
    (0..count).map(|k| (k * k / 3 % 2) as u8).collect()
}

fn evaluation(case: &Case) -> Vec<Row<'_>> {
    let mut good = call(Entry::Evaluate, case);
    good.inputs = bits(case.net.inputs as usize);
    let mut rows = vec![Row {
        name: "evaluate",
        ours: enter(Entry::Evaluate, case, good.clone(), 0),
        reader: None,
        alone: Some(Box::new(Cycle::new(case, &good.inputs, None))),
    }];
    // refused with 14 once every byte was looked at: no cycle is run
    let mut bad = good.clone();
    match case.net.flip_flops().last() {
        Some(v) => bad.state[v] = 2,
        None => match bad.inputs.last_mut() {
            Some(byte) => *byte = 2,
            None => return rows,
        },
    }
    let refused = || enter(Entry::Evaluate, case, bad.clone(), 14);
    rows.push(Row {
        name: CYCLE,
        alone: Some(Box::new(Cycle::new(case, &good.inputs, refused()))),
        reader: refused(),
        ours: enter(Entry::Evaluate, case, good, 0),
    });
    rows
}

/// A plain cycle over tables that stand ready, after some other work or none.
struct Cycle<'a> {
    first: Option<Box<dyn Work + 'a>>,
    tables: Tables,
    inputs: Vec<u8>,
    state: Vec<u8>,
    values: Vec<u8>,
    outputs: Vec<u8>,
}

impl<'a> Cycle<'a> {
    fn new(case: &Case, inputs: &[u8], first: Option<Box<dyn Work + 'a>>) -> Cycle<'a> {
        Cycle {
            first,
            tables: Tables::new(&case.net),
            inputs: inputs.to_vec(),
            state: vec![0; case.net.nodes.len()],
            values: vec![0; case.net.nodes.len()],
            outputs: vec![0; case.net.outs.len()],
        }
    }
}

impl Work for Cycle<'_> {
    fn run(&mut self) {
        if let Some(first) = &mut self.first {
            first.run();
        }
        let inputs = black_box(&self.inputs);
        self.tables
            .cycle(inputs, &mut self.state, &mut self.outputs, &mut self.values);
        black_box(&self.outputs);
    }
}
