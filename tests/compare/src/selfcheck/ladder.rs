//! Each refusal by an image made for it, and the first of two that an image meets.

use crate::generate::limits;
use crate::image;
use crate::judge::{self, Call, Entry, AREA, ENTRIES};
use crate::net::{input, Family, Gate, Kind, Net};
use crate::notation::net;
use crate::tally::Tally;

fn bytes(words: &[u32]) -> Vec<u8> {
    words.iter().flat_map(|w| w.to_le_bytes()).collect()
}

const I0: u32 = u32::MAX - 1;

/// Images as words, and the number of 2 to 6 they meet first (0 for none).
fn table() -> Vec<(&'static str, Vec<u32>, u32)> {
    let and2 = 512;
    vec![
        ("nothing", vec![], 2),
        ("three words", vec![0, 0, 0], 2),
        ("the empty network", vec![0, 0, 0, 16], 0),
        ("D below 16", vec![0, 0, 0, 12], 2),
        ("D no multiple of 4", vec![0, 0, 0, 0, 17], 2),
        ("D past the start", vec![0, 0, 0, 20], 2),
        ("a prefix", vec![7, 0, 0, 0, 16], 0),
        ("D holds too much", vec![0, 0, 0, 0, 20], 4),
        ("2 before 3", vec![1_025, 513, 65, 12], 2),
        ("1,025 inputs", vec![1_025, 0, 0, 16], 3),
        ("513 nodes", vec![0, 513, 0, 16], 3),
        ("65 outputs", vec![0, 0, 65, 16], 3),
        ("no room for the outputs", vec![0, 0, 1, 16], 4),
        ("no room for a record", vec![0, 1, 0, 16], 4),
        ("an output of one", vec![1, 0, 0, 1, 20], 0),
        (
            "an output that is a record's",
            vec![and2, I0, I0, 1, 1, 1, 28],
            4,
        ),
        ("a gate", vec![and2, I0, I0, 1, 1, 0, 28], 0),
        ("a code of 15", vec![15, 1, 1, 0, 20], 4),
        ("a code of 19", vec![19 + 768, I0, I0, I0, 1, 1, 0, 32], 4),
        ("a code of 255", vec![255, 1, 1, 0, 20], 4),
        ("top bits", vec![1 << 24 | 6, 1, 1, 0, 20], 4),
        ("top bit", vec![1 << 31 | 6, 1, 1, 0, 20], 4),
        ("And2 of one", vec![256, I0, 1, 1, 0, 24], 4),
        ("And2 of three", vec![768, I0, I0, I0, 1, 1, 0, 32], 4),
        ("And3 of two", vec![2 + 512, I0, I0, 1, 1, 0, 28], 4),
        ("Mux of two", vec![5 + 512, I0, I0, 1, 1, 0, 28], 4),
        ("Buf of none", vec![12, 1, 1, 0, 20], 4),
        ("Buf of two", vec![12 + 512, I0, I0, 1, 1, 0, 28], 4),
        ("Dff of two", vec![13 + 512, I0, I0, 1, 1, 0, 28], 4),
        ("Dff of four", vec![13 + 1_024, 0, 0, 0, 0, 1, 1, 0, 36], 4),
        ("an empty And", vec![6, 1, 1, 0, 20], 0),
        ("an empty Xnor", vec![11, 1, 1, 0, 20], 0),
        ("65,535 inputs", vec![6 + 65_535 * 256, I0, 1, 1, 0, 24], 4),
        (
            "Lut of seven",
            vec![14 + 7 * 256, 0, 0, 0, 0, 0, 0, 0, 0, 0, 1, 1, 0, 56],
            4,
        ),
        ("Lut of none", vec![14, 1, 0, 1, 1, 0, 28], 0),
        ("Lut of none, bit 1", vec![14, 2, 0, 1, 1, 0, 28], 4),
        ("Lut of none, high word", vec![14, 1, 1, 1, 1, 0, 28], 4),
        (
            "Lut of one, bit 2",
            vec![14 + 256, I0, 4, 0, 1, 1, 0, 32],
            4,
        ),
        (
            "Lut of five",
            vec![14 + 5 * 256, 0, 0, 0, 0, 0, u32::MAX, 0, 1, 1, 0, 48],
            0,
        ),
        (
            "Lut of five, bit 32",
            vec![14 + 5 * 256, 0, 0, 0, 0, 0, 0, 1, 1, 1, 0, 48],
            4,
        ),
        (
            "Lut of six",
            vec![
                14 + 6 * 256,
                0,
                0,
                0,
                0,
                0,
                0,
                u32::MAX,
                u32::MAX,
                1,
                1,
                0,
                52,
            ],
            0,
        ),
        (
            "Lut whose table is cut",
            vec![14 + 256, I0, 1, 1, 1, 0, 28],
            4,
        ),
        (
            "Lut's table runs into the outputs",
            vec![14, 1, 0, 1, 1, 1, 28],
            4,
        ),
        ("a record too many", vec![6, 6, 1, 1, 0, 24], 4),
        ("a record too few", vec![6, 1, 2, 0, 20], 4),
        ("an absent input", vec![and2, I0, I0 - 2, 1, 1, 0, 28], 6),
        ("an absent node", vec![and2, I0, 4, 1, 1, 0, 28], 6),
        ("its own node", vec![and2, I0, 2, 1, 1, 0, 28], 0),
        (
            "the placeholder's word",
            vec![12 + 256, 0x8000_0000, 1, 1, 0, 24],
            6,
        ),
        (
            "the last node's word",
            vec![12 + 256, 0x7fff_ffff, 1, 1, 0, 24],
            6,
        ),
        ("an absent output", vec![2, 0, 0, 1, 20], 6),
        ("an absent input as output", vec![I0, 0, 0, 1, 20], 6),
        ("constants", vec![0, 1, 0, 0, 2, 24], 0),
        ("4 before 6", vec![256 + 12, 100, 15, 1, 2, 0, 28], 4),
    ]
}

/// So many gate inputs in n-ary Ors; one more record behind them.
fn wide(total: usize, last: Option<Gate>) -> Vec<u8> {
    let mut nodes = Vec::new();
    let mut left = total;
    while left > 0 {
        let take = left.min(1_000);
        nodes.push(Gate::new(Kind::Or, &vec![input(0); take]));
        left -= take;
    }
    nodes.extend(last);
    image::write(&Net {
        inputs: 1,
        nodes,
        outs: vec![],
    })
}

/// Images made for the numbers 2 to 6, with a word on each and the number it meets first.
pub fn all_images() -> Vec<(&'static str, Vec<u8>, u32)> {
    let mut all = Vec::new();
    for (what, words, number) in table() {
        all.push((what, bytes(&words), number));
    }
    all.push(("2,048 gate inputs", wide(2_048, None), 0));
    all.push(("2,049 gate inputs", wide(2_049, None), 5));
    let absent = Gate::new(Kind::Buf, &[input(5)]);
    all.push(("5 before 6", wide(2_048, Some(absent)), 5));
    let mut bad = wide(2_049, Some(Gate::new(Kind::And, &[])));
    let at = bad.len() - 20;
    bad[at] = 15;
    all.push(("4 before 5", bad, 4));
    all
}

pub fn images(t: &mut Tally) {
    for (what, image, number) in &all_images() {
        let found = image::read(image).err().unwrap_or(0);
        t.equal(what, found, *number);
        for entry in ENTRIES {
            let answer = judge::answer(entry, &Call::ample(image));
            if *number != 0 {
                t.equal(
                    what,
                    answer.number,
                    if entry == Entry::Record { 0 } else { *number },
                );
                t.equal(what, answer.length, 0);
            }
            let mut short = Call::ample(image);
            short.areas = [AREA, AREA - 1];
            if entry != Entry::Record {
                t.equal("1 before all", judge::answer(entry, &short).number, 1);
            }
        }
    }
    orders(t);
}

/// A change to a call.
type Change<'a> = &'a dyn Fn(&mut Call);

/// Which of two numbers comes first, from 7 on.
fn orders(t: &mut Tally) {
    let ask = |net: &Net, entry: Entry, change: Change| {
        let mut call = Call::ample(&image::write(net));
        change(&mut call);
        judge::answer(entry, &call).number
    };
    let own = net(1, &["And2 x0 x0"], "x0");
    let none = |c: &mut Call| c.out = 0;
    t.equal("7 before 9", ask(&own, Entry::Factor, &none), 7);
    t.equal("7 before 13", ask(&own, Entry::Canonical, &none), 7);
    t.equal("8 before 13", ask(&own, Entry::Sort, &none), 8);
    t.equal("cleanup has no 7", ask(&own, Entry::Cleanup, &|_| ()), 0);
    t.equal("reading has no 7", ask(&own, Entry::Read, &|_| ()), 0);
    t.equal(
        "evaluation has 7",
        ask(&own, Entry::Evaluate, &|c| c.outputs = 0),
        7,
    );
    let hidden = net(0, &["AndN x0"], "");
    t.equal(
        "7 where nothing is reached",
        ask(&hidden, Entry::Share, &|_| ()),
        7,
    );
    t.equal(
        "8 where nothing is reached",
        ask(&hidden, Entry::Sort, &|_| ()),
        8,
    );
    for (gate, number) in [
        ("And2 0 0", 9),
        ("And2 i0 i0", 9),
        ("And2 i0 !i0", 0),
        ("And3 i0 i1 i0", 9),
        ("AndN i0 i1 i2 i1", 9),
        ("AndN i0", 0),
        ("AndN", 0),
        ("OrN i0 i0", 0),
        ("NandN i0 i0", 0),
        ("NorN i0 i0", 0),
        ("Xor2 i0 i0", 0),
        ("XnorN i0 i0 i0", 0),
        ("Maj i0 i0 i0", 0),
    ] {
        let one = net(3, &[gate], "");
        t.equal(gate, ask(&one, Entry::Factor, &|_| ()), number);
        t.equal(gate, ask(&one, Entry::Share, &|_| ()), 0);
    }
    let ff = net(2, &["Buf i0", "Dff i0 1 0"], "x1 x0");
    let numbers: [(&str, Change, u32); 9] = [
        ("13 for inputs", &|c| c.inputs.truncate(1), 13),
        ("13 for state", &|c| c.state.truncate(1), 13),
        ("13 for outputs", &|c| c.outputs = 1, 13),
        ("14 for an input", &|c| c.inputs[1] = 2, 14),
        ("14 for a flip-flop", &|c| c.state[1] = 255, 14),
        ("no 14 behind the inputs", &|c| c.inputs[2] = 2, 0),
        ("no 14 for a gate's state", &|c| c.state[0] = 2, 0),
        ("no 14 behind the state", &|c| c.state[2] = 2, 0),
        (
            "13 before 14",
            &|c| {
                c.inputs[0] = 2;
                c.outputs = 0;
            },
            13,
        ),
    ];
    for (what, change, number) in numbers {
        t.equal(what, ask(&ff, Entry::Evaluate, change), number);
    }
}

/// The numbers that the networks at each limit are made to meet.
pub fn limits(t: &mut Tally) {
    let ask = |net: &Net, entry: Entry, number: u32| {
        let call = Call {
            number,
            ..Call::ample(&image::write(net))
        };
        judge::answer(entry, &call).number
    };
    for (step, over) in [(0, false), (1, false), (2, true)] {
        let number = |n| if over { n } else { 0 };
        let at = limits::input_count(1_023 + step as u32);
        t.equal("inputs", ask(&at, Entry::Share, 64), number(3));
        for kind in [Kind::Buf, Kind::And, Kind::Dff, Kind::Mux] {
            let at = limits::node_count(511 + step, kind);
            t.equal("nodes", ask(&at, Entry::Share, 64), number(3));
        }
        let at = limits::output_count(63 + step);
        t.equal("outputs", ask(&at, Entry::Share, 64), number(3));
        let at = limits::gate_inputs(2_047 + step, Kind::Or, 1_000);
        t.equal("gate inputs", ask(&at, Entry::Cleanup, 0), number(5));
        for family in [Family::And, Family::Xor] {
            let at = limits::flattened(2_047 + step, family);
            t.equal("flattened", ask(&at, Entry::Flatten, 64), number(10));
            t.equal("flattened, held back", ask(&at, Entry::Flatten, 60), 0);
            let at = limits::shrinking(2_047 + step, family);
            t.equal("shrinking", ask(&at, Entry::Flatten, 2_048), number(10));
            let gates = limits::places(4_095 + step, family);
            let at = limits::all_out(gates);
            t.equal("pair places", ask(&at, Entry::Factor, 0), number(11));
            t.equal("pair places", ask(&at, Entry::Share, 200), number(11));
            let at = limits::grown_nodes(200, 111 + step as u32, family);
            t.equal("nodes of a pass", ask(&at, Entry::Factor, 0), number(12));
            t.equal("nodes of a pass", ask(&at, Entry::Share, 2), number(12));
            let (width, five) = [(124, false), (125, true), (125, false)][step];
            let at = limits::grown_inputs(width, five, family);
            t.equal("inputs of a pass", ask(&at, Entry::Factor, 0), number(12));
            t.equal("inputs of a pass", ask(&at, Entry::Share, 200), number(12));
        }
    }
    for (pairs, number) in [(256, 0), (257, 12)] {
        let at = limits::two_input_gates(pairs, Family::And);
        t.equal("two-input gates alone", ask(&at, Entry::Factor, 0), number);
    }
    let order = |a: &Net, b: &Net| ask(&limits::beside(a, b), Entry::Factor, 0);
    let and_12 = limits::grown_nodes(150, 213, Family::And);
    let xor_12 = limits::grown_nodes(150, 213, Family::Xor);
    let and_11 = limits::all_out(limits::places(4_098, Family::And));
    let xor_11 = limits::all_out(limits::places(4_098, Family::Xor));
    t.equal("And 12 before Xor 11", order(&and_12, &xor_11), 12);
    t.equal("And 11 before Xor 12", order(&and_11, &xor_12), 11);
    t.equal("Xor 11 alone", order(&limits::all_out(vec![]), &xor_11), 11);
}
