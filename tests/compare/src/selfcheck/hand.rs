//! Document 01's cases checked by hand, its words for signals, the program `share` and listings.

use crate::generate::limits;
use crate::image;
use crate::judge::{self, Answer, Call, Entry};
use crate::listing::{listing, share_program};
use crate::net::{input, node, Family, Net};
use crate::normal_forms;
use crate::notation::{gate, net};
use crate::room;
use crate::tally::Tally;
use crate::trees::{ordered, unchanged};

fn ask(entry: Entry, net: &Net, number: u32) -> Answer {
    let call = Call {
        number,
        ..Call::ample(&image::write(net))
    };
    judge::answer(entry, &call)
}

fn result(entry: Entry, net: &Net, number: u32) -> Net {
    let answer = ask(entry, net, number);
    assert_eq!(answer.number, 0);
    image::read(&answer.image).unwrap().net
}

/// The Rust's constructors give document 01's words, in both trees.
pub fn words(t: &mut Tally) {
    t.equal("input 0", input(0), 4_294_967_294);
    t.equal("input 2", input(2), 4_294_967_290);
    t.equal("node 0", node(0), 2);
    for v in [0, 1, 2, 63, 511, 1_023] {
        t.equal("a node's word", ordered::Signal::from_var(v).raw(), node(v));
        t.equal(
            "an input's word",
            ordered::Signal::from_input(v).raw(),
            input(v),
        );
        t.equal(
            "a node's word",
            unchanged::Signal::from_var(v).raw(),
            node(v),
        );
        t.equal(
            "an input's word",
            unchanged::Signal::from_input(v).raw(),
            input(v),
        );
        for s in [node(v), node(v) + 1, input(v), input(v) + 1, 0, 1] {
            t.equal("there and back", ordered::glue::signal(s).raw(), s);
            t.equal("there and back", unchanged::glue::signal(s).raw(), s);
            let shown = format!("{}", crate::net::Shown(s));
            t.equal("shown", format!("{}", ordered::glue::signal(s)), shown);
        }
    }
    let one = ordered::Signal::one();
    t.equal(
        "constants",
        (ordered::Signal::zero().raw(), one.raw()),
        (0, 1),
    );
    t.check(
        "order of signals",
        node(511) < input(1_023) && input(1) < input(0),
    );
}

pub fn cases(t: &mut Tally) {
    for line in [
        "AndN i0 !i0 -> 0",
        "And2 i0 !i0 -> 0",
        "XorN i0 !i0 -> 1",
        "Xor2 i0 !i0 -> 1",
        "NorN -> 1",
        "Mux i0 !i1 i1 -> Xor2 i1 i0",
        "Mux !i0 i1 i2 -> Mux i0 i2 i1",
        "Maj 1 i0 i1 -> !And2 !i1 !i0",
        "Dff 0 i0 i1 -> 0",
        "Dff i0 0 i1 -> 0",
        "Dff i0 i1 1 -> 0",
        "And2 i0 i1 -> And2 i1 i0",
        "Lut i1 i0 6 -> Lut i1 i0 6",
    ] {
        let source = line.split(" -> ").next().unwrap();
        t.equal(
            "normal form",
            normal_forms::line(&gate(source)),
            line.to_string(),
        );
    }
    let chain = net(4, &["And3 i0 i1 i2", "And2 x0 i3"], "x1");
    let merged = net(4, &["AndN i3 i2 i1 i0"], "x0");
    let kept = net(4, &["And3 i2 i1 i0", "And2 x0 i3"], "x1");
    t.equal("limit 4 merges", result(Entry::Flatten, &chain, 4), merged);
    t.equal("limit 3 does not", result(Entry::Flatten, &chain, 3), kept);
    let inverted = net(4, &["And3 i0 i1 i2", "And2 !x0 i3"], "x1");
    let stays = net(4, &["And3 i2 i1 i0", "And2 !x0 i3"], "x1");
    t.equal(
        "not through an inverted And",
        result(Entry::Flatten, &inverted, 64),
        stays,
    );

    let toggle = image::write(&net(0, &["Dff !x0 1 0"], "x0"));
    let mut call = Call::ample(&toggle);
    let mut seen = Vec::new();
    for _ in 0..4 {
        let answer = judge::answer(Entry::Evaluate, &call);
        seen.push(answer.outputs[0]);
        call.state = answer.state;
    }
    t.equal("a flip-flop naming itself", seen, vec![0, 1, 0, 1]);

    let own = net(1, &["And2 x0 i0"], "x0");
    t.equal("a loop, share", ask(Entry::Share, &own, 64).number, 7);
    t.equal("a loop, sort", ask(Entry::Sort, &own, 0).number, 8);
    t.equal("a loop, cleanup", ask(Entry::Cleanup, &own, 0).number, 0);
    let late = net(1, &["And2 x1 i0", "Dff i0 1 0"], "x0");
    t.equal(
        "gate 0 naming Dff 1, share",
        ask(Entry::Share, &late, 64).number,
        7,
    );
    t.equal(
        "gate 0 naming Dff 1, sort",
        ask(Entry::Sort, &late, 0).number,
        0,
    );

    let first = net(1, &["Dff x1 1 0", "And2 i0 !i0"], "x0");
    let once = result(Entry::Canonical, &first, 0);
    t.equal("canonical once", once.clone(), net(1, &["Dff 0 1 0"], "x0"));
    t.equal(
        "canonical twice",
        result(Entry::Canonical, &once, 0),
        net(1, &[], "0"),
    );

    for family in [Family::And, Family::Xor] {
        for (shared, places, number) in [(64, 4_032, 0), (65, 4_160, 11)] {
            let net = limits::two_sharing(shared, family);
            let counted = room::pair_places(&room::lists(&net, family));
            t.equal("pair places", counted, places);
            t.equal(
                "under 11, factor",
                ask(Entry::Factor, &net, 0).number,
                number,
            );
            t.equal(
                "under 11, share",
                ask(Entry::Share, &net, 64).number,
                number,
            );
        }
    }
    // flip-flops are merged by their old signals and not once more after translation
    let later = net(
        1,
        &["Dff x2 1 0", "Dff x3 1 0", "Buf i0", "Buf i0"],
        "x0 x1",
    );
    let apart = net(1, &["Dff i0 1 0", "Dff i0 1 0"], "x0 x1");
    t.equal(
        "flip-flops once",
        result(Entry::Canonical, &later, 0),
        apart,
    );
    // enable zero holds against reset
    let hold = image::write(&net(1, &["Dff i0 0 1"], "x0"));
    let mut call = Call::ample(&hold);
    call.state[0] = 1;
    let answer = judge::answer(Entry::Evaluate, &call);
    t.equal(
        "enable zero holds",
        (answer.outputs[0], answer.state[0]),
        (1, 1),
    );
}

fn bytes(words: &[u32]) -> Vec<u8> {
    words.iter().flat_map(|w| w.to_le_bytes()).collect()
}

pub fn program(t: &mut Tally) {
    let example = [
        64, 512, 4294967294, 4294967292, 770, 4294967294, 4294967292, 4294967290, 4, 3, 3, 2, 2, 52,
    ];
    let text = "inputs 3 nodes 2 outputs 2\nx0 And2 i1 i0\nx1 And2 x0 i2\no0 x1\no1 !x0\n";
    t.equal(
        "the worked example",
        share_program(&bytes(&example)),
        text.to_string(),
    );
    t.equal("no input", share_program(&[]), "refused 2\n".to_string());
    t.equal(
        "three bytes",
        share_program(&[1, 2, 3]),
        "refused 2\n".to_string(),
    );
    t.equal(
        "a limit alone",
        share_program(&bytes(&[64])),
        "refused 2\n".to_string(),
    );
    let mut long = vec![0; 16_384 - example.len() * 4];
    long.splice(0..0, 64u32.to_le_bytes());
    long.extend(bytes(&example[1..]));
    t.equal("16,384 bytes", long.len(), 16_384);
    t.equal("16,384 bytes", share_program(&long), text.to_string());
    long.insert(4, 0);
    t.equal(
        "16,385 bytes",
        share_program(&long),
        "refused 2\n".to_string(),
    );
    let own = net(1, &["And2 x0 i0"], "x0");
    let mut looped = bytes(&[64]);
    looped.extend(image::write(&own));
    t.equal(
        "refused 7",
        share_program(&looped),
        "refused 7\n".to_string(),
    );
    t.equal(
        "the empty network",
        share_program(&bytes(&[0, 0, 0, 0, 16])),
        "inputs 0 nodes 0 outputs 0\n".to_string(),
    );

    let every = [
        "And2 0 1",
        "Xor2 i0 !x0",
        "And3 i0 i1 i2",
        "Xor3 !i0 !i1 !i2",
        "Maj x0 x1 x2",
        "Mux 1 0 i1023",
        "AndN",
        "OrN i0",
        "NandN i0 i1 i2 i3",
        "NorN 0 0",
        "XorN !x8",
        "XnorN",
        "Buf !x11",
        "Dff x13 1 0",
        "Lut 1",
        "Lut i0 i1 i2 i3 i4 i5 18446744073709551615",
    ];
    let all = net(1_024, &every, "0 1 !x15");
    let mut text = "inputs 1024 nodes 16 outputs 3\n".to_string();
    for (v, line) in every.iter().enumerate() {
        text.push_str(&format!("x{v} {line}\n"));
    }
    text.push_str("o0 0\no1 1\no2 !x15\n");
    t.equal("a listing of every kind", listing(&all), text);
}
