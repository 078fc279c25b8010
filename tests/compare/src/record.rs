//! The recorded answers: a sample of calls with the judge's answers, one file for each entry.
//! docs/RECORDED.md describes the layout.

use std::collections::BTreeSet;
use std::fs;
use std::path::Path;

use crate::generate::{calls, damage, limits, random, small};
use crate::image;
use crate::judge::{self, Answer, Call, Entry, AREA, ENTRIES};
use crate::net::Net;
use crate::notation;
use crate::rng::Rng;
use crate::selfcheck::ladder;
use crate::tally::Tally;

pub const MAGIC: u32 = u32::from_le_bytes(*b"LLRA");
const VERSION: u32 = 1;
/// Words ahead of a record's data.
const HEAD: usize = 16;

/// The most that a record lends or holds, so that a reader can have fixed buffers.
const MAX_IMAGE: usize = 16_500;
const MAX_OUT: usize = 16_500;
const MAX_RESULT: usize = 16_384;
const MAX_MAP: usize = 512;
const MAX_INPUTS: usize = 1_024;
const MAX_STATE: usize = 512;
const MAX_OUTPUTS: usize = 64;

/// Numbers that the entry's file must hold.
fn wanted(entry: Entry) -> Vec<u32> {
    let more: &[u32] = match entry {
        Entry::Record => return vec![0],
        Entry::Read | Entry::Cleanup => &[13],
        Entry::Canonical | Entry::Dedup => &[7, 13],
        Entry::Sort => &[8, 13],
        Entry::Flatten => &[7, 10, 13],
        Entry::Factor => &[7, 9, 11, 12, 13],
        Entry::Share => &[7, 10, 11, 12, 13],
        Entry::Evaluate => &[7, 13, 14],
    };
    (0..=6).chain(more.iter().copied()).collect()
}

/// The networks at limits that tell something of the entry.
fn tells(entry: Entry, from: &str) -> bool {
    match from {
        "inputs" | "nodes" | "outputs" | "gate inputs" => true,
        "nodes, other kinds" => entry == Entry::Evaluate,
        "gate inputs, other kinds" => false,
        "flattened" | "flattened, held back" | "shrinking" | "doubling" => entry.has_limit(),
        _ => matches!(entry, Entry::Factor | Entry::Share),
    }
}

fn within(mut call: Call) -> Option<Call> {
    for area in &mut call.areas {
        *area = (*area).min(AREA);
    }
    call.out = call.out.min(MAX_OUT);
    call.map = call.map.min(MAX_MAP);
    call.inputs.truncate(MAX_INPUTS);
    call.state.truncate(MAX_STATE);
    call.outputs = call.outputs.min(MAX_OUTPUTS);
    (call.image.len() <= MAX_IMAGE).then_some(call)
}

/// A network for the calls that try every buffer.
fn buffer_nets() -> Vec<Net> {
    let mixed = [
        "Dff !x0 1 0",
        "Dff x3 i0 i1",
        "AndN i0 i1 i2 x0",
        "XorN i0 i1 x1 !i2",
        "AndN i1 i0 x0 i3",
        "Lut x2 i3 6",
        "Mux x2 x3 x5",
    ];
    let looped = ["And2 x1 i0", "Xor2 x0 i1", "Dff x1 x0 0"];
    vec![
        notation::net(4, &mixed, "x6 !x4 x5 x1"),
        notation::net(2, &looped, "x0"),
        notation::net(0, &[], ""),
    ]
}

/// A random network of And gates alone, or of Xor gates alone.
fn sharing(rng: &mut Rng) -> Net {
    loop {
        let net = random::network(rng);
        let mut gates = net.nodes.iter();
        if net.nodes.len() >= 6 && gates.all(|g| g.kind.is_nary() && g.kind.family().is_some()) {
            return net;
        }
    }
}

fn sample(entry: Entry, seed: u64) -> Vec<Call> {
    let mut rng = Rng::of(seed, &entry.name(), 0);
    let mut images: Vec<Vec<u8>> = Vec::new();
    for (what, image, _) in ladder::all_images() {
        if image.len() < 1_000 || what.contains("before") {
            images.push(image);
        }
    }
    let one = small::one_gate();
    images.extend(one.iter().step_by(61).map(image::write));
    images.extend((0..25).map(|_| image::write(&small::two_gates(rng.word()))));
    images.extend((0..25).map(|_| image::write(&small::three_gates(rng.word()))));
    let mut of_size = |least: usize, most: usize, make: &dyn Fn(&mut Rng) -> Net| loop {
        let image = image::write(&make(&mut rng));
        if (least..=most).contains(&image.len()) {
            return image;
        }
    };
    for _ in 0..90 {
        images.push(of_size(60, 700, &random::network));
    }
    for _ in 0..15 {
        images.push(of_size(60, 700, &random::twins));
    }
    if matches!(entry, Entry::Factor | Entry::Share) {
        for _ in 0..80 {
            images.push(of_size(60, 900, &sharing));
        }
    }
    for _ in 0..5 {
        images.push(of_size(1_500, 6_000, &random::network));
    }
    for _ in 0..25 {
        images.push(of_size(60, 700, &random::unsorted));
    }
    let whole: Vec<Vec<u8>> = (0..49)
        .map(|_| of_size(40, 400, &random::network))
        .collect();
    for (k, image) in whole.iter().enumerate() {
        images.push(match k {
            0..9 => damage::prefixed(image, k, &mut rng),
            _ => damage::damaged(image, &mut rng),
        });
    }
    let mut all: Vec<Call> = Vec::new();
    for image in &images {
        all.push(calls::plain(entry, image, &mut rng));
    }
    for net in buffer_nets() {
        all.extend(calls::thorough(entry, &image::write(&net), &mut rng));
    }
    for at in limits::all() {
        if tells(entry, at.from) {
            let mut call = calls::plain(entry, &image::write(&at.net), &mut rng);
            call.out = MAX_OUT;
            if entry.has_limit() {
                call.number = at.number;
            }
            all.push(call);
        }
    }
    all.into_iter().filter_map(within).collect()
}

fn pad(bytes: &mut Vec<u8>, data: &[u8]) {
    bytes.extend_from_slice(data);
    bytes.resize(bytes.len().next_multiple_of(4), 0);
}

fn append(bytes: &mut Vec<u8>, call: &Call, answer: &Answer) {
    let head: [usize; HEAD] = [
        call.image.len(),
        call.number as usize,
        call.out,
        call.map,
        call.areas[0],
        call.areas[1],
        call.inputs.len(),
        call.state.len(),
        call.outputs,
        answer.number as usize,
        answer.length,
        answer.at,
        answer.image.len(),
        answer.mapping.len(),
        answer.outputs.len(),
        answer.state.len(),
    ];
    for field in head {
        bytes.extend_from_slice(&(field as u32).to_le_bytes());
    }
    pad(bytes, &call.image);
    pad(bytes, &call.inputs);
    pad(bytes, &call.state);
    pad(bytes, &answer.image);
    for word in &answer.mapping {
        bytes.extend_from_slice(&word.to_le_bytes());
    }
    pad(bytes, &answer.outputs);
    pad(bytes, &answer.state);
}

/// Writes a file for each entry into the folder and reads it back; says how many of what.
pub fn write(folder: &Path, seed: u64) -> usize {
    fs::create_dir_all(folder).unwrap();
    let (mut total, mut size) = (0, 0);
    for (code, entry) in ENTRIES.into_iter().enumerate() {
        let calls: Vec<Call> = sample(entry, seed)
            .into_iter()
            .map(|call| call.taken(entry))
            .collect();
        let mut bytes = Vec::new();
        for word in [MAGIC, VERSION, code as u32, calls.len() as u32] {
            bytes.extend_from_slice(&word.to_le_bytes());
        }
        let (mut met, mut empty) = (BTreeSet::new(), BTreeSet::new());
        for call in &calls {
            let answer = judge::answer(entry, call);
            assert!(answer.image.len() <= MAX_RESULT);
            met.insert(answer.number);
            empty.insert(answer.length == 0);
            append(&mut bytes, call, &answer);
        }
        assert!(entry != Entry::Record || empty.len() == 2);
        assert_eq!(met.into_iter().collect::<Vec<_>>(), wanted(entry));
        let path = folder.join(format!("{}.bin", entry.name()));
        fs::write(&path, &bytes).unwrap();
        println!(
            "{}.bin: {} inputs, {} bytes",
            entry.name(),
            calls.len(),
            bytes.len()
        );
        total += calls.len();
        size += bytes.len();
    }
    println!("{total} inputs, {size} bytes");
    total
}

/// Reads words and padded bytes one after another.
struct Reader<'a>(&'a [u8]);

impl Reader<'_> {
    fn word(&mut self) -> u32 {
        let (word, rest) = self.0.split_at(4);
        self.0 = rest;
        u32::from_le_bytes(word.try_into().unwrap())
    }

    fn bytes(&mut self, count: usize) -> Vec<u8> {
        let bytes = self.0[..count].to_vec();
        self.0 = &self.0[count.next_multiple_of(4)..];
        bytes
    }
}

/// The recorded answers in the folder against the judge; files that are absent fail.
pub fn verify(t: &mut Tally, folder: &Path) {
    for (code, entry) in ENTRIES.into_iter().enumerate() {
        let name = entry.name();
        let Ok(file) = fs::read(folder.join(format!("{name}.bin"))) else {
            t.check(&format!("the recorded answers of {name} are there"), false);
            continue;
        };
        let mut reader = Reader(&file);
        t.equal(&name, (reader.word(), reader.word()), (MAGIC, VERSION));
        t.equal(&name, reader.word(), code as u32);
        for _ in 0..reader.word() {
            let head: Vec<usize> = (0..HEAD).map(|_| reader.word() as usize).collect();
            let call = Call {
                image: reader.bytes(head[0]),
                number: head[1] as u32,
                out: head[2],
                map: head[3],
                areas: [head[4], head[5]],
                inputs: reader.bytes(head[6]),
                state: reader.bytes(head[7]),
                outputs: head[8],
            };
            let answer = Answer {
                number: head[9] as u32,
                length: head[10],
                at: head[11],
                image: reader.bytes(head[12]),
                mapping: (0..head[13]).map(|_| reader.word()).collect(),
                outputs: reader.bytes(head[14]),
                state: reader.bytes(head[15]),
            };
            t.check(&name, judge::answer(entry, &call) == answer);
        }
        t.check(&name, reader.0.is_empty());
    }
}
