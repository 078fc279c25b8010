//! The judge: what each entry answers to a call and what it leaves in every lent buffer.

use crate::evaluate;
use crate::image::{self, MAX_GATE_INPUTS, MAX_NODES};
use crate::net::{Family, Net};
use crate::room;
use crate::trees::ordered::glue as rust;

/// Words of a work area that an entry uses and leaves zero.
pub const AREA: usize = 16_384;
pub const MAX_PAIR_PLACES: usize = 4_096;

#[derive(Debug, Clone, Copy, PartialEq, Eq, PartialOrd, Ord, Hash)]
pub enum Entry {
    Read,
    Canonical,
    Dedup,
    Cleanup,
    Sort,
    Flatten,
    Factor,
    Share,
    Evaluate,
    Record,
}

pub const ENTRIES: [Entry; 10] = [
    Entry::Read,
    Entry::Canonical,
    Entry::Dedup,
    Entry::Cleanup,
    Entry::Sort,
    Entry::Flatten,
    Entry::Factor,
    Entry::Share,
    Entry::Evaluate,
    Entry::Record,
];

impl Entry {
    /// The functions of the C face that make the entry.
    pub fn functions(self) -> String {
        match self {
            Entry::Record => "ll_record_at, ll_record_len".to_string(),
            _ => format!("ll_{}", self.name()),
        }
    }

    /// The name, as in the recorded answers' file.
    pub fn name(self) -> String {
        format!("{self:?}").to_lowercase()
    }

    pub fn has_mapping(self) -> bool {
        use Entry::*;
        matches!(self, Canonical | Dedup | Cleanup | Sort)
    }

    pub fn has_limit(self) -> bool {
        matches!(self, Entry::Flatten | Entry::Share)
    }

    pub fn writes_image(self) -> bool {
        !matches!(self, Entry::Evaluate | Entry::Record)
    }

    /// Whether 7 is given.
    pub fn needs_sorted(self) -> bool {
        use Entry::*;
        !matches!(self, Read | Cleanup | Sort | Record)
    }
}

/// What a caller hands over. Buffers that the entry does not take are left out of account.
#[derive(Debug, Clone, PartialEq, Eq)]
pub struct Call {
    pub image: Vec<u8>,
    /// The flattening limit, or the k of record k.
    pub number: u32,
    /// Bytes lent for the result.
    pub out: usize,
    /// Words lent for the mapping.
    pub map: usize,
    /// Words lent in the two work areas.
    pub areas: [usize; 2],
    /// The bytes lent as inputs and as state, and how many are lent for outputs.
    pub inputs: Vec<u8>,
    pub state: Vec<u8>,
    pub outputs: usize,
}

impl Call {
    /// A call with room for every result.
    pub fn ample(image: &[u8]) -> Call {
        Call {
            image: image.to_vec(),
            number: 64,
            out: 16_500,
            map: MAX_NODES,
            areas: [AREA; 2],
            inputs: vec![0; image::MAX_INPUTS as usize],
            state: vec![0; MAX_NODES],
            outputs: image::MAX_OUTPUTS,
        }
    }

    /// The call with nothing lent in buffers that the entry does not take.
    pub fn taken(mut self, entry: Entry) -> Call {
        if entry == Entry::Record {
            self.areas = [0, 0];
        }
        if !entry.writes_image() {
            self.out = 0;
        }
        if !entry.has_mapping() {
            self.map = 0;
        }
        if entry != Entry::Evaluate {
            self.inputs.clear();
            self.state.clear();
            self.outputs = 0;
        }
        self
    }
}

/// What an entry answers. On a refusal the rest is empty and no buffer changes.
#[derive(Debug, Clone, Default, PartialEq, Eq)]
pub struct Answer {
    pub number: u32,
    /// Bytes of the image written, or of the part holding record k.
    pub length: usize,
    /// Where the part holding record k begins.
    pub at: usize,
    pub image: Vec<u8>,
    pub mapping: Vec<u32>,
    pub outputs: Vec<u8>,
    /// All lent state bytes afterwards.
    pub state: Vec<u8>,
}

pub fn answer(entry: Entry, call: &Call) -> Answer {
    let accepted = match entry {
        Entry::Record => Ok(record(call)),
        Entry::Evaluate => evaluate(call),
        _ => pass(entry, call),
    };
    accepted.unwrap_or_else(|number| Answer {
        number,
        ..Answer::default()
    })
}

fn record(call: &Call) -> Answer {
    let (at, length) = image::record(&call.image, call.number);
    Answer {
        at,
        length,
        ..Answer::default()
    }
}

/// 1 to 7, and the network.
fn admitted(entry: Entry, call: &Call) -> Result<Net, u32> {
    if call.areas.iter().any(|words| *words < AREA) {
        return Err(1);
    }
    let net = image::read(&call.image)?.net;
    if entry.needs_sorted() && !net.is_sorted() {
        return Err(7);
    }
    Ok(net)
}

fn pass(entry: Entry, call: &Call) -> Result<Answer, u32> {
    let net = admitted(entry, call)?;
    let (result, mapping) = match entry {
        Entry::Read => (net, Vec::new()),
        Entry::Canonical => rust::canonical(&net),
        Entry::Dedup => rust::dedup(&net),
        Entry::Cleanup => rust::cleanup(&net),
        Entry::Sort if net.has_loop() => return Err(8),
        Entry::Sort => rust::sort(&net),
        Entry::Flatten => (flatten(&net, call.number)?, Vec::new()),
        Entry::Factor if room::has_repeat(&net) => return Err(9),
        Entry::Factor => (factor(&net)?, Vec::new()),
        Entry::Share => (factor(&flatten(&net, call.number)?)?, Vec::new()),
        Entry::Evaluate | Entry::Record => unreachable!("no pass"),
    };
    let image = image::write(&result);
    if call.out < image.len() || call.map < mapping.len() && entry.has_mapping() {
        return Err(13);
    }
    Ok(Answer {
        length: image.len(),
        image,
        mapping,
        ..Answer::default()
    })
}

fn flatten(net: &Net, limit: u32) -> Result<Net, u32> {
    // 10
    room::flattened(net, limit).ok_or(10u32)?;
    Ok(rust::flatten(net, limit))
}

fn factor(net: &Net) -> Result<Net, u32> {
    let after_and = factor_pass(net, Family::And)?;
    factor_pass(&after_and, Family::Xor)
}

fn factor_pass(net: &Net, family: Family) -> Result<Net, u32> {
    // 11
    let lists = room::lists(net, family);
    if room::pair_places(&lists) > MAX_PAIR_PLACES {
        return Err(11);
    }
    // 12
    let (built, _) = rust::factoring(&lists, net.nodes.len() as u32);
    let (nodes, gate_inputs) = room::grown(net, family, built.len());
    if nodes > MAX_NODES || gate_inputs > MAX_GATE_INPUTS {
        return Err(12);
    }
    Ok(rust::factor_pass(net, family))
}

fn evaluate(call: &Call) -> Result<Answer, u32> {
    let net = admitted(Entry::Evaluate, call)?;
    // 13
    if call.inputs.len() < net.inputs as usize
        || call.state.len() < net.nodes.len()
        || call.outputs < net.outs.len()
    {
        return Err(13);
    }
    // 14
    let inputs = &call.inputs[..net.inputs as usize];
    if inputs.iter().any(|b| *b > 1) || net.flip_flops().any(|v| call.state[v] > 1) {
        return Err(14);
    }
    let words = |bytes: &[u8]| -> Vec<u64> { bytes.iter().map(|b| u64::from(*b)).collect() };
    let mut after = words(&call.state);
    let outputs = evaluate::cycle(&net, &words(inputs), &mut after);
    let mut state = call.state.clone();
    for v in net.flip_flops() {
        state[v] = (after[v] & 1) as u8;
    }
    Ok(Answer {
        outputs: outputs.iter().map(|w| (w & 1) as u8).collect(),
        state,
        ..Answer::default()
    })
}
