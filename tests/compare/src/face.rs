//! The C face of the library: hands calls to the driver and compares what is left in every buffer.

use std::io::{Read, Write};
use std::process::{Child, ChildStdin, ChildStdout, Command, Stdio};

use crate::judge::{Answer, Call, Entry};

pub fn has_library() -> bool {
    cfg!(have_library)
}

pub fn has(entry: Entry) -> bool {
    match entry {
        Entry::Read => cfg!(have_ll_read),
        Entry::Canonical => cfg!(have_ll_canonical),
        Entry::Dedup => cfg!(have_ll_dedup),
        Entry::Cleanup => cfg!(have_ll_cleanup),
        Entry::Sort => cfg!(have_ll_sort),
        Entry::Flatten => cfg!(have_ll_flatten),
        Entry::Factor => cfg!(have_ll_factor),
        Entry::Share => cfg!(have_ll_share),
        Entry::Evaluate => cfg!(have_ll_evaluate),
        Entry::Record => cfg!(have_ll_record_at) && cfg!(have_ll_record_len),
    }
}

/// Elements behind each lent buffer that must stay as they are.
const GUARD: usize = 8;
/// Words of a reply ahead of the buffers.
const REPLY: usize = 9;
/// How an area was left.
const AS_FOUND: u32 = 0;
const CLEARED: u32 = 1;

/// What the driver fills buffers with.
fn byte(k: usize) -> u8 {
    ((k as u32).wrapping_mul(151) ^ 0xc3) as u8 | 2
}

fn word(k: usize) -> u32 {
    (k as u32).wrapping_mul(2_654_435_761) | 1
}

/// The driver at work; started anew after a crash.
pub struct Face {
    driver: Option<(Child, ChildStdin, ChildStdout)>,
    /// How far the image is shifted from a word's place; changes with every call.
    shift: usize,
}

/// What the library answered and left.
struct Left {
    head: Vec<u32>,
    out: Vec<u8>,
    map: Vec<u32>,
    state: Vec<u8>,
    outputs: Vec<u8>,
}

impl Face {
    pub fn new() -> Face {
        Face {
            driver: None,
            shift: 0,
        }
    }

    /// Calls the library's entry; says in what its answer or a buffer differs from the judge's.
    pub fn compare(&mut self, entry: Entry, call: &Call, expected: &Answer) -> Result<(), String> {
        self.shift = (self.shift + 1) % 4;
        let Ok(left) = self.ask(entry, call) else {
            let (mut child, stdin, stdout) = self.driver.take().unwrap();
            drop((stdin, stdout));
            let ended = child
                .wait()
                .map_or(String::new(), |status| status.to_string());
            return Err(format!("the library crashed: {ended}"));
        };
        if entry == Entry::Record {
            let part = (left.head[2] as usize, left.head[3] as usize);
            if part != (expected.at, expected.length) {
                return Err(format!(
                    "the part is at {} with length {}, not at {} with length {}",
                    part.0, part.1, expected.at, expected.length
                ));
            }
        } else if (left.head[0], left.head[1] as usize) != (expected.number, expected.length) {
            return Err(format!(
                "answered {} with length {}, not {} with length {}",
                left.head[0], left.head[1], expected.number, expected.length
            ));
        }
        left.compare(entry, call, expected)
    }

    fn start(&mut self) {
        let program = env!("LANTERNLEAN_DRIVER");
        let mut command = match std::env::var_os("LANTERNLEAN_EMULATOR") {
            Some(emulator) if !cfg!(driver_is_native) => {
                let mut command = Command::new(emulator);
                command.arg(program);
                command
            }
            _ => Command::new(program),
        };
        let mut child = command
            .stdin(Stdio::piped())
            .stdout(Stdio::piped())
            .spawn()
            .unwrap_or_else(|e| {
                panic!("the driver does not start ({e}): set LANTERNLEAN_EMULATOR")
            });
        let (stdin, stdout) = (child.stdin.take().unwrap(), child.stdout.take().unwrap());
        self.driver = Some((child, stdin, stdout));
    }

    /// One request and its reply; an error where the driver is gone.
    fn ask(&mut self, entry: Entry, call: &Call) -> std::io::Result<Left> {
        if self.driver.is_none() {
            self.start();
        }
        let (_, stdin, stdout) = self.driver.as_mut().unwrap();
        let mut request = Vec::new();
        for field in [
            entry as usize,
            call.image.len(),
            self.shift,
            call.number as usize,
            call.out,
            call.map,
            call.areas[0],
            call.areas[1],
            call.inputs.len(),
            call.state.len(),
            call.outputs,
        ] {
            request.extend_from_slice(&(field as u32).to_le_bytes());
        }
        request.extend_from_slice(&call.image);
        request.extend_from_slice(&call.inputs);
        request.extend_from_slice(&call.state);
        stdin.write_all(&request)?;
        stdin.flush()?;
        let mut bytes = |count: usize| -> std::io::Result<Vec<u8>> {
            let mut buffer = vec![0; count];
            stdout.read_exact(&mut buffer)?;
            Ok(buffer)
        };
        Ok(Left {
            head: words(&bytes(4 * REPLY)?),
            out: bytes(call.out + GUARD)?,
            map: words(&bytes(4 * (call.map + GUARD))?),
            state: bytes(call.state.len() + GUARD)?,
            outputs: bytes(call.outputs + GUARD)?,
        })
    }
}

impl Drop for Face {
    fn drop(&mut self) {
        if let Some((mut child, stdin, stdout)) = self.driver.take() {
            drop((stdin, stdout));
            let _ = child.wait();
        }
    }
}

fn words(bytes: &[u8]) -> Vec<u32> {
    let word = |w: &[u8]| u32::from_le_bytes(w.try_into().unwrap());
    bytes.chunks(4).map(word).collect()
}

impl Left {
    /// Every lent buffer afterwards, and the guards behind them.
    fn compare(&self, entry: Entry, call: &Call, expected: &Answer) -> Result<(), String> {
        if self.head[4] != 0 {
            return Err("the image or the inputs were written to".to_string());
        }
        let bytes = |name: &str, is: &[u8], written: &[u8]| {
            let first = (0..is.len()).find(|k| is[*k] != *written.get(*k).unwrap_or(&byte(*k)));
            match first {
                Some(k) => Err(format!("{name}: byte {k} is {}", is[k])),
                None => Ok(()),
            }
        };
        bytes("the result", &self.out, &expected.image)?;
        bytes("the outputs", &self.outputs, &expected.outputs)?;
        let state = if expected.state.is_empty() {
            &call.state
        } else {
            &expected.state
        };
        bytes("the state", &self.state, state)?;
        let mapping = &expected.mapping;
        let differs = |k: &usize| self.map[*k] != *mapping.get(*k).unwrap_or(&word(*k));
        if let Some(k) = (0..self.map.len()).find(differs) {
            return Err(format!("the mapping: word {k} is {}", self.map[k]));
        }
        let untouched = expected.number == 1 || entry == Entry::Record;
        let should = if untouched { AS_FOUND } else { CLEARED };
        for (name, at) in [("first", 5), ("second", 7)] {
            match (self.head[at], should) {
                (is, should) if is == should => (),
                (AS_FOUND, _) => return Err(format!("the {name} area was not cleared")),
                (CLEARED, _) => return Err(format!("the {name} area was cleared")),
                _ => {
                    let word = self.head[at + 1];
                    return Err(format!("the {name} area is wrong, first in word {word}"));
                }
            }
        }
        Ok(())
    }
}
