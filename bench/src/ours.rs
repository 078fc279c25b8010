//! The library's entries over buffers that are lent once.

use crate::judge::{Call, Entry, AREA};

type Bytes = *const u8;

#[allow(dead_code)]
extern "C" {
    fn ll_read(
        image: Bytes,
        image_len: usize,
        out: *mut u8,
        out_len: usize,
        a: *mut u32,
        a_len: usize,
        b: *mut u32,
        b_len: usize,
    ) -> u64;
    fn ll_record_len(image: Bytes, image_len: usize, k: u32) -> usize;
    fn ll_evaluate(
        image: Bytes,
        image_len: usize,
        inputs: Bytes,
        inputs_len: usize,
        state: *mut u8,
        state_len: usize,
        outputs: *mut u8,
        outputs_len: usize,
        a: *mut u32,
        a_len: usize,
        b: *mut u32,
        b_len: usize,
    ) -> u64;
}

/// A pass with a mapping.
type Mapped = unsafe extern "C" fn(
    Bytes,
    usize,
    *mut u8,
    usize,
    *mut u32,
    usize,
    *mut u32,
    usize,
    *mut u32,
    usize,
) -> u64;
/// A pass with a limit; factor has none.
type Limited = unsafe extern "C" fn(
    Bytes,
    usize,
    u32,
    *mut u8,
    usize,
    *mut u32,
    usize,
    *mut u32,
    usize,
) -> u64;
type Plain =
    unsafe extern "C" fn(Bytes, usize, *mut u8, usize, *mut u32, usize, *mut u32, usize) -> u64;

/// The function, where the library has it.
macro_rules! entry {
    ($flag:ident, $name:ident, $type:ident, ($($arg:ty),*)) => {{
        #[cfg($flag)]
        {
            extern "C" {
                fn $name($(_: $arg),*) -> u64;
            }
            Some($name as $type)
        }
        #[cfg(not($flag))]
        {
            None::<$type>
        }
    }};
}

macro_rules! mapped {
    ($flag:ident, $name:ident) => {
        entry!(
            $flag,
            $name,
            Mapped,
            (
                Bytes,
                usize,
                *mut u8,
                usize,
                *mut u32,
                usize,
                *mut u32,
                usize,
                *mut u32,
                usize
            )
        )
    };
}

macro_rules! limited {
    ($flag:ident, $name:ident) => {
        entry!(
            $flag,
            $name,
            Limited,
            (
                Bytes,
                usize,
                u32,
                *mut u8,
                usize,
                *mut u32,
                usize,
                *mut u32,
                usize
            )
        )
    };
}

fn mapped(entry: Entry) -> Option<Mapped> {
    match entry {
        Entry::Canonical => mapped!(have_ll_canonical, ll_canonical),
        Entry::Dedup => mapped!(have_ll_dedup, ll_dedup),
        Entry::Cleanup => mapped!(have_ll_cleanup, ll_cleanup),
        Entry::Sort => mapped!(have_ll_sort, ll_sort),
        _ => None,
    }
}

fn limited(entry: Entry) -> Option<Limited> {
    match entry {
        Entry::Flatten => limited!(have_ll_flatten, ll_flatten),
        Entry::Share => limited!(have_ll_share, ll_share),
        _ => None,
    }
}

fn factor() -> Option<Plain> {
    entry!(
        have_ll_factor,
        ll_factor,
        Plain,
        (
            Bytes,
            usize,
            *mut u8,
            usize,
            *mut u32,
            usize,
            *mut u32,
            usize
        )
    )
}

/// Whether the library has the entry. Read, evaluate and record it must have.
pub fn has(entry: Entry) -> bool {
    match entry {
        Entry::Read | Entry::Evaluate | Entry::Record => true,
        Entry::Factor => factor().is_some(),
        _ => mapped(entry).is_some() || limited(entry).is_some(),
    }
}

/// What an entry is lent.
pub struct Lent {
    pub out: Vec<u8>,
    pub map: Vec<u32>,
    pub inputs: Vec<u8>,
    pub state: Vec<u8>,
    pub outputs: Vec<u8>,
    a: Vec<u32>,
    b: Vec<u32>,
}

impl Lent {
    pub fn new(call: &Call) -> Lent {
        Lent {
            out: vec![0; call.out],
            map: vec![0; call.map],
            inputs: call.inputs.clone(),
            state: call.state.clone(),
            outputs: vec![0; call.outputs],
            a: vec![7; AREA],
            b: vec![7; AREA],
        }
    }

    /// One call of an entry that the library has: the packed answer.
    pub fn enter(&mut self, entry: Entry, image: &[u8], number: u32) -> u64 {
        let (at, len) = (image.as_ptr(), image.len());
        let (out, out_len) = (self.out.as_mut_ptr(), self.out.len());
        let (map, map_len) = (self.map.as_mut_ptr(), self.map.len());
        let (a, a_len) = (self.a.as_mut_ptr(), self.a.len());
        let (b, b_len) = (self.b.as_mut_ptr(), self.b.len());
        unsafe {
            match entry {
                Entry::Read => ll_read(at, len, out, out_len, a, a_len, b, b_len),
                Entry::Evaluate => ll_evaluate(
                    at,
                    len,
                    self.inputs.as_ptr(),
                    self.inputs.len(),
                    self.state.as_mut_ptr(),
                    self.state.len(),
                    self.outputs.as_mut_ptr(),
                    self.outputs.len(),
                    a,
                    a_len,
                    b,
                    b_len,
                ),
                Entry::Record => ll_record_len(at, len, number) as u64,
                Entry::Factor => factor().unwrap()(at, len, out, out_len, a, a_len, b, b_len),
                Entry::Flatten | Entry::Share => {
                    let pass = limited(entry).unwrap();
                    pass(at, len, number, out, out_len, a, a_len, b, b_len)
                }
                _ => {
                    let pass = mapped(entry).unwrap();
                    pass(at, len, out, out_len, map, map_len, a, a_len, b, b_len)
                }
            }
        }
    }
}
