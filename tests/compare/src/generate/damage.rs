//! Damaged copies of images: bit flips, cuts, prefixes, wrong trailers and records.

use crate::rng::Rng;

fn set_word(image: &mut [u8], at: usize, word: u32) {
    image[at..at + 4].copy_from_slice(&word.to_le_bytes());
}

fn word(image: &[u8], at: usize) -> u32 {
    u32::from_le_bytes(image[at..at + 4].try_into().unwrap())
}

/// The image behind so many bytes of rubbish.
pub fn prefixed(image: &[u8], length: usize, rng: &mut Rng) -> Vec<u8> {
    let mut bytes: Vec<u8> = (0..length).map(|_| rng.word() as u8).collect();
    bytes.extend_from_slice(image);
    bytes
}

/// One kind of damage to a whole image.
pub fn damaged(image: &[u8], rng: &mut Rng) -> Vec<u8> {
    let mut bytes = image.to_vec();
    let words = bytes.len() / 4;
    let end = bytes.len();
    match rng.below(12) {
        0 | 1 => {
            for _ in 0..rng.between(1, 3) {
                let bit = rng.below(8 * end);
                bytes[bit / 8] ^= 1 << (bit % 8);
            }
        }
        2 => bytes.truncate(rng.below(end + 1)),
        3 => {
            bytes.drain(..rng.below(end + 1));
        }
        // a wrong trailer word
        4 | 5 => {
            let at = end - 4 * rng.between(1, 4);
            let near = word(&bytes, at)
                .wrapping_add(rng.between(0, 8) as u32)
                .wrapping_sub(4);
            let far = rng.word() as u32;
            let edges = [
                0,
                15,
                16,
                17,
                64,
                65,
                512,
                513,
                1_024,
                1_025,
                end as u32 + 4,
                u32::MAX,
            ];
            let one = rng.pick(&edges);
            set_word(&mut bytes, at, rng.pick(&[near, near, far, one]));
        }
        // a word in the records or outputs: a signal, or a header
        6 | 7 if words > 4 => {
            let at = 4 * rng.below(words - 4);
            let choices = [
                0,
                1,
                2,
                0x7fff_ffff,
                0x8000_0000,
                u32::MAX,
                u32::MAX - 4_096,
                2 * words as u32,
                15,
                14 + 7 * 256,
                14 + 256,
                12,
                13 + 2 * 256,
                1 << 24 | 6,
                6 + 65_535 * 256,
                rng.word() as u32,
            ];
            set_word(&mut bytes, at, rng.pick(&choices));
        }
        // a word more or less, the distance made to fit
        8 => {
            let at = 4 * rng.below(words.max(4) - 3);
            bytes.splice(at..at, (rng.word() as u32).to_le_bytes());
            fit(&mut bytes);
        }
        9 if words > 4 => {
            let at = 4 * rng.below(words - 4);
            bytes.drain(at..at + 4);
            fit(&mut bytes);
        }
        // behind a prefix, the distance pointing into it or past it
        10 => {
            bytes = prefixed(image, rng.below(9), rng);
            let end = bytes.len();
            let shift = rng.below(12) as u32;
            let distance = word(&bytes, end - 4).wrapping_add(shift).wrapping_sub(4);
            set_word(&mut bytes, end - 4, distance);
        }
        _ => {
            let more = rng.between(1, 5);
            bytes.extend((0..more).map(|_| rng.word() as u8));
        }
    }
    bytes
}

/// Sets D to the image's length.
pub fn fit(bytes: &mut [u8]) {
    let end = bytes.len();
    set_word(bytes, end - 4, end as u32);
}

/// Cuts at every length, prefixes of every alignment, every bit of the trailer flipped.
pub fn thorough(image: &[u8], rng: &mut Rng) -> Vec<Vec<u8>> {
    let mut all = Vec::new();
    for length in 0..image.len() {
        all.push(image[..length].to_vec());
        all.push(image[length + 1..].to_vec());
    }
    for length in 0..=9 {
        all.push(prefixed(image, length, rng));
    }
    for bit in 0..128 {
        let mut bytes = image.to_vec();
        let at = bytes.len() - 16 + bit / 8;
        bytes[at] ^= 1 << (bit % 8);
        all.push(bytes);
    }
    for at in (0..image.len() - 16).step_by(4) {
        for bit in 0..32 {
            let mut bytes = image.to_vec();
            bytes[at + bit / 8] ^= 1 << (bit % 8);
            all.push(bytes);
        }
    }
    all
}
