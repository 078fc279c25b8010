//! The generator of inputs: networks of every shape, damaged images, and calls with every buffer.

pub mod calls;
pub mod damage;
pub mod limits;
pub mod random;
pub mod small;

use crate::image;
use crate::net::Net;
use crate::rng::Rng;

/// One round of random images: the same for a seed and a number.
pub fn round(seed: u64, number: u64) -> Vec<Vec<u8>> {
    let mut rng = Rng::of(seed, "round", number);
    let mut images = Vec::new();
    let mut add = |net: &Net| images.push(image::write(net));
    for _ in 0..12 {
        add(&random::network(&mut rng));
    }
    for _ in 0..3 {
        add(&random::twins(&mut rng));
        add(&random::unsorted(&mut rng));
        add(&small::two_gates(rng.word()));
        add(&small::three_gates(rng.word()));
    }
    for _ in 0..4 {
        let whole = image::write(&random::network(&mut rng));
        images.push(damage::damaged(&whole, &mut rng));
    }
    if rng.one_in(4) {
        images.push(image::write(&limits::near(&mut rng)));
    }
    let whole = image::write(&random::network(&mut rng));
    images.push(damage::prefixed(&whole, rng.below(9), &mut rng));
    images
}
