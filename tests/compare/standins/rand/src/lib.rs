//! Stand-in for rand: names for the one function (`shuffle`) that is outside the port; never run.

pub trait SeedableRng: Sized {
    fn seed_from_u64(seed: u64) -> Self;
}

pub mod rngs {
    pub struct SmallRng;

    impl crate::SeedableRng for SmallRng {
        fn seed_from_u64(_seed: u64) -> SmallRng {
            panic!("shuffle is outside the port: this stand-in has no random numbers")
        }
    }
}

pub mod seq {
    pub trait SliceRandom {
        fn shuffle(&mut self, rng: &mut crate::rngs::SmallRng);
    }

    impl<T> SliceRandom for [T] {
        fn shuffle(&mut self, _rng: &mut crate::rngs::SmallRng) {
            panic!("shuffle is outside the port: this stand-in has no random numbers")
        }
    }
}
