//! From numbers of a script to const parameters of the Rust.

use crate::challenger::Challenger;

/// What makes a challenger of any WIDTH and RATE.
pub trait OfPair {
    fn make<const W: usize, const R: usize>(self) -> Box<dyn Challenger>;
}

macro_rules! pairs {
    ($($w:literal $r:literal),*) => {
        pub const PAIRS: &[(u64, u64)] = &[$(($w, $r)),*];

        /// Makes the challenger, if the driver was compiled for its WIDTH and RATE.
        pub fn with_pair<P: OfPair>(width: u64, rate: u64, p: P) -> Result<Box<dyn Challenger>, String> {
            match (width, rate) {
                $(($w, $r) => Ok(p.make::<$w, $r>()),)*
                _ => Err("no-pair".into()),
            }
        }
    };
}
pairs!(
    2 1, 3 1, 3 2, 4 1, 4 2, 4 3, 5 2, 5 4, 6 3, 6 5, 7 4, 8 4, 8 7, 9 8, 12 8, 16 8, 16 15, 24 8,
    24 16, 24 23, 25 24, 32 16, 37 36, 64 1, 64 32, 64 36, 64 63
);

/// What is done with an array of any length.
pub trait OfLength {
    fn run<const N: usize>(self);
}

macro_rules! lengths {
    ($($n:literal)*) => {
        pub fn with_length<L: OfLength>(length: usize, l: L) {
            match length {
                $($n => l.run::<$n>(),)*
                _ => unreachable!("no digest is longer"),
            }
        }
    };
}
lengths!(0 1 2 3 4 5 6 7 8 9 10 11 12 13 14 15 16 17 18 19 20 21 22 23 24 25 26 27 28 29 30 31 32 33
    34 35 36 37 38 39 40 41 42 43 44 45 46 47 48 49 50 51 52 53 54 55 56 57 58 59 60 61 62 63);
