//! The duplex challenger over Bytes, as a byte transcript.

use std::fmt::{self, Debug};

use p3_challenger::{
    ByteGrindingChallenger, CanFinalizeDigest, CanObserve, CanSample, DuplexChallenger,
};
use p3_field::{Bytes, PrimeCharacteristicRing};

use crate::Perm;

/// The Rust has no byte transcript over a duplex challenger; the empty `impl ByteGrindingChallenger`
/// below gives it the search by trial on clones.
#[derive(Clone)]
pub struct ByteDuplex<const W: usize, const R: usize>(pub DuplexChallenger<Bytes, Perm, W, R>);

impl<const W: usize, const R: usize> Debug for ByteDuplex<W, R> {
    fn fmt(&self, f: &mut fmt::Formatter<'_>) -> fmt::Result {
        self.0.fmt(f)
    }
}

impl<const W: usize, const R: usize> CanObserve<u8> for ByteDuplex<W, R> {
    fn observe(&mut self, value: u8) {
        self.0.observe(Bytes::from_u8(value));
    }
}

impl<const W: usize, const R: usize> CanSample<u8> for ByteDuplex<W, R> {
    fn sample(&mut self) -> u8 {
        let code: Bytes = self.0.sample();
        code.get() as u8
    }
}

impl<const W: usize, const R: usize> ByteGrindingChallenger for ByteDuplex<W, R> {}

impl<const W: usize, const R: usize> CanFinalizeDigest for ByteDuplex<W, R> {
    type Digest = [Bytes; R];

    fn finalize(self) -> [Bytes; R] {
        self.0.finalize()
    }
}
