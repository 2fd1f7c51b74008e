//! Byte transcripts: what a serializing challenger stands on.

use std::cell::Cell;
use std::fmt::{self, Debug};

use driver::ByteDuplex;
use p3_challenger::{
    ByteGrindingChallenger, CanFinalizeDigest, CanObserve, CanSample, HashChallenger,
};
use p3_field::Bytes;
use p3_symmetric::CryptographicHasher;

use crate::answer::{Answer, debug, held_hash, held_sponge, hex, numbers, shown};

/// A byte transcript, and how its value, which Debug shows, is told.
pub trait Transcript: ByteGrindingChallenger + CanFinalizeDigest + Debug {
    fn held(debug: &str) -> String;
    fn room(debug: &str) -> u64;
    fn digest_text(digest: Self::Digest) -> String;
}

impl<const W: usize, const R: usize> Transcript for ByteDuplex<W, R> {
    fn held(debug: &str) -> String {
        held_sponge(debug)
    }

    fn room(_debug: &str) -> u64 {
        u64::MAX
    }

    fn digest_text(digest: [Bytes; R]) -> String {
        numbers(&digest, " ")
    }
}

impl<H> Transcript for HashChallenger<u8, H, 32>
where
    H: CryptographicHasher<u8, [u8; 32]> + Debug + Send + Sync,
{
    fn held(debug: &str) -> String {
        held_hash(debug)
    }

    fn room(debug: &str) -> u64 {
        1024 - shown::<u8>(debug, "input_buffer").len() as u64
    }

    fn digest_text(digest: [u8; 32]) -> String {
        hex(&digest)
    }
}

thread_local! {
    /// The last four bytes drawn from a noted transcript, as a word, and how many were drawn in all.
    static DRAWN: Cell<(u32, u64)> = const { Cell::new((0, 0)) };
}

/// The word of the last four bytes drawn, the first of them the least significant.
pub fn last_word() -> u32 {
    DRAWN.get().0
}

pub fn drawn_in_all() -> u64 {
    DRAWN.get().1
}

/// A byte transcript that passes every call on and notes the bytes drawn: a serializing challenger
/// shows only codes, and a refused sample has to tell the bits that it kept.
#[derive(Clone)]
pub struct Noted<T>(pub T);

impl<T: Debug> Debug for Noted<T> {
    fn fmt(&self, f: &mut fmt::Formatter<'_>) -> fmt::Result {
        self.0.fmt(f)
    }
}

impl<T: CanObserve<u8>> CanObserve<u8> for Noted<T> {
    fn observe(&mut self, value: u8) {
        self.0.observe(value);
    }

    fn observe_slice(&mut self, values: &[u8]) {
        self.0.observe_slice(values);
    }
}

impl<T: CanSample<u8>> CanSample<u8> for Noted<T> {
    fn sample(&mut self) -> u8 {
        let byte = self.0.sample();
        let (word, count) = DRAWN.get();
        DRAWN.set((word >> 8 | u32::from(byte) << 24, count + 1));
        byte
    }
}

impl<T: ByteGrindingChallenger> ByteGrindingChallenger for Noted<T> {
    fn find_witness<const W: usize, const S: usize>(
        &self,
        num_candidates: u64,
        encode: impl Fn(u64) -> [u8; W] + Sync,
        accepts: impl Fn([u8; S]) -> bool + Sync,
    ) -> Option<u64> {
        self.0.find_witness(num_candidates, encode, accepts)
    }
}

impl<T: CanFinalizeDigest> CanFinalizeDigest for Noted<T> {
    type Digest = T::Digest;

    fn finalize(self) -> T::Digest {
        self.0.finalize()
    }
}

/// The word that a copy draws once it has observed a candidate's four bytes.
fn word_after<C: ByteGrindingChallenger>(c: &C, candidate: u64) -> u64 {
    let mut copy = c.clone();
    copy.observe_slice(&(candidate as u32).to_le_bytes());
    u32::from_le_bytes(copy.sample_array()).into()
}

/// The search of the Rust, and beside it each candidate up to its answer on a copy.
pub fn find<C: ByteGrindingChallenger + Debug>(c: &C, room: u64, count: u64, mask: u64) -> Answer {
    if room < 4 {
        return Ok("none".into());
    }
    let count = count.min(1 << 32);
    let before = debug(c);
    let found = c.find_witness::<4, 4>(
        count,
        |i| (i as u32).to_le_bytes(),
        |bytes| u64::from(u32::from_le_bytes(bytes)) & mask == 0,
    );
    assert_eq!(before, debug(c), "a search moves nothing");
    for i in 0..found.map_or(count, |f| f + 1) {
        assert_eq!(
            word_after(c, i) & mask == 0,
            found == Some(i),
            "the least candidate"
        );
    }
    Ok(found.map_or("none".into(), |f| f.to_string()))
}
