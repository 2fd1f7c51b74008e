//! The hash challenger.

use std::fmt::Debug;
use std::marker::PhantomData;

use p3_challenger::{CanFinalizeDigest, CanObserve, CanSample, HashChallenger};
use p3_field::Bytes;
use p3_symmetric::CryptographicHasher;

use crate::answer::{Answer, ask_room, bytes_of, debug, held_hash};
use crate::challenger::{Challenger, observe_words};
use crate::transcript::{Transcript, find};

type Rust<H> = HashChallenger<u8, H, 32>;

pub struct Hashing<H: CryptographicHasher<u8, [u8; 32]>>(pub Rust<H>);

impl<H> Hashing<H>
where
    H: CryptographicHasher<u8, [u8; 32]> + Debug + Send + Sync,
{
    fn room(&self) -> u64 {
        Rust::<H>::room(&debug(&self.0))
    }

    /// The bytes, if they are bytes and fit in the room left.
    fn fitting(&self, values: &[u64]) -> Result<Vec<u8>, String> {
        let bytes = bytes_of(values)?;
        ask_room(bytes.len(), self.room())?;
        Ok(bytes)
    }
}

impl<H> Challenger for Hashing<H>
where
    H: CryptographicHasher<u8, [u8; 32]> + Debug + Send + Sync,
{
    fn observe(&mut self, values: &[u64]) -> Answer {
        let bytes = self.fitting(values)?;
        let mut singly = self.0.clone();
        bytes.iter().for_each(|&byte| singly.observe(byte));
        self.0.observe_slice(&bytes);
        assert_eq!(
            debug(&singly),
            debug(&self.0),
            "one byte at a time leaves the same"
        );
        Ok(String::new())
    }

    fn digest(&mut self, values: &[u64]) -> Answer {
        self.fitting(values)?;
        observe_words(&mut self.0, values, |v| v as u8, PhantomData::<Bytes>);
        Ok(String::new())
    }

    fn sample(&mut self) -> Answer {
        let mut copy = self.0.clone();
        let byte: u8 = self.0.sample();
        assert_eq!(copy.sample_vec(1), [byte]);
        assert_eq!(debug(&copy), debug(&self.0), "sample_vec leaves the same");
        Ok(byte.to_string())
    }

    fn find(&mut self, count: u64, mask: u64) -> Answer {
        find(&self.0, self.room(), count, mask)
    }

    fn held(&self) -> String {
        held_hash(&debug(&self.0))
    }

    fn finalize(self: Box<Self>) -> Answer {
        Ok(Rust::<H>::digest_text(self.0.finalize()))
    }
}
