//! The serializing challenger, over either byte transcript.

use std::fmt::Debug;
use std::marker::PhantomData;

use driver::{ByteDuplex, Perm, Sha3, Sha256};
use p3_challenger::{
    CanFinalizeDigest, CanObserve, CanSample, CanSampleBits, CanSampleUniformBits,
    DuplexChallenger, HashChallenger, SerializingChallenger32,
};
use p3_field::{BABY_BEAR, BYTES, Bytes, Code, KOALA_BEAR, PrimeField32};
use p3_symmetric::CryptographicHasher;

use crate::answer::{Answer, ask_bits, ask_codes, ask_limit, ask_room, bytes_of, debug};
use crate::challenger::{self, Challenger, codes, observe_words};
use crate::read::Hasher;
use crate::table::OfPair;
use crate::transcript::{Noted, Transcript, drawn_in_all, last_word};

struct Serial<const O: u64, T>(SerializingChallenger32<Code<O>, Noted<T>>);

pub struct MakeSerial<const O: u64>(pub Perm);

impl<const O: u64> OfPair for MakeSerial<O>
where
    Code<O>: PrimeField32,
{
    fn make<const W: usize, const R: usize>(self) -> Box<dyn Challenger> {
        let below = ByteDuplex(DuplexChallenger::<Bytes, Perm, W, R>::new(self.0));
        Box::new(Serial::<O, _>(SerializingChallenger32::new(Noted(below))))
    }
}

fn over_hasher<H>(order: u64, initial: Vec<u8>, hasher: H) -> Box<dyn Challenger>
where
    H: CryptographicHasher<u8, [u8; 32]> + Debug + Send + Sync + 'static,
{
    let below = Noted(HashChallenger::new(initial, hasher));
    match order {
        BYTES => Box::new(Serial::<BYTES, _>(SerializingChallenger32::new(below))),
        BABY_BEAR => Box::new(Serial::<BABY_BEAR, _>(SerializingChallenger32::new(below))),
        KOALA_BEAR => Box::new(Serial::<KOALA_BEAR, _>(SerializingChallenger32::new(below))),
        _ => unreachable!("question 11 refuses other orders"),
    }
}

pub fn over_hash(order: u64, hasher: Hasher, initial: Vec<u8>) -> Box<dyn Challenger> {
    match hasher {
        Hasher::Sha256 => over_hasher(order, initial, Sha256),
        Hasher::Sha3 => over_hasher(order, initial, Sha3),
    }
}

impl<const O: u64, T: Transcript> Serial<O, T>
where
    Code<O>: PrimeField32,
{
    fn room(&self) -> u64 {
        T::room(&debug(&self.0))
    }

    /// Draws a word from a copy and keeps the low bits that a sample keeps.
    fn kept(copy: &mut SerializingChallenger32<Code<O>, Noted<T>>) -> u64 {
        let bits = (0..).find(|&c| 1u64 << c >= O).expect("32 bits are enough");
        assert_eq!(copy.sample_bits(0), 0);
        u64::from(last_word()) % (1u64 << bits)
    }
}

impl<const O: u64, T: Transcript> Challenger for Serial<O, T>
where
    Code<O>: PrimeField32,
{
    fn observe(&mut self, values: &[u64]) -> Answer {
        ask_codes(values, O)?;
        ask_room(4 * values.len(), self.room())?;
        self.0.observe_slice(&codes(values));
        Ok(String::new())
    }

    fn digest(&mut self, values: &[u64]) -> Answer {
        let bytes = bytes_of(values)?;
        ask_room(bytes.len(), self.room())?;
        observe_words(&mut self.0, values, |v| v as u8, PhantomData::<Code<O>>);
        Ok(String::new())
    }

    fn digest64(&mut self, values: &[u64]) -> Answer {
        ask_room(8 * values.len(), self.room())?;
        observe_words(&mut self.0, values, |v| v, PhantomData::<Code<O>>);
        Ok(String::new())
    }

    fn sample_within(&mut self, limit: u64) -> Answer {
        ask_limit(limit)?;
        let mut copy = self.0.clone();
        let mut kept = 0;
        for draws in 1..=limit {
            kept = Self::kept(&mut copy);
            if kept < O {
                let before = drawn_in_all();
                let code: Code<O> = self.0.sample();
                assert_eq!(code.get(), kept, "the Rust's own sample");
                assert_eq!(drawn_in_all() - before, 4 * draws, "the bytes that it drew");
                assert_eq!(debug(&copy), debug(&self.0), "it leaves the same");
                return Ok(kept.to_string());
            }
        }
        self.0 = copy;
        Err(format!("no 26 {kept} {O}"))
    }

    fn bits(&mut self, bits: u64) -> Answer {
        ask_bits(bits, O)?;
        Ok(self.0.sample_bits(bits as usize).to_string())
    }

    fn uniform(&mut self, bits: u64, limit: u64) -> Answer {
        ask_bits(bits, O)?;
        ask_limit(limit)?;
        let mut copy = self.0.clone();
        let strict = copy
            .sample_uniform_bits::<false>(bits as usize)
            .expect("no redraws");
        let value = self
            .0
            .sample_uniform_bits::<true>(bits as usize)
            .expect("no redraws");
        assert_eq!((strict, debug(&copy)), (value, debug(&self.0)));
        Ok(value.to_string())
    }

    fn check(&mut self, bits: u64, witness: u64) -> Answer {
        challenger::check(&mut self.0, bits, witness)
    }

    fn grind(&mut self, bits: u64, budget: u64) -> Answer {
        challenger::grind(&mut self.0, bits, budget)
    }

    fn held(&self) -> String {
        T::held(&debug(&self.0))
    }

    fn finalize(self: Box<Self>) -> Answer {
        Ok(T::digest_text(self.0.finalize()))
    }
}
