//! The multi-field challenger.

use driver::Perm;
use p3_challenger::{
    CanFinalizeDigest, CanObserve, CanSample, CanSampleBits, MultiField32Challenger,
    MultiField32ChallengerError,
};
use p3_field::{
    BABY_BEAR, BYTES, Code, GOLDILOCKS, KOALA_BEAR, PrimeField32, absorb_radix_bits,
    max_absorb_injective_limbs, squeeze_field_order_num_limbs,
};
use p3_symmetric::Hash;

use crate::answer::{Answer, ask, ask_bits, ask_codes, debug, held_sponge, listed, numbers, shown};
use crate::challenger::{self, Challenger, codes};
use crate::table::{OfLength, OfPair, with_length, with_pair};

type Rust<const O: u64, const S: u64, const W: usize, const R: usize> =
    MultiField32Challenger<Code<O>, Code<S>, Perm, W, R>;

struct Multi<const O: u64, const S: u64, const W: usize, const R: usize>(Rust<O, S, W, R>)
where
    Code<O>: PrimeField32;

struct MakeMulti<const O: u64, const S: u64>(Perm);

impl<const O: u64, const S: u64> OfPair for MakeMulti<O, S>
where
    Code<O>: PrimeField32,
{
    fn make<const W: usize, const R: usize>(self) -> Box<dyn Challenger> {
        let made = Rust::<O, S, W, R>::new(self.0);
        Box::new(Multi::<O, S, W, R>(
            made.expect("questions 12 and 13 are put before"),
        ))
    }
}

/// Whether the Rust's constructor refuses a RATE exactly where question 13 does, by the same numbers.
fn agrees_on_batch(limbs: u64, rate: u64, made: Result<(), MultiField32ChallengerError>) -> bool {
    match made {
        Ok(()) => limbs * rate <= 255,
        Err(MultiField32ChallengerError::AbsorbLengthTagOverflow { batch_len, max }) => {
            limbs * rate > 255 && batch_len as u64 == limbs * rate && max == 255
        }
        Err(_) => false,
    }
}

/// Puts questions 12 and 13, and compares them with the Rust's constructor at some RATEs.
fn make_of<const O: u64, const S: u64>(
    perm: Perm,
    width: u64,
    rate: u64,
) -> Result<Box<dyn Challenger>, String>
where
    Code<O>: PrimeField32,
{
    if O >= S {
        let made = Rust::<O, S, 3, 2>::new(perm);
        assert!(matches!(
            made,
            Err(MultiField32ChallengerError::FieldOrderNotIncreasing { .. })
        ));
        return Err(format!("no 12 {O} {S}"));
    }
    let limbs = max_absorb_injective_limbs::<Code<O>, Code<S>>() as u64;
    assert!(agrees_on_batch(
        limbs,
        36,
        Rust::<O, S, 64, 36>::new(perm).map(drop)
    ));
    assert!(agrees_on_batch(
        limbs,
        37,
        Rust::<O, S, 64, 37>::new(perm).map(drop)
    ));
    assert!(agrees_on_batch(
        limbs,
        63,
        Rust::<O, S, 64, 63>::new(perm).map(drop)
    ));
    if limbs * rate > 255 {
        return Err(format!("no 13 {} 255", limbs * rate));
    }
    with_pair(width, rate, MakeMulti::<O, S>(perm))
}

/// Runs `$do` for the sampled order `$o` and the sponge order `$s`, as const parameters A and B.
macro_rules! for_orders {
    ($o:expr, $s:expr, $a:ident $b:ident => $do:expr) => {
        for_orders!(@ $o, $s, $a $b => $do; BYTES BABY_BEAR KOALA_BEAR)
    };
    (@ $o:expr, $s:expr, $a:ident $b:ident => $do:expr; $($order:ident)*) => {
        match $o {
            $($order => {
                const $a: u64 = $order;
                for_orders!(@ $s, $b => $do)
            })*
            _ => unreachable!("question 11 refuses other orders"),
        }
    };
    (@ $s:expr, $b:ident => $do:expr) => {
        match $s {
            BYTES => { const $b: u64 = BYTES; $do }
            BABY_BEAR => { const $b: u64 = BABY_BEAR; $do }
            KOALA_BEAR => { const $b: u64 = KOALA_BEAR; $do }
            _ => { const $b: u64 = GOLDILOCKS; $do }
        }
    };
}

pub fn make(
    sampled: u64,
    sponge: u64,
    perm: Perm,
    width: u64,
    rate: u64,
) -> Result<Box<dyn Challenger>, String> {
    ask(sampled <= 1 << 32, 11)?;
    for_orders!(sampled, sponge, A B => make_of::<A, B>(perm, width, rate))
}

/// rb, limbs and k of two domains.
pub fn helpers(sampled: u64, sponge: u64) -> Answer {
    ask(sampled <= 1 << 32, 11)?;
    Ok(for_orders!(sampled, sponge, A B => format!(
        "{} {} {}",
        absorb_radix_bits::<Code<A>>(),
        max_absorb_injective_limbs::<Code<A>, Code<B>>(),
        squeeze_field_order_num_limbs::<Code<B>, Code<A>>()
    )))
}

/// A digest of N words. Lengths are compiled up to RATE or 9, whichever is more.
struct Words<'a, const O: u64, const S: u64, const W: usize, const R: usize>(
    &'a mut Rust<O, S, W, R>,
    &'a [u64],
)
where
    Code<O>: PrimeField32;

impl<const O: u64, const S: u64, const W: usize, const R: usize> OfLength for Words<'_, O, S, W, R>
where
    Code<O>: PrimeField32,
{
    fn run<const N: usize>(self) {
        if const { N <= R || N <= 9 } {
            let words: [Code<S>; N] = std::array::from_fn(|i| codes(&self.1[i..=i])[0]);
            self.0.observe(Hash::<Code<O>, Code<S>, N>::from(words));
        } else {
            unreachable!("a longer digest is cut")
        }
    }
}

impl<const O: u64, const S: u64, const W: usize, const R: usize> Challenger for Multi<O, S, W, R>
where
    Code<O>: PrimeField32,
{
    fn observe(&mut self, values: &[u64]) -> Answer {
        ask_codes(values, O)?;
        self.0.observe_slice(&codes(values));
        Ok(String::new())
    }

    fn digest(&mut self, values: &[u64]) -> Answer {
        ask_codes(values, S)?;
        // A longer digest goes in as several, each but the last of whole groups of RATE.
        let longest = if R >= 9 { R } else { 9 / R * R };
        let mut rest = values;
        while rest.len() > R.max(9) {
            let (head, tail) = rest.split_at(longest);
            with_length(longest, Words::<O, S, W, R>(&mut self.0, head));
            rest = tail;
        }
        with_length(rest.len(), Words::<O, S, W, R>(&mut self.0, rest));
        Ok(String::new())
    }

    fn sample(&mut self) -> Answer {
        let code: Code<O> = self.0.sample();
        Ok(code.to_string())
    }

    fn bits(&mut self, bits: u64) -> Answer {
        ask_bits(bits, O)?;
        Ok(self.0.sample_bits(bits as usize).to_string())
    }

    fn check(&mut self, bits: u64, witness: u64) -> Answer {
        challenger::check(&mut self.0, bits, witness)
    }

    fn grind(&mut self, bits: u64, budget: u64) -> Answer {
        challenger::grind(&mut self.0, bits, budget)
    }

    fn held(&self) -> String {
        let debug = debug(&self.0);
        // The sponge below shows no pending words: what is pending here are scalars.
        assert!(shown::<u64>(&debug, "input_buffer").is_empty());
        let scalars = listed(&shown::<u64>(&debug, " f_buffer"));
        let squeeze = listed(&shown::<u64>(&debug, "f_squeeze_buffer"));
        let sponge = held_sponge(&debug).replace("pending=-", &format!("pending={scalars}"));
        format!("{sponge} squeeze={squeeze}")
    }

    fn finalize(self: Box<Self>) -> Answer {
        Ok(numbers(&self.0.finalize(), " "))
    }
}
