//! The duplex challenger.

use std::marker::PhantomData;

use driver::{ByteDuplex, Perm};
use p3_challenger::{
    CanFinalizeDigest, CanObserve, CanSample, CanSampleBits, CanSampleUniformBits, DuplexChallenger,
};
use p3_field::{BYTES, Bytes, Code, PrimeCharacteristicRing, UniformSamplingField};

use crate::answer::{Answer, ask_bits, ask_codes, ask_limit, debug, held_sponge, no_call, numbers};
use crate::challenger::{self, Challenger, codes, observe_words};
use crate::table::OfPair;
use crate::transcript::find;

type Rust<const O: u64, const W: usize, const R: usize> = DuplexChallenger<Code<O>, Perm, W, R>;

struct Duplex<const O: u64, const W: usize, const R: usize>(Rust<O, W, R>);

pub struct MakeDuplex<const O: u64>(pub Perm);

impl<const O: u64> OfPair for MakeDuplex<O>
where
    Code<O>: UniformSamplingField,
{
    fn make<const W: usize, const R: usize>(self) -> Box<dyn Challenger> {
        Box::new(Duplex::<O, W, R>(DuplexChallenger::new(self.0)))
    }
}

/// The value drawn last and the bound that it is not below.
type NoDraw = (u64, u64);

/// A bounded draw by samples of the Rust.
fn draw<const O: u64, const W: usize, const R: usize>(
    c: &mut Rust<O, W, R>,
    bound: u64,
    limit: u64,
) -> Result<u64, NoDraw> {
    let mut value = 0;
    for _ in 0..limit {
        let code: Code<O> = c.sample();
        value = code.get();
        if value < bound {
            return Ok(value);
        }
    }
    Err((value, bound))
}

/// Uniform bits by bounded draws, one above another.
fn uniform_by_draws<const O: u64, const W: usize, const R: usize>(
    c: &mut Rust<O, W, R>,
    bits: usize,
    limit: u64,
) -> Result<u64, NoDraw>
where
    Code<O>: UniformSamplingField,
{
    let parts = if bits <= Code::<O>::MAX_SINGLE_SAMPLE_BITS {
        vec![bits]
    } else {
        vec![bits / 2, bits - bits / 2]
    };
    let (mut value, mut shift) = (0, 0);
    for part in parts {
        let drawn = draw(c, Code::<O>::SAMPLING_BITS_M[part], limit)?;
        value |= drawn % (1 << part) << shift;
        shift += part;
    }
    Ok(value)
}

impl<const O: u64, const W: usize, const R: usize> Duplex<O, W, R>
where
    Code<O>: UniformSamplingField,
{
    fn uniform_of_none(&mut self) {
        let before = debug(&self.0);
        assert_eq!(self.0.sample_uniform_bits::<false>(0).expect("0 bits"), 0);
        assert_eq!(self.0.sample_uniform_bits::<true>(0).expect("0 bits"), 0);
        assert_eq!(
            before,
            debug(&self.0),
            "uniform bits of 0 bits moves nothing"
        );
    }

    /// Makes the call of the Rust, where it has one with this outcome, and compares.
    fn uniform_of_rust(&mut self, bits: usize, limit: u64, wanted: Result<u64, NoDraw>) {
        if limit == 1 {
            match (self.0.sample_uniform_bits::<false>(bits), wanted) {
                (Ok(value), Ok(wanted)) => assert_eq!(value as u64, wanted),
                (Err(error), Err((value, bound))) => {
                    let told = format!("ResamplingError {{ value: {value}, m: {bound} }}");
                    assert_eq!(debug(&error), told)
                }
                (given, wanted) => panic!("uniform bits: {given:?}, and not {wanted:?}"),
            }
        } else {
            let value = self.0.sample_uniform_bits::<true>(bits).expect("a value");
            assert_eq!(
                value as u64,
                wanted.expect("the Rust ends only with a value")
            );
        }
    }
}

impl<const O: u64, const W: usize, const R: usize> Challenger for Duplex<O, W, R>
where
    Code<O>: UniformSamplingField,
{
    fn observe(&mut self, values: &[u64]) -> Answer {
        ask_codes(values, O)?;
        self.0.observe_slice(&codes(values));
        Ok(String::new())
    }

    fn digest(&mut self, values: &[u64]) -> Answer {
        ask_codes(values, O)?;
        observe_words(
            &mut self.0,
            values,
            Code::<O>::from_u64,
            PhantomData::<Code<O>>,
        );
        Ok(String::new())
    }

    fn sample(&mut self) -> Answer {
        let code: Code<O> = self.0.sample();
        Ok(code.to_string())
    }

    fn bits(&mut self, bits: u64) -> Answer {
        ask_bits(bits, O)?;
        Ok(self.0.sample_bits(bits as usize).to_string())
    }

    fn uniform(&mut self, bits: u64, limit: u64) -> Answer {
        ask_bits(bits, O)?;
        if bits == 0 {
            self.uniform_of_none();
            return Ok("0".into());
        }
        ask_limit(limit)?;
        let mut copy = self.0.clone();
        let drawn = uniform_by_draws(&mut copy, bits as usize, limit);
        // Refused after more than one draw, there is no call of the Rust to compare with.
        if limit == 1 || drawn.is_ok() {
            self.uniform_of_rust(bits as usize, limit, drawn);
            assert_eq!(
                debug(&self.0),
                debug(&copy),
                "uniform bits by draws leaves the same"
            );
        }
        self.0 = copy;
        match drawn {
            Ok(value) => Ok(value.to_string()),
            Err((value, bound)) => Err(format!("no 26 {value} {bound}")),
        }
    }

    fn check(&mut self, bits: u64, witness: u64) -> Answer {
        challenger::check(&mut self.0, bits, witness)
    }

    fn grind(&mut self, bits: u64, budget: u64) -> Answer {
        challenger::grind(&mut self.0, bits, budget)
    }

    fn find(&mut self, count: u64, mask: u64) -> Answer {
        if O != BYTES {
            return no_call();
        }
        // What is held, in a byte transcript.
        let bytes = |codes: &[Code<O>]| -> Vec<Bytes> {
            codes.iter().map(|c| Bytes::from_u64(c.get())).collect()
        };
        let mut same = Rust::<BYTES, W, R>::new(self.0.permutation);
        same.sponge_state
            .copy_from_slice(&bytes(&self.0.sponge_state));
        same.input_buffer = bytes(&self.0.input_buffer);
        same.output_buffer = bytes(&self.0.output_buffer);
        find(&ByteDuplex(same), u64::MAX, count, mask)
    }

    fn held(&self) -> String {
        held_sponge(&debug(&self.0))
    }

    fn finalize(self: Box<Self>) -> Answer {
        Ok(numbers(&self.0.finalize(), " "))
    }
}
