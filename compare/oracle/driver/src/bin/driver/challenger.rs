//! What every challenger of a script can be asked, and what all grinding challengers share.

use std::fmt::Debug;
use std::marker::PhantomData;

use p3_challenger::{CanObserve, GrindingChallenger};
use p3_field::{Code, PrimeCharacteristicRing};
use p3_symmetric::Hash;

use crate::answer::{Answer, ask, ask_bits, ask_codes, debug, no_call, other_sample};

/// The calls; where a challenger has none of the name, the answer is no-call. Each has one of the two samples.
pub trait Challenger {
    fn observe(&mut self, values: &[u64]) -> Answer;
    fn digest(&mut self, values: &[u64]) -> Answer;
    fn digest64(&mut self, _values: &[u64]) -> Answer {
        no_call()
    }
    fn sample(&mut self) -> Answer {
        other_sample()
    }
    fn sample_within(&mut self, _limit: u64) -> Answer {
        other_sample()
    }
    fn bits(&mut self, _bits: u64) -> Answer {
        no_call()
    }
    fn uniform(&mut self, _bits: u64, _limit: u64) -> Answer {
        no_call()
    }
    fn check(&mut self, _bits: u64, _witness: u64) -> Answer {
        no_call()
    }
    fn grind(&mut self, _bits: u64, _budget: u64) -> Answer {
        no_call()
    }
    fn find(&mut self, _count: u64, _mask: u64) -> Answer {
        no_call()
    }
    fn held(&self) -> String;
    fn finalize(self: Box<Self>) -> Answer;
}

/// The codes of numbers that are below the order.
pub fn codes<const O: u64>(values: &[u64]) -> Vec<Code<O>> {
    values.iter().map(|&v| Code::from_u64(v)).collect()
}

pub fn check<C, const O: u64>(c: &mut C, bits: u64, witness: u64) -> Answer
where
    C: GrindingChallenger<Witness = Code<O>> + Debug,
{
    ask_bits(bits, O)?;
    if bits == 0 {
        let before = debug(c);
        assert!(c.check_witness(0, Code::from_u64(witness)));
        assert_eq!(before, debug(c), "a check of 0 bits moves nothing");
        return Ok("yes".into());
    }
    ask_codes(&[witness], O)?;
    let yes = c.check_witness(bits as usize, Code::from_u64(witness));
    Ok(if yes { "yes" } else { "no" }.into())
}

pub fn grind<C, const O: u64>(c: &mut C, bits: u64, budget: u64) -> Answer
where
    C: GrindingChallenger<Witness = Code<O>> + Clone + Debug,
{
    ask_bits(bits, O)?;
    if bits == 0 {
        let before = debug(c);
        assert_eq!(c.grind(0), Code::ZERO, "a grind of 0 bits gives 0");
        assert_eq!(before, debug(c), "a grind of 0 bits moves nothing");
        return Ok("0 0".into());
    }
    ask(budget <= O, 22)?;
    let passes = |&i: &u64| c.clone().check_witness(bits as usize, Code::from_u64(i));
    let Some(least) = (0..budget).find(passes) else {
        return Err(format!("no 25 {budget}"));
    };
    let mut checked = c.clone();
    assert!(checked.check_witness(bits as usize, Code::from_u64(least)));
    // The Rust's own search is serial here, and must find the same.
    assert_eq!(
        c.grind(bits as usize).get(),
        least,
        "the Rust's own witness"
    );
    assert_eq!(
        debug(c),
        debug(&checked),
        "a grind leaves what the check of its witness leaves"
    );
    Ok(format!("{least} {}", least + 1))
}

fn take<const N: usize, F, W>(rest: &mut &[u64], word: fn(u64) -> W) -> Hash<F, W, N> {
    let (head, tail) = rest.split_at(N);
    *rest = tail;
    Hash::from(std::array::from_fn(|i| word(head[i])))
}

/// Observes numbers as digests of up to eight words each: for challengers that take a digest word by word.
pub fn observe_words<C, F, W>(c: &mut C, values: &[u64], word: fn(u64) -> W, _: PhantomData<F>)
where
    C: CanObserve<Hash<F, W, 0>>
        + CanObserve<Hash<F, W, 1>>
        + CanObserve<Hash<F, W, 3>>
        + CanObserve<Hash<F, W, 8>>,
{
    let mut rest = values;
    if rest.is_empty() {
        c.observe(take::<0, F, W>(&mut rest, word));
    }
    while !rest.is_empty() {
        match rest.len() {
            8.. => c.observe(take::<8, F, W>(&mut rest, word)),
            3.. => c.observe(take::<3, F, W>(&mut rest, word)),
            _ => c.observe(take::<1, F, W>(&mut rest, word)),
        }
    }
}
