//! The five helpers of multi_field_challenger.rs, as docs/RULES.md of the repository has them: rb, limbs, k, packing, splitting.

use core::marker::PhantomData;
use core::ops::Deref;

use crate::{PrimeField, PrimeField32};

/// rb: the least b with 2^b at least the sampled order.
#[inline]
pub const fn absorb_radix_bits<F: PrimeField32>() -> u32 {
    let mut b = 0;
    while (1u64 << b) < F::ORDER_U64 {
        b += 1;
    }
    b
}

/// The numbers of a sampled and a sponge order, counted when the program is compiled.
struct Counts<F, PF>(PhantomData<(F, PF)>);

impl<F: PrimeField32, PF: PrimeField> Counts<F, PF> {
    const LIMBS: usize = {
        let rb = absorb_radix_bits::<F>() as usize;
        let mut n = 0;
        while rb * (n + 1) < 128 && (1u128 << (rb * (n + 1))) <= PF::ORDER as u128 {
            n += 1;
        }
        if n == 0 { 1 } else { n }
    };

    const K: usize = {
        let mut k = 0;
        let mut power = F::ORDER as u128;
        while power <= PF::ORDER as u128 {
            k += 1;
            power *= F::ORDER as u128;
        }
        k
    };
}

/// Limbs: the greatest n with 2^(rb n) at most the sponge order, or 1 if there is none.
#[inline]
pub fn max_absorb_injective_limbs<F: PrimeField32, PF: PrimeField>() -> usize {
    Counts::<F, PF>::LIMBS
}

/// k: the greatest k with (sampled order)^k at most the sponge order.
#[inline]
pub fn squeeze_field_order_num_limbs<PF: PrimeField, F: PrimeField32>() -> usize {
    Counts::<F, PF>::K
}

/// Packing: the sum, in whole numbers, of v_j 2^(rb j).
#[inline]
pub fn reduce_packed<F: PrimeField32, PF: PrimeField>(values: &[F], rb: u32) -> PF {
    let mut sum = 0u64;
    for (j, v) in values.iter().enumerate() {
        sum += v.as_canonical_u64() << (rb * j as u32);
    }
    debug_assert!(sum < PF::ORDER);
    PF::from_u64(sum)
}

/// Up to eight digits; no pair of domains here has more to a word.
pub struct Digits<F> {
    cells: [F; 8],
    count: usize,
}

impl<F> Deref for Digits<F> {
    type Target = [F];

    #[inline]
    fn deref(&self) -> &[F] {
        &self.cells[..self.count]
    }
}

impl<F> IntoIterator for Digits<F> {
    type Item = F;
    type IntoIter = core::iter::Take<core::array::IntoIter<F, 8>>;

    #[inline]
    fn into_iter(self) -> Self::IntoIter {
        self.cells.into_iter().take(self.count)
    }
}

/// Splitting: the k lowest digits of a word in base sampled order, lowest first.
#[inline]
pub fn split_pf_to_field_order_limbs<PF: PrimeField, F: PrimeField32>(
    word: PF,
    k: usize,
) -> Digits<F> {
    let mut rest = word.code();
    let mut cells = [F::ZERO; 8];
    for cell in &mut cells[..k] {
        *cell = F::from_u64(rest % F::ORDER_U64);
        rest /= F::ORDER_U64;
    }
    Digits { cells, count: k }
}
