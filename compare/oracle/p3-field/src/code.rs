//! The four domains.

use core::fmt::{self, Debug, Display};
use core::ops::{Add, AddAssign, Mul, MulAssign, Neg, Sub, SubAssign};

use crate::{
    Algebra, Field, PackedValue, PrimeCharacteristicRing, PrimeField, PrimeField32, PrimeField64,
    QuotientMap, UniformSamplingField,
};

pub const BYTES: u64 = 256;
pub const BABY_BEAR: u64 = 2013265921;
pub const KOALA_BEAR: u64 = 2130706433;
pub const GOLDILOCKS: u64 = 18446744069414584321;

pub type Bytes = Code<BYTES>;
pub type BabyBear = Code<BABY_BEAR>;
pub type KoalaBear = Code<KOALA_BEAR>;
pub type Goldilocks = Code<GOLDILOCKS>;

/// A whole number below ORDER; sums and products are taken modulo ORDER.
#[derive(Clone, Copy, Default, PartialEq, Eq, PartialOrd, Ord, Hash)]
pub struct Code<const ORDER: u64>(u64);

impl<const ORDER: u64> Code<ORDER> {
    #[inline]
    pub const fn get(self) -> u64 {
        self.0
    }
}

impl<const ORDER: u64> Debug for Code<ORDER> {
    fn fmt(&self, f: &mut fmt::Formatter<'_>) -> fmt::Result {
        write!(f, "{}", self.0)
    }
}

impl<const ORDER: u64> Display for Code<ORDER> {
    fn fmt(&self, f: &mut fmt::Formatter<'_>) -> fmt::Result {
        write!(f, "{}", self.0)
    }
}

impl<const ORDER: u64> Add for Code<ORDER> {
    type Output = Self;

    #[inline]
    fn add(self, other: Self) -> Self {
        let (sum, carried) = self.0.overflowing_add(other.0);
        Self(if carried || sum >= ORDER {
            sum.wrapping_sub(ORDER)
        } else {
            sum
        })
    }
}

impl<const ORDER: u64> Neg for Code<ORDER> {
    type Output = Self;

    #[inline]
    fn neg(self) -> Self {
        Self(if self.0 == 0 { 0 } else { ORDER - self.0 })
    }
}

impl<const ORDER: u64> Sub for Code<ORDER> {
    type Output = Self;

    #[inline]
    fn sub(self, other: Self) -> Self {
        self + -other
    }
}

impl<const ORDER: u64> Mul for Code<ORDER> {
    type Output = Self;

    #[inline]
    fn mul(self, other: Self) -> Self {
        if ORDER <= 1 << 32 {
            Self(self.0 * other.0 % ORDER)
        } else if ORDER == GOLDILOCKS {
            Self(goldilocks_product(self.0, other.0))
        } else {
            Self((u128::from(self.0) * u128::from(other.0) % u128::from(ORDER)) as u64)
        }
    }
}

/// The product modulo the order of Goldilocks, where 2^64 is 2^32 - 1 and 2^96 is -1.
#[inline]
fn goldilocks_product(a: u64, b: u64) -> u64 {
    const TWO_TO_64: u64 = 0xffff_ffff;
    let product = u128::from(a) * u128::from(b);
    let (low, high) = (product as u64, (product >> 64) as u64);
    let (mut rest, borrowed) = low.overflowing_sub(high >> 32);
    if borrowed {
        rest = rest.wrapping_sub(TWO_TO_64);
    }
    let (mut sum, carried) = rest.overflowing_add((high & 0xffff_ffff) * TWO_TO_64);
    if carried {
        sum = sum.wrapping_add(TWO_TO_64);
    }
    if sum >= GOLDILOCKS {
        sum - GOLDILOCKS
    } else {
        sum
    }
}

impl<const ORDER: u64> AddAssign for Code<ORDER> {
    #[inline]
    fn add_assign(&mut self, other: Self) {
        *self = *self + other;
    }
}

impl<const ORDER: u64> SubAssign for Code<ORDER> {
    #[inline]
    fn sub_assign(&mut self, other: Self) {
        *self = *self - other;
    }
}

impl<const ORDER: u64> MulAssign for Code<ORDER> {
    #[inline]
    fn mul_assign(&mut self, other: Self) {
        *self = *self * other;
    }
}

impl<const ORDER: u64> PrimeCharacteristicRing for Code<ORDER> {
    const ZERO: Self = Self(0);
    const ONE: Self = Self(1);
    const NEG_ONE: Self = Self(ORDER - 1);

    #[inline]
    fn from_u64(x: u64) -> Self {
        Self(if x < ORDER { x } else { x % ORDER })
    }
}

impl<const ORDER: u64> Algebra<Code<ORDER>> for Code<ORDER> {}

impl<const ORDER: u64> PackedValue for Code<ORDER> {
    type Value = Self;
    const WIDTH: usize = 1;

    #[inline]
    fn from_fn<M: FnMut(usize) -> Self>(mut m: M) -> Self {
        m(0)
    }

    #[inline]
    fn as_slice(&self) -> &[Self] {
        core::slice::from_ref(self)
    }
}

impl<const ORDER: u64> Field for Code<ORDER> {
    type Packing = Self;
    const ORDER: u64 = ORDER;
}

impl<const ORDER: u64> QuotientMap<u32> for Code<ORDER> {
    #[inline]
    unsafe fn from_canonical_unchecked(int: u32) -> Self {
        debug_assert!(u64::from(int) < ORDER);
        Self(int.into())
    }
}

impl<const ORDER: u64> QuotientMap<u64> for Code<ORDER> {
    #[inline]
    unsafe fn from_canonical_unchecked(int: u64) -> Self {
        debug_assert!(int < ORDER);
        Self(int)
    }
}

impl<const ORDER: u64> PrimeField for Code<ORDER> {
    #[inline]
    fn code(&self) -> u64 {
        self.0
    }
}

impl<const ORDER: u64> PrimeField64 for Code<ORDER> {
    const ORDER_U64: u64 = ORDER;

    #[inline]
    fn as_canonical_u64(&self) -> u64 {
        self.0
    }
}

macro_rules! fits_32_bits {
    ($($order:ident),*) => {$(
        impl PrimeField32 for Code<$order> {
            const ORDER_U32: u32 = $order as u32;

            #[inline]
            fn as_canonical_u32(&self) -> u32 {
                self.0 as u32
            }
        }
    )*};
}
fits_32_bits!(BYTES, BABY_BEAR, KOALA_BEAR);

/// The bounds for b bits, b from 0 to 63: order - (order mod 2^b).
const fn bounds(order: u64) -> [u64; 64] {
    let mut all = [0; 64];
    let mut b = 0;
    while b < 64 {
        all[b] = order - order % (1 << b);
        b += 1;
    }
    all
}

macro_rules! single {
    ($($order:ident $single:literal),*) => {$(
        impl UniformSamplingField for Code<$order> {
            const MAX_SINGLE_SAMPLE_BITS: usize = $single;
            const SAMPLING_BITS_M: [u64; 64] = bounds($order);
        }
    )*};
}
single!(BYTES 7, BABY_BEAR 27, KOALA_BEAR 24, GOLDILOCKS 32);

#[cfg(test)]
mod tests {
    use super::*;

    fn check(a: u64, b: u64) {
        let (a, b) = (a % GOLDILOCKS, b % GOLDILOCKS);
        let order = u128::from(GOLDILOCKS);
        let product = u128::from(a) * u128::from(b) % order;
        assert_eq!(
            u128::from((Goldilocks::from_u64(a) * Goldilocks::from_u64(b)).get()),
            product
        );
        let sum = (u128::from(a) + u128::from(b)) % order;
        assert_eq!(
            u128::from((Goldilocks::from_u64(a) + Goldilocks::from_u64(b)).get()),
            sum
        );
    }

    #[test]
    fn goldilocks_sums_and_products() {
        let edge = [
            0,
            1,
            0xffff_ffff,
            1 << 32,
            1 << 63,
            GOLDILOCKS - 2,
            GOLDILOCKS - 1,
        ];
        for a in edge {
            for b in edge {
                check(a, b);
            }
        }
        let mut a = 0x9e3779b97f4a7c15u64;
        for _ in 0..200_000 {
            let b = a
                .wrapping_mul(6364136223846793005)
                .wrapping_add(1442695040888963407);
            check(a, b);
            a = b;
        }
    }
}
