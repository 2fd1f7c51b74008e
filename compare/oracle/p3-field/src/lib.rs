//! In the place of p3-field: only what p3-challenger 0.8.0 uses, over four domains.
//!
//! The traits are called fields, as p3-challenger calls them, also where the order is 256: it never divides.
#![no_std]

mod code;
mod packing;

pub use code::*;
pub use packing::*;

use core::fmt::{Debug, Display};
use core::hash::Hash;
use core::ops::{Add, AddAssign, Mul, MulAssign, Neg, Sub, SubAssign};

pub trait PrimeCharacteristicRing:
    Sized
    + Default
    + Clone
    + Debug
    + Add<Output = Self>
    + AddAssign
    + Sub<Output = Self>
    + SubAssign
    + Mul<Output = Self>
    + MulAssign
    + Neg<Output = Self>
{
    const ZERO: Self;
    const ONE: Self;
    const NEG_ONE: Self;

    /// The code of x mod order.
    fn from_u64(x: u64) -> Self;

    fn from_u8(x: u8) -> Self {
        Self::from_u64(x.into())
    }

    fn from_u32(x: u32) -> Self {
        Self::from_u64(x.into())
    }

    fn exp_u64(&self, power: u64) -> Self {
        (0..power).fold(Self::ONE, |product, _| product * self.clone())
    }
}

pub trait Algebra<F>: PrimeCharacteristicRing + From<F> {}

pub trait BasedVectorSpace<F: PrimeCharacteristicRing>: Sized {
    fn as_basis_coefficients_slice(&self) -> &[F];
    fn from_basis_coefficients_fn<M: FnMut(usize) -> F>(m: M) -> Self;
}

impl<F: Field> BasedVectorSpace<F> for F {
    #[inline]
    fn as_basis_coefficients_slice(&self) -> &[F] {
        core::slice::from_ref(self)
    }

    #[inline]
    fn from_basis_coefficients_fn<M: FnMut(usize) -> F>(mut m: M) -> Self {
        m(0)
    }
}

/// Several values at once. Here it is always one.
pub trait PackedValue: Copy + Send + Sync + 'static {
    type Value;
    const WIDTH: usize;
    fn from_fn<M: FnMut(usize) -> Self::Value>(m: M) -> Self;
    fn as_slice(&self) -> &[Self::Value];
}

pub trait Field:
    PrimeCharacteristicRing + Copy + Eq + Hash + Display + Send + Sync + 'static
{
    type Packing: PackedValue<Value = Self> + PrimeCharacteristicRing + From<Self>;

    const ORDER: u64;

    /// The published function gives a big integer; every order here fits 64 bits.
    fn order() -> u64 {
        Self::ORDER
    }
}

pub trait QuotientMap<Int>: Sized {
    /// # Safety
    /// `int` is below the order.
    unsafe fn from_canonical_unchecked(int: Int) -> Self;
}

pub trait PrimeField: Field + Ord + QuotientMap<u32> + QuotientMap<u64> {
    fn code(&self) -> u64;
}

pub trait PrimeField64: PrimeField {
    const ORDER_U64: u64;
    fn as_canonical_u64(&self) -> u64;
    fn to_unique_u64(&self) -> u64 {
        self.as_canonical_u64()
    }
}

pub trait PrimeField32: PrimeField64 {
    const ORDER_U32: u32;
    fn as_canonical_u32(&self) -> u32;
    fn to_unique_u32(&self) -> u32 {
        self.as_canonical_u32()
    }
}

pub trait UniformSamplingField {
    const MAX_SINGLE_SAMPLE_BITS: usize;
    const SAMPLING_BITS_M: [u64; 64];
}
