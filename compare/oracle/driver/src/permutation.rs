//! Mirror and Ladder, over every domain and width.

use p3_field::{Code, GOLDILOCKS, PrimeCharacteristicRing};
use p3_symmetric::{CryptographicPermutation, Permutation};

#[derive(Clone, Copy, Debug)]
pub enum Perm {
    Mirror,
    /// With this many rounds.
    Ladder(u64),
}

#[inline]
fn stir<const ORDER: u64>(a: Code<ORDER>) -> Code<ORDER> {
    if ORDER == GOLDILOCKS {
        Code::from_u64((a.get() & 0xffff_ffff) * (a.get() >> 32))
    } else {
        a * a
    }
}

#[inline]
fn climb<const ORDER: u64, const WIDTH: usize>(row: &mut [Code<ORDER>; WIDTH], round: u64) {
    for i in 0..WIDTH {
        let next = if i + 1 == WIDTH { 0 } else { i + 1 };
        row[next] += stir(row[i]) + Code::from_u64(round + i as u64 + 1);
    }
}

impl<const ORDER: u64, const WIDTH: usize> Permutation<[Code<ORDER>; WIDTH]> for Perm {
    fn permute_mut(&self, row: &mut [Code<ORDER>; WIDTH]) {
        match *self {
            Perm::Mirror => row.reverse(),
            Perm::Ladder(rounds) => (0..rounds).for_each(|round| climb(row, round)),
        }
    }
}

impl<const ORDER: u64, const WIDTH: usize> CryptographicPermutation<[Code<ORDER>; WIDTH]> for Perm {}
