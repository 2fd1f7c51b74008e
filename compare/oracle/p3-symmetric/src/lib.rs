//! In the place of p3-symmetric: only what p3-challenger 0.8.0 uses.
#![no_std]
extern crate alloc;

use alloc::vec::Vec;
use core::marker::PhantomData;

pub trait Permutation<T: Clone>: Clone + Sync {
    fn permute_mut(&self, input: &mut T);
}

pub trait CryptographicPermutation<T: Clone>: Permutation<T> {}

pub trait CryptographicHasher<Item: Clone, Out>: Clone {
    /// How many messages one call of `hash_many` takes at best.
    const LANES: usize = 1;

    fn hash_iter<I: IntoIterator<Item = Item>>(&self, input: I) -> Out;

    /// Hashes `digests.len()` messages of one length that stand end to end.
    fn hash_many(&self, messages: &[Item], digests: &mut [Out]) {
        if digests.is_empty() {
            return;
        }
        let length = messages.len() / digests.len();
        for (i, digest) in digests.iter_mut().enumerate() {
            *digest = self.hash_iter(messages[i * length..(i + 1) * length].iter().cloned());
        }
    }
}

/// A digest of N words; F is the field of the challenger that observes it.
#[derive(Clone, Copy, Debug, PartialEq, Eq)]
pub struct Hash<F, W, const N: usize> {
    words: [W; N],
    field: PhantomData<F>,
}

impl<F, W, const N: usize> From<[W; N]> for Hash<F, W, N> {
    fn from(words: [W; N]) -> Self {
        Self {
            words,
            field: PhantomData,
        }
    }
}

impl<F, W, const N: usize> AsRef<[W; N]> for Hash<F, W, N> {
    fn as_ref(&self) -> &[W; N] {
        &self.words
    }
}

impl<F, W, const N: usize> IntoIterator for Hash<F, W, N> {
    type Item = W;
    type IntoIter = core::array::IntoIter<W, N>;
    fn into_iter(self) -> Self::IntoIter {
        self.words.into_iter()
    }
}

/// Some digests. The published code names it; the driver never makes one.
#[derive(Clone, Debug, PartialEq, Eq)]
pub struct MerkleCap<F, D> {
    roots: Vec<D>,
    field: PhantomData<F>,
}

impl<F, D> MerkleCap<F, D> {
    pub fn roots(&self) -> &[D] {
        &self.roots
    }
}
