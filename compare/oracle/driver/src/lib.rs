//! The permutations, the hash functions and the byte duplex, as docs/RULES.md of the repository has them, for the
//! published challengers.

mod byte_duplex;
mod permutation;
mod sha256;
mod sha3;

pub use byte_duplex::ByteDuplex;
pub use permutation::Perm;
pub use sha3::sha3_256;
pub use sha256::sha256;

use p3_symmetric::CryptographicHasher;

macro_rules! hasher {
    ($name:ident $hash:ident) => {
        #[derive(Clone, Copy, Debug)]
        pub struct $name;

        impl CryptographicHasher<u8, [u8; 32]> for $name {
            fn hash_iter<I: IntoIterator<Item = u8>>(&self, input: I) -> [u8; 32] {
                $hash(&input.into_iter().collect::<Vec<u8>>())
            }

            fn hash_many(&self, messages: &[u8], digests: &mut [[u8; 32]]) {
                if digests.is_empty() {
                    return;
                }
                let length = messages.len() / digests.len();
                for (i, digest) in digests.iter_mut().enumerate() {
                    *digest = $hash(&messages[i * length..(i + 1) * length]);
                }
            }
        }
    };
}
hasher!(Sha256 sha256);
hasher!(Sha3 sha3_256);
