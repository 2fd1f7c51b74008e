//! What the Rust does where docs/DIFFERENCES.md says that it does otherwise: it is called with no question put before.
//! Prints for each input what is held before and after, and the answer or the panic.

use std::fmt::Debug;
use std::panic::{self, AssertUnwindSafe, catch_unwind};

use driver::{ByteDuplex, Perm, Sha256};
use p3_challenger::{
    ByteGrindingChallenger, CanObserve, CanSample, CanSampleBits, CanSampleUniformBits,
    DuplexChallenger, GrindingChallenger, HashChallenger, MultiField32Challenger,
    SerializingChallenger32,
};
use p3_field::{BabyBear, Bytes, Code, Goldilocks, KoalaBear, PrimeCharacteristicRing};
use p3_symmetric::CryptographicHasher;

fn tell<C: Debug, T: Debug>(input: &str, mut c: C, run: impl FnOnce(&mut C) -> T) {
    println!("{input}");
    println!("  before: {c:?}");
    match catch_unwind(AssertUnwindSafe(|| run(&mut c))) {
        Ok(value) => println!("  answer: {value:?}"),
        Err(_) => println!("  panics"),
    }
    println!("  after:  {c:?}");
}

fn duplex() -> DuplexChallenger<BabyBear, Perm, 3, 2> {
    DuplexChallenger::new(Perm::Mirror)
}

fn multi() -> MultiField32Challenger<BabyBear, Goldilocks, Perm, 3, 2> {
    MultiField32Challenger::new(Perm::Mirror).expect("the orders and the batch are fit")
}

fn hash(initial: &[u8]) -> HashChallenger<u8, Sha256, 32> {
    HashChallenger::new(initial.to_vec(), Sha256)
}

fn serial() -> SerializingChallenger32<BabyBear, HashChallenger<u8, Sha256, 32>> {
    SerializingChallenger32::new(hash(&[]))
}

fn with_outputs() -> HashChallenger<u8, Sha256, 32> {
    let mut c = hash(&[]);
    let _: u8 = c.sample();
    c
}

/// Refusals here, assertions there.
fn bits_too_many() {
    let five = || Code::from_u64(5);
    tell("duplex babybear mirror 3 2: check 31 5", duplex(), |c| {
        c.check_witness(31, five())
    });
    tell("duplex babybear mirror 3 2: bits 31", duplex(), |c| {
        c.sample_bits(31)
    });
    tell("duplex babybear mirror 3 2: grind 31", duplex(), |c| {
        c.grind(31)
    });
    tell("duplex babybear mirror 3 2: uniform 31", duplex(), |c| {
        c.sample_uniform_bits::<true>(31)
    });
    tell(
        "multi babybear goldilocks mirror 3 2: check 31 5",
        multi(),
        |c| c.check_witness(31, five()),
    );
    tell("serial babybear hash sha256 -: check 31 5", serial(), |c| {
        c.check_witness(31, five())
    });
}

fn bytes_observed() {
    tell(
        "hash sha256 -, sample: observe the empty array",
        with_outputs(),
        |c| c.observe([0u8; 0]),
    );
    tell(
        "hash sha256 -, sample: observe the empty slice",
        with_outputs(),
        |c| c.observe_slice(&[0u8; 0]),
    );
    let mut full = hash(&[7; 1024]);
    full.observe_slice(&[1]);
    let bytes = format!("{full:?}").matches("7,").count() + 1;
    println!("hash sha256 with 1,024 initial bytes: observe 1\n  after:  {bytes} bytes of input");
}

/// A hasher whose digests have no byte.
#[derive(Clone, Copy, Debug)]
struct Nothing;

impl CryptographicHasher<u8, [u8; 0]> for Nothing {
    fn hash_iter<I: IntoIterator<Item = u8>>(&self, _: I) -> [u8; 0] {
        []
    }
}

/// Limits that the Rust does not have, and the order of a multi-field challenger's questions.
fn limits() {
    let koala = MultiField32Challenger::<KoalaBear, BabyBear, Perm, 65, 8>::new(Perm::Mirror);
    println!(
        "multi koalabear babybear mirror 65 8: {:?}",
        koala.map(drop)
    );
    let bytes = MultiField32Challenger::<Bytes, Goldilocks, Perm, 65, 37>::new(Perm::Mirror);
    println!("multi bytes goldilocks mirror 65 37: {:?}", bytes.map(drop));
    let full = hash(&[7; 1021]);
    let found = full.find_witness(1, |c| (c as u32).to_le_bytes(), |_: [u8; 4]| true);
    println!("hash sha256 with 1,021 initial bytes: find 1 0\n  answer: {found:?}");
    let empty = HashChallenger::<u8, Nothing, 0>::new(Vec::new(), Nothing);
    tell("hash with digests of no byte: sample", empty, |c| {
        CanSample::<u8>::sample(c)
    });
    tell("serial babybear hash sha256 -: uniform 3", serial(), |c| {
        c.sample_uniform_bits::<false>(3)
    });
}

/// What is a reader here is a field there.
fn field_written() {
    tell(
        "duplex babybear mirror 3 2: a cell written",
        duplex(),
        |c| {
            c.sponge_state[0] = Code::from_u64(9);
        },
    );
}

/// Small orders only: the Rust tries all candidates.
fn no_witness() {
    let duplex = DuplexChallenger::<Bytes, Perm, 2, 1>::new(Perm::Mirror);
    tell("duplex bytes mirror 2 1: grind 1", duplex, |c| c.grind(1));
    let below = ByteDuplex::<2, 1>(DuplexChallenger::new(Perm::Mirror));
    let serial = SerializingChallenger32::<Bytes, _>::new(below);
    tell("serial bytes duplex mirror 2 1: grind 1", serial, |c| {
        c.grind(1)
    });
}

fn main() {
    // The panics are told here.
    panic::set_hook(Box::new(|_| {}));
    bits_too_many();
    bytes_observed();
    limits();
    field_written();
    no_witness();
}
