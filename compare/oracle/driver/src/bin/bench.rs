//! Times calls of the published challengers, one thread: README.md has the inputs of each row.
//!
//!     bench              every row: how many calls, nanoseconds a call, a checksum
//!     bench ROW TURNS    plays one row so many times and prints its checksum, to be timed from outside

use std::env;
use std::hint::black_box;
use std::time::Instant;

use driver::{ByteDuplex, Perm, Sha256};
use p3_challenger::{
    ByteGrindingChallenger, CanFinalizeDigest, CanObserve, CanSample, DuplexChallenger,
    GrindingChallenger, HashChallenger, MultiField32Challenger, SerializingChallenger32,
};
use p3_field::{BabyBear, Code, Goldilocks, PrimeCharacteristicRing};

const PERM: Perm = Perm::Ladder(8);
const CODES: u64 = 100_000;
const GRINDS: u64 = 4;
const VAIN: u64 = 20_000;
const ENDS: u64 = 10_000;

/// The input number i.
fn value(i: u64) -> BabyBear {
    Code::from_u64((i + 1).wrapping_mul(11400714819323198485))
}

fn values(from: u64, count: u64) -> Vec<BabyBear> {
    (from..from + count).map(value).collect()
}

/// What a row did: its calls and its checksum.
struct Done {
    calls: u64,
    checksum: u64,
}

fn done(calls: u64, checksum: u64) -> Done {
    Done { calls, checksum }
}

fn sample_one<C: CanSample<BabyBear>>(c: &mut C) -> u64 {
    c.sample().get()
}

/// One slice, and then a sample for the checksum.
fn observe<C: CanObserve<BabyBear> + CanSample<BabyBear>>(mut c: C) -> Done {
    c.observe_slice(&values(0, CODES));
    done(CODES, sample_one(&mut c))
}

/// Slices of 248 codes, which fit in the room left, and after each a sample, which makes room again.
fn observe_in_room<C: CanObserve<BabyBear> + CanSample<BabyBear>>(mut c: C) -> Done {
    let slice = values(0, 248);
    let mut checksum = 0;
    for _ in 0..400 {
        c.observe_slice(&slice);
        checksum ^= sample_one(&mut c);
    }
    done(400 * 248, checksum)
}

fn sample<C: CanObserve<BabyBear> + CanSample<BabyBear>>(mut c: C) -> Done {
    c.observe_slice(&values(0, 5));
    let checksum = (0..CODES).fold(0, |sum, _| sum ^ sample_one(&mut c));
    done(CODES, checksum)
}

/// Each transcript observes 64 codes, then grinds; a call is a candidate tried.
fn grind<C: GrindingChallenger<Witness = BabyBear>>(fresh: impl Fn() -> C, bits: usize) -> Done {
    let mut tried = 0;
    for t in 0..GRINDS {
        let mut c = fresh();
        c.observe_slice(&values(64 * t, 64));
        tried += c.grind(bits).get() + 1;
    }
    done(tried, tried)
}

/// As `grind`, but with candidates that all fail: a Ladder of bytes reaches few words, and the Rust's grind has no
/// budget. Observing 64 codes, dropping a byte and searching is what the Rust's grind does.
fn search_in_vain() -> Done {
    const MASK: u32 = (1 << 12) - 1;
    for t in 0..GRINDS {
        let mut c = ByteDuplex::<32, 16>(DuplexChallenger::new(PERM));
        for code in values(64 * t, 64) {
            c.observe_slice(&(code.get() as u32).to_le_bytes());
        }
        let _: u8 = c.sample();
        let found = c.find_witness::<4, 4>(
            VAIN,
            |i| (i as u32).to_le_bytes(),
            |bytes| u32::from_le_bytes(bytes) & MASK == 0,
        );
        assert_eq!(found, None);
    }
    done(GRINDS * VAIN, GRINDS * VAIN)
}

/// Copies of one transcript with 5 codes; each observes one code more and ends.
fn finalize<C: CanObserve<BabyBear> + CanFinalizeDigest + Clone>(
    mut c: C,
    first: fn(C::Digest) -> u64,
) -> Done {
    c.observe_slice(&values(0, 5));
    let mut checksum = 0;
    for t in 0..ENDS {
        let mut copy = c.clone();
        copy.observe(value(t));
        checksum ^= first(copy.finalize());
    }
    done(ENDS, checksum)
}

fn duplex() -> DuplexChallenger<BabyBear, Perm, 16, 8> {
    DuplexChallenger::new(PERM)
}

fn multi() -> MultiField32Challenger<BabyBear, Goldilocks, Perm, 16, 8> {
    MultiField32Challenger::new(PERM).expect("the orders and the batch are fit")
}

fn over_sha256() -> SerializingChallenger32<BabyBear, HashChallenger<u8, Sha256, 32>> {
    SerializingChallenger32::new(HashChallenger::new(vec![], Sha256))
}

fn over_duplex() -> SerializingChallenger32<BabyBear, ByteDuplex<32, 16>> {
    SerializingChallenger32::new(ByteDuplex(DuplexChallenger::new(PERM)))
}

type Row = (&'static str, fn() -> Done);

const ROWS: [Row; 16] = [
    ("duplex-observe", || observe(duplex())),
    ("duplex-sample", || sample(duplex())),
    ("duplex-grind", || grind(duplex, 16)),
    ("duplex-finalize", || finalize(duplex(), |d| d[0].get())),
    ("multi-observe", || observe(multi())),
    ("multi-sample", || sample(multi())),
    ("multi-grind", || grind(multi, 16)),
    ("multi-finalize", || finalize(multi(), |d| d[0].get())),
    ("sha256-observe", || observe_in_room(over_sha256())),
    ("sha256-sample", || sample(over_sha256())),
    ("sha256-grind", || grind(over_sha256, 16)),
    ("sha256-finalize", || {
        finalize(over_sha256(), |d| d[0].into())
    }),
    ("bytes-observe", || observe(over_duplex())),
    ("bytes-sample", || sample(over_duplex())),
    ("bytes-grind", search_in_vain),
    ("bytes-finalize", || finalize(over_duplex(), |d| d[0].get())),
];

/// The row's outcome, and the seconds of the fastest of five turns.
fn timed(run: fn() -> Done) -> (Done, f64) {
    let mut fastest = f64::MAX;
    let mut last = done(0, 0);
    for _ in 0..5 {
        let start = Instant::now();
        last = black_box(run());
        fastest = fastest.min(start.elapsed().as_secs_f64());
    }
    (last, fastest)
}

fn print_all() {
    println!(
        "{:16} {:>8} {:>12} {:>22}",
        "row", "calls", "ns a call", "checksum"
    );
    for (name, run) in ROWS {
        let (Done { calls, checksum }, seconds) = timed(run);
        println!(
            "{name:16} {calls:8} {:12.1} {checksum:22}",
            seconds * 1e9 / calls as f64
        );
    }
}

fn main() {
    let words: Vec<String> = env::args().skip(1).collect();
    let [name, turns] = words.as_slice() else {
        return print_all();
    };
    let (_, run) = ROWS
        .iter()
        .find(|row| row.0 == name)
        .expect("a row of the table");
    let turns: u64 = turns.parse().expect("a number of turns");
    let checksum = (0..turns).fold(0, |_, _| black_box(run()).checksum);
    println!("{checksum}");
}
