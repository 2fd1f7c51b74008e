//! In the place of p3-util: only what p3-challenger 0.8.0 uses.
#![no_std]

/// The least c with 2^c at least n.
pub const fn log2_ceil_u64(n: u64) -> u64 {
    let mut c = 0;
    while c < 64 && (1u128 << c) < n as u128 {
        c += 1;
    }
    c
}
