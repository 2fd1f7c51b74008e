//! SHA3-256, as in FIPS 202.

const RC: [u64; 24] = [
    0x0000000000000001,
    0x0000000000008082,
    0x800000000000808a,
    0x8000000080008000,
    0x000000000000808b,
    0x0000000080000001,
    0x8000000080008081,
    0x8000000000008009,
    0x000000000000008a,
    0x0000000000000088,
    0x0000000080008009,
    0x000000008000000a,
    0x000000008000808b,
    0x800000000000008b,
    0x8000000000008089,
    0x8000000000008003,
    0x8000000000008002,
    0x8000000000000080,
    0x000000000000800a,
    0x800000008000000a,
    0x8000000080008081,
    0x8000000000008080,
    0x0000000080000001,
    0x8000000080008008,
];
/// The lanes in the order in which rho and pi move them, from lane 1: where each goes, and its rotation.
const PI: [usize; 24] = [
    10, 7, 11, 17, 18, 3, 5, 16, 8, 21, 24, 4, 15, 23, 19, 13, 12, 2, 20, 14, 22, 9, 6, 1,
];
const RHO: [u32; 24] = [
    1, 3, 6, 10, 15, 21, 28, 36, 45, 55, 2, 14, 27, 41, 56, 8, 25, 43, 62, 18, 39, 61, 20, 44,
];

fn keccak_f(a: &mut [u64; 25]) {
    for rc in RC {
        let mut c = [0u64; 5];
        for x in 0..5 {
            c[x] = a[x] ^ a[x + 5] ^ a[x + 10] ^ a[x + 15] ^ a[x + 20];
        }
        for x in 0..5 {
            let d = c[(x + 4) % 5] ^ c[(x + 1) % 5].rotate_left(1);
            for y in 0..5 {
                a[x + 5 * y] ^= d;
            }
        }
        let mut moved = a[1];
        for t in 0..24 {
            let kept = a[PI[t]];
            a[PI[t]] = moved.rotate_left(RHO[t]);
            moved = kept;
        }
        for y in 0..5 {
            let row: [u64; 5] = a[5 * y..5 * y + 5].try_into().unwrap();
            for x in 0..5 {
                a[5 * y + x] = row[x] ^ (!row[(x + 1) % 5] & row[(x + 2) % 5]);
            }
        }
        a[0] ^= rc;
    }
}

fn sha3_block(a: &mut [u64; 25], block: &[u8]) {
    for (lane, bytes) in a.iter_mut().zip(block.chunks_exact(8)) {
        *lane ^= u64::from_le_bytes(bytes.try_into().unwrap());
    }
    keccak_f(a);
}

pub fn sha3_256(message: &[u8]) -> [u8; 32] {
    let mut a = [0u64; 25];
    let mut blocks = message.chunks_exact(136);
    for block in &mut blocks {
        sha3_block(&mut a, block);
    }
    let rest = blocks.remainder();
    let mut tail = [0u8; 136];
    tail[..rest.len()].copy_from_slice(rest);
    tail[rest.len()] = 0x06;
    tail[135] |= 0x80;
    sha3_block(&mut a, &tail);
    let mut digest = [0; 32];
    for (out, v) in digest.chunks_exact_mut(8).zip(a) {
        out.copy_from_slice(&v.to_le_bytes());
    }
    digest
}
