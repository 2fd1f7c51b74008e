//! Making. What is put together is made from below: permutation, transcript, challenger.

use driver::{Perm, Sha3, Sha256};
use p3_challenger::HashChallenger;
use p3_field::{BABY_BEAR, BYTES, GOLDILOCKS, KOALA_BEAR};

use crate::answer::ask;
use crate::challenger::Challenger;
use crate::duplex::MakeDuplex;
use crate::hash::Hashing;
use crate::multi;
use crate::read::{Hasher, Make, PermName, Shape};
use crate::serial::{self, MakeSerial};
use crate::table::with_pair;

type Made = Result<Box<dyn Challenger>, String>;

/// Question 14.
fn permutation(name: PermName) -> Result<Perm, String> {
    match name {
        PermName::Mirror => Ok(Perm::Mirror),
        PermName::Ladder(rounds) => {
            ask((1..=16).contains(&rounds), 14)?;
            Ok(Perm::Ladder(rounds))
        }
    }
}

/// Questions 14 and 10.
fn sponge(shape: &Shape) -> Result<Perm, String> {
    let perm = permutation(shape.perm)?;
    let fits = shape.rate >= 1 && shape.rate < shape.width && shape.width <= 64;
    ask(fits, 10)?;
    Ok(perm)
}

/// Question 15.
fn initial(bytes: &[u8]) -> Result<Vec<u8>, String> {
    ask(bytes.len() <= 1024, 15)?;
    Ok(bytes.to_vec())
}

fn duplex(order: u64, shape: &Shape) -> Made {
    let perm = sponge(shape)?;
    let (w, r) = (shape.width, shape.rate);
    match order {
        BYTES => with_pair(w, r, MakeDuplex::<BYTES>(perm)),
        BABY_BEAR => with_pair(w, r, MakeDuplex::<BABY_BEAR>(perm)),
        KOALA_BEAR => with_pair(w, r, MakeDuplex::<KOALA_BEAR>(perm)),
        _ => with_pair(w, r, MakeDuplex::<GOLDILOCKS>(perm)),
    }
}

fn hash(hasher: Hasher, bytes: &[u8]) -> Made {
    let initial = initial(bytes)?;
    Ok(match hasher {
        Hasher::Sha256 => Box::new(Hashing(HashChallenger::new(initial, Sha256))),
        Hasher::Sha3 => Box::new(Hashing(HashChallenger::new(initial, Sha3))),
    })
}

fn serial_duplex(order: u64, shape: &Shape) -> Made {
    let perm = sponge(shape)?;
    ask(order <= 1 << 32, 11)?;
    let (w, r) = (shape.width, shape.rate);
    match order {
        BYTES => with_pair(w, r, MakeSerial::<BYTES>(perm)),
        BABY_BEAR => with_pair(w, r, MakeSerial::<BABY_BEAR>(perm)),
        _ => with_pair(w, r, MakeSerial::<KOALA_BEAR>(perm)),
    }
}

fn serial_hash(order: u64, hasher: Hasher, bytes: &[u8]) -> Made {
    let initial = initial(bytes)?;
    ask(order <= 1 << 32, 11)?;
    Ok(serial::over_hash(order, hasher, initial))
}

pub fn make(asked: &Make) -> Made {
    match asked {
        Make::Duplex(order, shape) => duplex(*order, shape),
        Make::Multi(sampled, order, shape) => {
            let perm = sponge(shape)?;
            multi::make(*sampled, *order, perm, shape.width, shape.rate)
        }
        Make::Hash(hasher, bytes) => hash(*hasher, bytes),
        Make::SerialDuplex(order, shape) => serial_duplex(*order, shape),
        Make::SerialHash(order, hasher, bytes) => serial_hash(*order, *hasher, bytes),
    }
}
