//! The lines of a script.

use p3_field::{BABY_BEAR, BYTES, GOLDILOCKS, KOALA_BEAR};

#[derive(Clone, Copy)]
pub enum Hasher {
    Sha256,
    Sha3,
}

/// A permutation as a line names it; the number of rounds may be refused.
#[derive(Clone, Copy)]
pub enum PermName {
    Mirror,
    Ladder(u64),
}

#[derive(Clone, Copy)]
pub struct Shape {
    pub perm: PermName,
    pub width: u64,
    pub rate: u64,
}

/// Domains are given by their orders.
pub enum Make {
    Duplex(u64, Shape),
    /// The sampled and the sponge domain.
    Multi(u64, u64, Shape),
    Hash(Hasher, Vec<u8>),
    SerialDuplex(u64, Shape),
    SerialHash(u64, Hasher, Vec<u8>),
}

pub enum Line {
    Blank,
    Make(Make),
    Observe(Vec<u64>),
    Digest(Vec<u64>),
    Digest64(Vec<u64>),
    Sample(Option<u64>),
    Bits(u64),
    Uniform(u64, u64),
    Check(u64, u64),
    Grind(u64, u64),
    Find(u64, u64),
    Held,
    Finalize,
    HashOf(Hasher, Vec<u8>),
    Helpers(u64, u64),
}

/// A line that cannot be read.
pub struct Fault {
    /// Whether its first word is make.
    pub makes: bool,
}

fn domain(word: &str) -> Option<u64> {
    match word {
        "bytes" => Some(BYTES),
        "babybear" => Some(BABY_BEAR),
        "koalabear" => Some(KOALA_BEAR),
        "goldilocks" => Some(GOLDILOCKS),
        _ => None,
    }
}

fn hasher(word: &str) -> Option<Hasher> {
    match word {
        "sha256" => Some(Hasher::Sha256),
        "sha3-256" => Some(Hasher::Sha3),
        _ => None,
    }
}

/// Digits, one or more, of a number below 2^64.
fn number(word: &str) -> Option<u64> {
    let digits = !word.is_empty() && word.bytes().all(|b| b.is_ascii_digit());
    if digits { word.parse().ok() } else { None }
}

fn all_numbers(words: &[&str]) -> Option<Vec<u64>> {
    words.iter().map(|word| number(word)).collect()
}

/// Two hex digits for each byte; a dash writes none.
fn bytes(word: &str) -> Option<Vec<u8>> {
    if word == "-" {
        return Some(vec![]);
    }
    let digits = word.bytes().all(|b| b.is_ascii_hexdigit());
    if word.is_empty() || word.len() % 2 == 1 || !digits {
        return None;
    }
    let pairs = (0..word.len()).step_by(2).map(|i| &word[i..i + 2]);
    pairs
        .map(|pair| u8::from_str_radix(pair, 16).ok())
        .collect()
}

fn permutation(word: &str) -> Option<PermName> {
    if word == "mirror" {
        return Some(PermName::Mirror);
    }
    number(word.strip_prefix("ladder:")?).map(PermName::Ladder)
}

fn shape(words: [&str; 3]) -> Option<Shape> {
    let [perm, width, rate] = words;
    Some(Shape {
        perm: permutation(perm)?,
        width: number(width)?,
        rate: number(rate)?,
    })
}

fn make(words: &[&str]) -> Option<Make> {
    Some(match *words {
        ["duplex", d, p, w, r] => Make::Duplex(domain(d)?, shape([p, w, r])?),
        ["multi", d, s, p, w, r] => Make::Multi(domain(d)?, domain(s)?, shape([p, w, r])?),
        ["hash", h, text] => Make::Hash(hasher(h)?, bytes(text)?),
        ["serial", d, "duplex", p, w, r] => Make::SerialDuplex(domain(d)?, shape([p, w, r])?),
        ["serial", d, "hash", h, text] => Make::SerialHash(domain(d)?, hasher(h)?, bytes(text)?),
        _ => return None,
    })
}

/// A line whose other words are numbers.
fn call(name: &str, words: &[&str]) -> Option<Line> {
    let given = all_numbers(words)?;
    Some(match (name, given.as_slice()) {
        ("observe", _) => Line::Observe(given),
        ("digest", _) => Line::Digest(given),
        ("digest64", _) => Line::Digest64(given),
        ("sample", []) => Line::Sample(None),
        ("sample", &[limit]) => Line::Sample(Some(limit)),
        ("bits", &[bits]) => Line::Bits(bits),
        ("uniform", &[bits, limit]) => Line::Uniform(bits, limit),
        ("check", &[bits, witness]) => Line::Check(bits, witness),
        ("grind", &[bits, budget]) => Line::Grind(bits, budget),
        ("find", &[count, mask]) => Line::Find(count, mask),
        ("held", []) => Line::Held,
        ("finalize", []) => Line::Finalize,
        _ => return None,
    })
}

fn read_words(words: &[&str]) -> Option<Line> {
    match *words {
        ["make", ..] => make(&words[1..]).map(Line::Make),
        ["hashof", h, text] => Some(Line::HashOf(hasher(h)?, bytes(text)?)),
        ["helpers", d, s] => Some(Line::Helpers(domain(d)?, domain(s)?)),
        _ => call(words[0], &words[1..]),
    }
}

/// Reads a line, given without its line end.
pub fn read(text: &str) -> Result<Line, Fault> {
    if text.is_empty() || text.starts_with('#') {
        return Ok(Line::Blank);
    }
    let words: Vec<&str> = text.split(' ').collect();
    read_words(&words).ok_or(Fault {
        makes: words[0] == "make",
    })
}
