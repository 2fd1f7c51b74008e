//! The words of an answer.

use std::fmt::{Debug, Display, Write};

/// `Ok` has what follows the word ok, `Err` another answer in full.
pub type Answer = Result<String, String>;

pub fn spoken(answer: Answer) -> String {
    match answer {
        Ok(text) if text.is_empty() => "ok".into(),
        Ok(text) => format!("ok {text}"),
        Err(text) => text,
    }
}

/// Refuses by this number, unless the question is answered yes.
pub fn ask(yes: bool, number: u64) -> Result<(), String> {
    if yes {
        Ok(())
    } else {
        Err(format!("no {number}"))
    }
}

/// Question 20.
pub fn ask_bits(bits: u64, order: u64) -> Result<(), String> {
    ask(bits < 64 && (1u64 << bits) < order, 20)
}

/// Question 21.
pub fn ask_limit(limit: u64) -> Result<(), String> {
    ask((1..=65535).contains(&limit), 21)
}

/// Question 23.
pub fn ask_codes(values: &[u64], order: u64) -> Result<(), String> {
    ask(values.iter().all(|&v| v < order), 23)
}

/// Question 24.
pub fn ask_room(bytes: usize, room: u64) -> Result<(), String> {
    ask(bytes as u64 <= room, 24)
}

/// Where bytes are taken, a number above 255 is none. The script decides this, and no rule.
pub fn bytes_of(values: &[u64]) -> Result<Vec<u8>, String> {
    let bytes = values.iter().map(|&v| u8::try_from(v));
    bytes
        .collect::<Result<_, _>>()
        .map_err(|_| "not-bytes".into())
}

pub fn no_call() -> Answer {
    Err("no-call".into())
}

/// A sample with a draw limit where none is taken, or without one where it is.
pub fn other_sample() -> Answer {
    Err("bad-line".into())
}

pub fn numbers<T: Display>(values: &[T], between: &str) -> String {
    let texts: Vec<String> = values.iter().map(T::to_string).collect();
    texts.join(between)
}

pub fn hex(bytes: &[u8]) -> String {
    let mut text = String::new();
    for byte in bytes {
        write!(text, "{byte:02x}").expect("a String takes all");
    }
    text
}

fn or_dash(text: String) -> String {
    if text.is_empty() { "-".into() } else { text }
}

pub fn listed<T: Display>(values: &[T]) -> String {
    or_dash(numbers(values, ","))
}

pub fn listed_hex(bytes: &[u8]) -> String {
    or_dash(hex(bytes))
}

pub fn debug<T: Debug>(value: &T) -> String {
    format!("{value:?}")
}

/// The list that a derived Debug shows under a name. Fields that are not public are read in this way.
pub fn shown<T: std::str::FromStr>(debug: &str, name: &str) -> Vec<T> {
    let front = format!("{name}: [");
    let start = debug.find(&front).expect("the list is shown") + front.len();
    let end = start + debug[start..].find(']').expect("the list ends");
    let items = debug[start..end]
        .split(", ")
        .filter(|text| !text.is_empty());
    items
        .map(|text| text.parse().ok().expect("a number"))
        .collect()
}

pub fn held_sponge(debug: &str) -> String {
    format!(
        "held row={} pending={} outputs={}",
        listed(&shown::<u64>(debug, "sponge_state")),
        listed(&shown::<u64>(debug, "input_buffer")),
        listed(&shown::<u64>(debug, "output_buffer"))
    )
}

pub fn held_hash(debug: &str) -> String {
    format!(
        "held input={} outputs={}",
        listed_hex(&shown(debug, "input_buffer")),
        listed_hex(&shown(debug, "output_buffer"))
    )
}
