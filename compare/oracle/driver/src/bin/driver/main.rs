//! Plays a script from standard input on the published challengers, and prints one answer for each call.
//! `driver pairs` prints the WIDTH and RATE pairs that it was compiled for.
//!
//! The questions are put here, before the Rust is called. Draw limits, budgets, least witnesses and trials are worked
//! out on copies; then the call is made on the Rust challenger itself, whose answer and held value must be the same.

mod answer;
mod challenger;
mod duplex;
mod hash;
mod make;
mod multi;
mod read;
mod serial;
mod table;
mod transcript;

use std::io::{self, BufRead, Write};
use std::panic::{AssertUnwindSafe, catch_unwind};

use answer::{Answer, hex, spoken};
use challenger::Challenger;
use read::{Hasher, Line, read};

type Held = Option<Box<dyn Challenger>>;

fn hash_of(hasher: Hasher, bytes: &[u8]) -> Answer {
    let digest = match hasher {
        Hasher::Sha256 => driver::sha256(bytes),
        Hasher::Sha3 => driver::sha3_256(bytes),
    };
    Ok(hex(&digest))
}

/// Answers a line that asks a challenger.
fn call(c: &mut dyn Challenger, line: &Line) -> String {
    spoken(match line {
        Line::Observe(values) => c.observe(values),
        Line::Digest(values) => c.digest(values),
        Line::Digest64(values) => c.digest64(values),
        Line::Sample(None) => c.sample(),
        Line::Sample(Some(limit)) => c.sample_within(*limit),
        Line::Bits(bits) => c.bits(*bits),
        Line::Uniform(bits, limit) => c.uniform(*bits, *limit),
        Line::Check(bits, witness) => c.check(*bits, *witness),
        Line::Grind(bits, budget) => c.grind(*bits, *budget),
        Line::Find(count, mask) => c.find(*count, *mask),
        _ => return c.held(),
    })
}

/// Makes a challenger; the one before it is gone, whatever comes of it.
fn make(held: &mut Held, asked: &read::Make) -> String {
    *held = None;
    match make::make(asked) {
        Ok(challenger) => {
            *held = Some(challenger);
            spoken(Ok(String::new()))
        }
        Err(refusal) => refusal,
    }
}

/// The answer to a line, unless it asks nothing.
fn play(held: &mut Held, text: &str) -> Option<String> {
    let line = match read(text) {
        Ok(line) => line,
        Err(fault) => {
            if fault.makes {
                *held = None;
            }
            return Some("bad-line".into());
        }
    };
    Some(match line {
        Line::Blank => return None,
        Line::Make(asked) => make(held, &asked),
        Line::HashOf(hasher, bytes) => spoken(hash_of(hasher, &bytes)),
        Line::Helpers(sampled, sponge) => spoken(multi::helpers(sampled, sponge)),
        Line::Finalize => match held.take() {
            Some(challenger) => spoken(challenger.finalize()),
            None => "no-challenger".into(),
        },
        line => match held {
            Some(challenger) => call(challenger.as_mut(), &line),
            None => "no-challenger".into(),
        },
    })
}

/// The answer; where the Rust or a check of it stops, `stopped`, and the challenger is gone.
fn play_safely(held: &mut Held, text: &str) -> Option<String> {
    let played = catch_unwind(AssertUnwindSafe(|| play(held, text)));
    played.unwrap_or_else(|_| {
        *held = None;
        Some("stopped".into())
    })
}

/// Plays the lines. Each answer is written at once, so that a script can depend on the answers before.
fn play_all(mut input: impl BufRead, mut output: impl Write) -> io::Result<()> {
    let mut held = None;
    let mut line = String::new();
    while input.read_line(&mut line)? > 0 {
        let text = line.strip_suffix('\n').unwrap_or(&line);
        if let Some(answer) = play_safely(&mut held, text) {
            writeln!(output, "{answer}")?;
            output.flush()?;
        }
        line.clear();
    }
    Ok(())
}

fn main() -> io::Result<()> {
    if std::env::args().nth(1).as_deref() == Some("pairs") {
        for (width, rate) in table::PAIRS {
            println!("{width} {rate}");
        }
        return Ok(());
    }
    play_all(io::stdin().lock(), io::BufWriter::new(io::stdout().lock()))
}
