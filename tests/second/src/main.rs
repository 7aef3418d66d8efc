//! The second program: the desk again, from the document alone and by another
//! method, to be compared with the real one.

// Without the library nothing calls what only `second calls` uses (the tests do).
#![cfg_attr(not(feature = "calls"), allow(dead_code))]

mod ahead;
mod boundary;
mod calls;
mod compare;
mod invent;
mod judge;
mod mesh;
mod model;
mod own;
mod parts;
mod random;
mod reason;
mod script;
#[cfg(test)]
mod tests;
mod texts;
mod wave;
mod workers;

use std::io::{self, Read, Write};
use std::process::ExitCode;

const USAGE: &str = "usage:
  second rehearse                     a script on standard input, answered
  second wave                         a script on standard input, its ticks as a waveform
  second wave-read                    a waveform on standard input, read back
  second gen SEED COUNT DIR           random scripts, and answers, as files in DIR
  second scripts PROGRAM SEED COUNT   random scripts beside the real program
  second flood PROGRAM                65,536 bytes of the longest runs beside it
  second waves PROGRAM SEED COUNT     random scripts beside the real writer of waveforms
  second dumps PROGRAM SEED COUNT     random texts beside the real reader of waveforms
  second calls SEED COUNT             random calls beside the C library (feature calls)";

fn main() -> ExitCode {
    let words: Vec<String> = std::env::args().skip(1).collect();
    let words: Vec<&str> = words.iter().map(String::as_str).collect();
    let done = match words[..] {
        ["rehearse"] => rehearse().map(|()| true),
        ["wave"] => answer(script::INPUT_MOST, wave::of_script).map(|()| true),
        ["wave-read"] => answer(judge::TEXT_MOST, judge::told).map(|()| true),
        ["gen", seed, count, dir] => numbers(seed, count)
            .and_then(|(seed, count)| compare::write_scripts(seed, count, dir).map(|()| true)),
        ["scripts", program, seed, count] => {
            numbers(seed, count).and_then(|(seed, count)| compare::scripts(program, seed, count))
        }
        ["flood", program] => compare::flood(program),
        ["waves", program, seed, count] => {
            numbers(seed, count).and_then(|(seed, count)| compare::waves(program, seed, count))
        }
        ["dumps", program, seed, count] => {
            numbers(seed, count).and_then(|(seed, count)| compare::dumps(program, seed, count))
        }
        ["calls", seed, count] => {
            numbers(seed, count).and_then(|(seed, count)| calls::linked(seed, count))
        }
        _ => Err(fault(USAGE)),
    };
    match done {
        Ok(true) => ExitCode::SUCCESS,
        Ok(false) => ExitCode::from(1),
        Err(error) => {
            eprintln!("{error}");
            ExitCode::from(2)
        }
    }
}

/// Old compilers too have this.
fn fault(why: impl Into<Box<dyn std::error::Error + Send + Sync>>) -> io::Error {
    io::Error::new(io::ErrorKind::Other, why)
}

fn numbers(seed: &str, count: &str) -> io::Result<(u64, u64)> {
    match (seed.parse(), count.parse()) {
        (Ok(seed), Ok(count)) => Ok((seed, count)),
        _ => Err(fault(USAGE)),
    }
}

/// Standard input; one byte more than allowed is enough to see that there are too many.
fn input(most: usize) -> io::Result<Vec<u8>> {
    let mut input = Vec::new();
    io::stdin().take(most as u64 + 1).read_to_end(&mut input)?;
    Ok(input)
}

fn answer(most: usize, program: fn(&[u8]) -> Vec<u8>) -> io::Result<()> {
    io::stdout().write_all(&program(&input(most)?))
}

fn rehearse() -> io::Result<()> {
    let input = input(script::INPUT_MOST)?;
    let mut out = io::BufWriter::new(io::stdout().lock());
    script::rehearse(&input, &mut out)?;
    out.flush()
}
