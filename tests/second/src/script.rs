//! The rehearsal program: its grammar, and what it prints.

use crate::model::{open, Desk, Instant, Refusal, Runner, LAST_INSTANT};
use std::io::{self, Write};

pub const INPUT_MOST: usize = 65_536;
const FEED_LINES_MOST: usize = 17;
const RUN_MOST: u32 = 4_096;
const DIGITS_MOST: usize = 13;

#[derive(Clone, Copy, Debug, PartialEq, Eq)]
pub enum Line {
    Feed(u32, u32, u32, u32),
    Go(u64, u32),
    Ask(u32, u32, u32),
    End(u32),
    Rest(u32),
    Run(u32),
}

/// What a line says, its newline taken off; nothing if it is bad in itself.
/// (Splitting at every single space makes two spaces an empty field, which is
/// neither a word nor a number.)
pub fn read_line(line: &[u8]) -> Option<Line> {
    let fields: Vec<&[u8]> = line.split(|&byte| byte == b' ').collect();
    match fields[..] {
        [b"feed", period, work, offset, lead] => Some(Line::Feed(
            number(period)?,
            number(work)?,
            number(offset)?,
            number(lead)?,
        )),
        [b"go", start, charge] => Some(Line::Go(digits(start)?, number(charge)?)),
        [b"ask", job, work, lead] => Some(Line::Ask(number(job)?, number(work)?, number(lead)?)),
        [b"end", job] => Some(Line::End(number(job)?)),
        [b"rest", position] => Some(Line::Rest(number(position)?)),
        [b"run", ticks] => number(ticks).filter(|&n| n <= RUN_MOST).map(Line::Run),
        _ => None,
    }
}

/// Decimal, 1 to 13 digits, no leading zero but 0 itself.
fn digits(field: &[u8]) -> Option<u64> {
    if field.is_empty() || field.len() > DIGITS_MOST {
        return None;
    }
    if field[0] == b'0' && field.len() > 1 {
        return None;
    }
    field.iter().try_fold(0, |value, byte| {
        byte.is_ascii_digit()
            .then(|| 10 * value + u64::from(byte - b'0'))
    })
}

/// Any number but the opening instant.
fn number(field: &[u8]) -> Option<u32> {
    u32::try_from(digits(field)?).ok()
}

/// Where the program stands between two lines.
pub enum Stage {
    /// Before `go`: the feed lines so far, four numbers each.
    Gathering(Vec<u32>),
    Open(Desk),
    /// After a refused `go`.
    Stopped,
}

pub fn beginning() -> Stage {
    Stage::Gathering(Vec::new())
}

/// Prints exactly what `rehearse` prints for this input.
pub fn rehearse(input: &[u8], out: &mut impl Write) -> io::Result<()> {
    if input.len() > INPUT_MOST {
        return writeln!(out, "too long");
    }
    let mut stage = beginning();
    for (k, line) in (1..).zip(input.split_inclusive(|&byte| byte == b'\n')) {
        let said = line.strip_suffix(b"\n").and_then(read_line);
        let next = match said.and_then(|said| allowed(stage, said)) {
            Some(next) => next,
            None => return writeln!(out, "line {k} bad"),
        };
        stage = follow(next.0, next.1, out)?;
        if let Stage::Stopped = stage {
            break;
        }
    }
    Ok(())
}

/// Whom the ticks of a script went to, from the instant at which it opened: up to its end,
/// or its bad line. Nothing where it never opened.
pub fn ticks(input: &[u8]) -> Option<(Instant, Vec<Runner>)> {
    let mut stage = beginning();
    let mut start = None;
    let mut names = Vec::new();
    for line in input.split_inclusive(|&byte| byte == b'\n') {
        let said = line.strip_suffix(b"\n").and_then(read_line);
        let (before, line) = match said.and_then(|said| allowed(stage, said)) {
            Some(next) => next,
            None => break,
        };
        if let (Stage::Open(desk), Line::Run(ticks)) = (&before, line) {
            let mut desk = desk.clone();
            let left = LAST_INSTANT - desk.clock;
            names.extend((0..left.min(ticks.into())).map(|_| desk.tick().runner));
        }
        stage = follow(before, line, &mut io::sink()).expect("writing to nowhere");
        match &stage {
            Stage::Open(desk) => start = start.or(Some(desk.clock)),
            Stage::Stopped => break,
            Stage::Gathering(_) => (),
        }
    }
    start.map(|start| (start, names))
}

/// Feeds and one go before anything else, and not after; at most 17 feeds.
fn allowed(stage: Stage, line: Line) -> Option<(Stage, Line)> {
    let fine = match (&stage, line) {
        (Stage::Gathering(list), Line::Feed(..)) => list.len() < 4 * FEED_LINES_MOST,
        (Stage::Gathering(_), Line::Go(..)) => true,
        (Stage::Gathering(_), _) => false,
        (Stage::Open(_), Line::Feed(..) | Line::Go(..)) => false,
        (Stage::Open(_), _) => true,
        (Stage::Stopped, _) => false,
    };
    fine.then_some((stage, line))
}

/// Does what an allowed line says and prints what it answers.
pub fn follow(stage: Stage, line: Line, out: &mut impl Write) -> io::Result<Stage> {
    match (stage, line) {
        (Stage::Gathering(mut list), Line::Feed(period, work, offset, lead)) => {
            list.extend([period, work, offset, lead]);
            Ok(Stage::Gathering(list))
        }
        (Stage::Gathering(list), Line::Go(start, charge)) => go(&list, start, charge, out),
        (Stage::Open(desk), line) => {
            let desk = call(desk, line, out)?;
            debug_assert!(desk.in_order());
            Ok(Stage::Open(desk))
        }
        (stage, _) => Ok(stage),
    }
}

fn go(list: &[u32], start: u64, charge: u32, out: &mut impl Write) -> io::Result<Stage> {
    match open(list, start, charge) {
        Ok(desk) => {
            writeln!(out, "go ok")?;
            Ok(Stage::Open(desk))
        }
        Err(refusal) => {
            writeln!(out, "go no {refusal}")?;
            Ok(Stage::Stopped)
        }
    }
}

fn call(desk: Desk, line: Line, out: &mut impl Write) -> io::Result<Desk> {
    match line {
        Line::Ask(number, work, lead) => {
            let answer = desk.ask(number, work, lead);
            say(out, &format!("ask {number}"), "yes", desk, answer)
        }
        Line::End(number) => {
            let answer = desk.end(number);
            say(out, "end", "ok", desk, answer)
        }
        Line::Rest(position) => {
            let answer = desk.rest(position);
            say(out, "rest", "ok", desk, answer)
        }
        Line::Run(ticks) => run(desk, ticks, out),
        Line::Feed(..) | Line::Go(..) => Ok(desk),
    }
}

/// The word, then the yes or `no` and the number; a refusal leaves the state.
fn say(
    out: &mut impl Write,
    word: &str,
    yes: &str,
    before: Desk,
    answer: Result<Desk, Refusal>,
) -> io::Result<Desk> {
    match answer {
        Ok(after) => {
            writeln!(out, "{word} {yes}")?;
            Ok(after)
        }
        Err(refusal) => {
            writeln!(out, "{word} no {refusal}")?;
            Ok(before)
        }
    }
}

fn run(mut desk: Desk, ticks: u32, out: &mut impl Write) -> io::Result<Desk> {
    for _ in 0..ticks {
        if desk.clock == LAST_INSTANT {
            writeln!(out, "run no 3")?;
            break;
        }
        let instant = desk.clock;
        match desk.tick().runner {
            Runner::Idle => writeln!(out, "{instant} idle")?,
            Runner::Job(number) => writeln!(out, "{instant} job {number}")?,
            Runner::Feed(position) => writeln!(out, "{instant} feed {position}")?,
        }
    }
    Ok(desk)
}
