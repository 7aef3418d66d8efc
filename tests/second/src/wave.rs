//! A run of steps as a waveform: the text of a run, tick after tick, and the run that a
//! script makes.

use crate::model::{Instant, Runner};
use crate::script;

/// The lines in front of every run.
pub const HEADS: [&str; 6] = [
    "$timescale 1 ms $end",
    "$scope module desk $end",
    "$var wire 32 ! job $end",
    "$var wire 5 \" feed $end",
    "$upscope $end",
    "$enddefinitions $end",
];

/// The longest line, its newline too: a value of 32 binary digits.
pub const LINE_MOST: usize = 36;

#[derive(Clone, Copy, Debug, PartialEq, Eq)]
pub enum Line {
    /// One of those in front, by its place among them.
    Head(usize),
    Mark(Instant),
    Job(u32),
    Feed(u32),
}

impl Line {
    pub fn written(self) -> Vec<u8> {
        let line = match self {
            Line::Head(place) => format!("{}\n", HEADS[place]),
            Line::Mark(instant) => format!("#{instant}\n"),
            Line::Job(number) => format!("b{number:b} !\n"),
            Line::Feed(position) => format!("b{position:b} \"\n"),
        };
        line.into_bytes()
    }
}

/// The values of the two wires in a tick.
#[derive(Clone, Copy, Debug, Default, PartialEq, Eq)]
pub struct Wires {
    pub job: u32,
    pub feed: u32,
}

pub fn wires(runner: Runner) -> Wires {
    match runner {
        Runner::Idle => Wires { job: 0, feed: 0 },
        Runner::Job(job) => Wires { job, feed: 0 },
        Runner::Feed(feed) => Wires { job: 0, feed },
    }
}

/// THE TEXT of a run from this instant on, the ticks of which went to these.
pub fn text(start: Instant, names: &[Runner]) -> Vec<u8> {
    let mut lines: Vec<Line> = (0..HEADS.len()).map(Line::Head).collect();
    lines.push(Line::Mark(start));
    for (place, name) in names.iter().enumerate() {
        let now = wires(*name);
        if place == 0 {
            lines.extend([Line::Job(now.job), Line::Feed(now.feed)]);
            continue;
        }
        let before = wires(names[place - 1]);
        if now != before {
            lines.push(Line::Mark(start + place as u64));
        }
        if now.job != before.job {
            lines.push(Line::Job(now.job));
        }
        if now.feed != before.feed {
            lines.push(Line::Feed(now.feed));
        }
    }
    if !names.is_empty() {
        lines.push(Line::Mark(start + names.len() as u64));
    }
    lines.into_iter().flat_map(Line::written).collect()
}

/// What `wave` prints for this script: the text of its ticks, from the `go` that said yes
/// to its end or its bad line; nothing where none did.
pub fn of_script(input: &[u8]) -> Vec<u8> {
    if input.len() > script::INPUT_MOST {
        return b"too long\n".to_vec();
    }
    match script::ticks(input) {
        Some((start, names)) => text(start, &names),
        None => Vec::new(),
    }
}
