//! Texts that are waveforms, and texts that are not quite: a run written down, and then its
//! lines, its marks, its values and its bytes changed in each way that a line can be wrong.

use crate::invent;
use crate::judge::{Run, Stretch, TEXT_MOST};
use crate::model::{Instant, Runner, LAST_INSTANT};
use crate::random::Random;
use crate::wave::{self, wires, Line, Wires, HEADS};
use std::fmt;

/// A text, told as one.
#[derive(Clone, PartialEq, Eq)]
pub struct Text(pub Vec<u8>);

impl fmt::Debug for Text {
    fn fmt(&self, out: &mut fmt::Formatter) -> fmt::Result {
        for line in self.0.split_inclusive(|byte| *byte == b'\n') {
            write!(out, "\n  {}", line.escape_ascii())?;
        }
        Ok(())
    }
}

// ---------------------------------------------------------------- runs

fn start(random: &mut Random) -> Instant {
    match random.below(10) {
        0..=2 => 0,
        3..=4 => random.below(12),
        5 => random.below(1_000_000),
        6..=7 => LAST_INSTANT - random.below(12),
        8 => LAST_INSTANT,
        _ => random.below(LAST_INSTANT),
    }
}

pub fn some_wires(random: &mut Random) -> Wires {
    let any = (random.next() as u32 >> random.below(32)).max(1);
    wires(match random.below(10) {
        0..=2 => Runner::Idle,
        3..=5 => Runner::Job(random.between(1, 4) as u32),
        6 => Runner::Job(random.pick(&[u32::MAX, u32::MAX - 1, 1 << 31, any])),
        _ => Runner::Feed(random.between(1, 16) as u32),
    })
}

/// Where a stretch ends that begins here: mostly soon, else anywhere up to the last instant.
fn end(random: &mut Random, from: Instant) -> Instant {
    let left = LAST_INSTANT - from;
    let ticks = match random.below(12) {
        0..=6 => random.between(1, 4),
        7..=8 => random.between(1, 99),
        9 => random.between(1, left),
        10 => left,
        _ => random.between(1, 70_000),
    };
    from + ticks.min(left)
}

/// A run of few stretches, of any length.
pub fn run(random: &mut Random) -> Run {
    let start = start(random);
    let mut stretches: Vec<Stretch> = Vec::new();
    let mut from = start;
    for _ in 0..random.pick(&[0, 0, 1, 1, 2, 3, 4, 6, 9]) {
        let wires = some_wires(random);
        let again = stretches.last().map_or(false, |last| last.wires == wires);
        if from == LAST_INSTANT || again {
            continue;
        }
        let to = end(random, from);
        stretches.push(Stretch { from, to, wires });
        from = to;
    }
    Run { start, stretches }
}

// ---------------------------------------------------------------- changed lines

type Lines = Vec<Vec<u8>>;

/// The lines with one of them in another's place, or more, or none.
fn replaced(lines: &Lines, place: usize, by: &[Vec<u8>]) -> Vec<u8> {
    let (front, rest) = lines.split_at(place);
    [&front.concat()[..], &by.concat(), &rest[1..].concat()].concat()
}

fn dropped(lines: &Lines) -> Lines {
    let places = 0..lines.len();
    places.map(|place| replaced(lines, place, &[])).collect()
}

fn doubled(lines: &Lines) -> Lines {
    let twice = |place: usize| vec![lines[place].clone(); 2];
    let places = 0..lines.len();
    places
        .map(|place| replaced(lines, place, &twice(place)))
        .collect()
}

fn swapped(lines: &Lines) -> Lines {
    let swap = |place| {
        let mut lines = lines.clone();
        lines.swap(place, place + 1);
        lines.concat()
    };
    (0..lines.len().saturating_sub(1)).map(swap).collect()
}

fn cut(text: &[u8]) -> Lines {
    (0..text.len()).map(|to| text[..to].to_vec()).collect()
}

/// A line written otherwise: another end, another space, another digit in front.
fn restyled(line: &[u8]) -> Lines {
    let bare = &line[..line.len() - 1];
    let (first, rest) = bare.split_at(bare.len().min(1));
    let space = bare.iter().position(|byte| *byte == b' ');
    let (word, behind) = bare.split_at(space.unwrap_or(bare.len()));
    let inserted = |more: &[u8]| [first, more, rest, b"\n"].concat();
    let spaced = |space: &[u8]| [word, space, behind, b"\n"].concat();
    vec![
        [bare, b"\r\n"].concat(),
        [bare, b" \n"].concat(),
        [bare, b"\0\n"].concat(),
        [bare, b"\n\n"].concat(),
        [b"\n", line].concat(),
        [b" ", line].concat(),
        [b"\t", line].concat(),
        line.to_ascii_uppercase(),
        inserted(b"0"),
        inserted(b"+"),
        inserted(b"-"),
        inserted(b" "),
        inserted(b"_"),
        spaced(b" "),
        spaced(b"\t"),
        [word, behind.get(1..).unwrap_or_default(), b"\n"].concat(),
        [word, b"\n"].concat(),
        [first, b"\n"].concat(),
        b"\n".to_vec(),
    ]
}

fn all_restyled(random: &mut Random, lines: &Lines) -> Lines {
    let place = random.index(lines.len());
    let mut texts: Lines = restyled(&lines[place])
        .into_iter()
        .map(|line| replaced(lines, place, &[line]))
        .collect();
    let text = lines.concat();
    let with = |end: &str| {
        String::from_utf8_lossy(&text)
            .replace('\n', end)
            .into_bytes()
    };
    texts.extend([with("\r\n"), with("\r"), with("\n\n"), with(""), with(" ")]);
    texts
}

/// Lines of other dumps, and lines of this one where they may not stand.
const STRANGE_LINES: [&str; 26] = [
    "$dumpvars",
    "$end",
    "$date today $end",
    "$version 1 $end",
    "$comment $end",
    "$timescale 1ms $end",
    "$timescale 1 us $end",
    "$timescale 1 ms $end",
    "$scope module top $end",
    "$var wire 32 ! job [31:0] $end",
    "$var reg 32 ! job $end",
    "$var wire 5 # feed $end",
    "$enddefinitions $end",
    "bx !",
    "bz \"",
    "b !",
    "b",
    "#",
    "#x",
    "1!",
    "b1 #",
    "b2 !",
    "b1 !!",
    "r1 !",
    "b1\u{a0}!",
    "é",
];

fn with_a_strange_line(random: &mut Random, lines: &Lines) -> Lines {
    let strange = |line: &str| format!("{line}\n").into_bytes();
    let place = random.index(lines.len());
    let instead = random.chance(50);
    let with = |line: &&str| {
        let line = strange(line);
        match instead {
            true => replaced(lines, place, &[line]),
            false => replaced(lines, place, &[line, lines[place].clone()]),
        }
    };
    STRANGE_LINES.iter().map(with).collect()
}

// ---------------------------------------------------------------- changed numbers

const MARKS: [u128; 13] = [
    0,
    1,
    9,
    10,
    1 << 32,
    (1 << 40) - 1,
    1 << 40,
    (1 << 40) + 1,
    1 << 63,
    (1 << 64) - 1,
    1 << 64,
    (1 << 64) + 1,
    u128::MAX,
];

const VALUES: [u128; 16] = [
    0,
    1,
    2,
    3,
    15,
    16,
    17,
    31,
    32,
    1 << 31,
    (1 << 32) - 1,
    1 << 32,
    (1 << 33) - 1,
    (1 << 63) + 1,
    (1 << 64) - 1,
    (1 << 64) + 1,
];

fn number_in(line: &[u8]) -> u128 {
    let digits: String = line
        .iter()
        .filter(|byte| byte.is_ascii_digit())
        .map(|byte| char::from(*byte))
        .collect();
    let radix = if line.starts_with(b"#") { 10 } else { 2 };
    u128::from_str_radix(&digits, radix).unwrap_or(0)
}

/// One mark or value with other numbers, some of them as it was but for bits that are too
/// high.
fn renumbered(random: &mut Random, lines: &Lines) -> Lines {
    let place = random.between(HEADS.len() as u64, lines.len() as u64 - 1) as usize;
    let line = &lines[place];
    let number = number_in(line);
    let beside = [number + 1, number.saturating_sub(1), number + 2];
    let high = [number + (1 << 64), number + (1 << 32)];
    let other = lines
        .get(place.saturating_sub(3))
        .map(|line| number_in(line));
    let also = beside.into_iter().chain(high).chain(other);
    if line.starts_with(b"#") {
        let mark = |number| format!("#{number}\n").into_bytes();
        let marks = MARKS.into_iter().chain(also).map(mark);
        return marks.map(|line| replaced(lines, place, &[line])).collect();
    }
    let wires = [b'!', b'"'].map(char::from);
    let values = VALUES.into_iter().chain(also);
    values
        .flat_map(|number| wires.map(|wire| format!("b{number:b} {wire}\n").into_bytes()))
        .map(|line| replaced(lines, place, &[line]))
        .collect()
}

// ---------------------------------------------------------------- changed bytes

const BYTES: &[u8] = b"0011 !\"#b\n\r\t\0xzB$9\x7f\xff";

fn with_a_byte_changed(random: &mut Random, text: &[u8]) -> Lines {
    let mut texts = Vec::new();
    for _ in 0..40 {
        // Behind the lines in front mostly.
        let from = random
            .pick(&[0, 128.min(text.len() - 1), 120])
            .min(text.len() - 1);
        let place = random.between(from as u64, text.len() as u64 - 1) as usize;
        let mut text = text.to_vec();
        match random.below(5) {
            0 => text[place] ^= 1 << random.below(8),
            1 => text.insert(place, random.pick(BYTES)),
            2 => {
                text.remove(place);
            }
            3 => text[place] = random.next() as u8,
            _ => text[place] = random.pick(BYTES),
        }
        texts.push(text);
    }
    texts
}

// ---------------------------------------------------------------- loose lines

/// Marks that mostly rise, and small values in any order behind them: a job beside a feed,
/// the feed first, a value twice, none at all.
fn loose(random: &mut Random) -> Vec<u8> {
    let mut lines: Vec<Line> = (0..HEADS.len()).map(Line::Head).collect();
    let mut at = start(random);
    for _ in 0..random.between(1, 5) {
        lines.push(Line::Mark(at));
        let first = lines.len() == HEADS.len() + 1;
        let (job, feed) = (random.below(3) as u32, random.below(3) as u32);
        let feed = random.pick(&[feed, feed, 16, 17]);
        lines.extend(match random.below(8) {
            0 => vec![],
            1 => vec![Line::Feed(feed), Line::Job(job)],
            2..=3 if !first => vec![Line::Job(job)],
            4..=5 if !first => vec![Line::Feed(feed)],
            _ => vec![Line::Job(job), Line::Feed(feed)],
        });
        at = (at + random.pick(&[1, 1, 1, 2, 9, 0])).saturating_sub(random.pick(&[0, 0, 0, 0, 2]));
    }
    if random.chance(80) {
        lines.push(Line::Mark(at));
    }
    lines.into_iter().flat_map(Line::written).collect()
}

/// A byte, and what may stand behind a mark up to the next one and a line more.
pub fn passage(random: &mut Random) -> Vec<u8> {
    let mut lines = Vec::new();
    if random.chance(70) {
        lines.push(Line::Job(random.pick(&[0, 0, 1, 1, 2, u32::MAX])));
    }
    if random.chance(50) {
        lines.push(Line::Feed(random.pick(&[0, 0, 1, 1, 2, 16, 17])));
    }
    if random.chance(90) {
        lines.push(Line::Mark(match random.below(4) {
            0 => LAST_INSTANT + 1 - random.below(3),
            _ => random.between(1, 9),
        }));
    }
    if random.chance(30) {
        lines.push(Line::Job(3));
    }
    let mut text: Vec<u8> = lines.into_iter().flat_map(Line::written).collect();
    if random.chance(5) {
        text.pop();
    }
    [&b"."[..], &text].concat()
}

fn with_more_behind(random: &mut Random, text: &[u8]) -> Lines {
    let part = random.index(text.len());
    let more: [&[u8]; 9] = [
        text,
        &text[part..],
        b"\n",
        b"\r\n",
        b" ",
        b"#",
        b"b0 !\n",
        b"b0 \"\n",
        b"#1099511627776\n",
    ];
    more.iter().map(|more| [text, more].concat()).collect()
}

/// Texts made of this one, each wrong in one way, or right after all.
pub fn changed(random: &mut Random, run: &Run) -> Lines {
    let lines = run.lines();
    let text = lines.concat();
    match random.below(16) {
        0 => dropped(&lines),
        1 => doubled(&lines),
        2 => swapped(&lines),
        3 => cut(&text),
        4..=5 => all_restyled(random, &lines),
        6 => with_a_strange_line(random, &lines),
        7..=9 => renumbered(random, &lines),
        10 => with_a_byte_changed(random, &text),
        11 => with_more_behind(random, &text),
        _ => (0..30).map(|_| loose(random)).collect(),
    }
}

// ---------------------------------------------------------------- texts for the program

/// The text of this seed and item: a script's waveform, or one that is made up, or changed.
pub fn dump(seed: u64, item: u64) -> Vec<u8> {
    let random = &mut Random::of(seed, item);
    if random.chance(35) {
        return wave::of_script(&invent::script(seed, item));
    }
    let run = run(random);
    let mut texts = changed(random, &run);
    texts.push(run.lines().concat());
    texts.swap_remove(random.index(texts.len()))
}

/// The document's example, with each line dropped, doubled or swapped and cut at each place;
/// and texts about as long as can be.
pub fn fixed() -> Lines {
    let script = b"feed 4 1 0 4\nfeed 6 2 0 6\ngo 0 0\nask 1 3 6\nrun 6\n";
    let text = wave::of_script(script);
    let lines: Lines = text
        .split_inclusive(|byte| *byte == b'\n')
        .map(|line| line.to_vec())
        .collect();
    let mut texts = vec![text.clone()];
    for more in [
        dropped(&lines),
        doubled(&lines),
        swapped(&lines),
        cut(&text),
    ] {
        texts.extend(more);
    }
    let longest = sized(TEXT_MOST);
    let cut = longest[..TEXT_MOST - 1].to_vec();
    let more = [&longest[..], b"\n"].concat();
    texts.extend([longest, cut, more, sized(TEXT_MOST + 1)]);
    texts.extend([vec![b'\n'; TEXT_MOST], vec![b'1'; TEXT_MOST + 1]]);
    texts
}

/// A waveform of just so many bytes: jobs take turns, and the numbers of the last two make up
/// what is missing.
pub fn sized(size: usize) -> Vec<u8> {
    let start = 100_000_000;
    let mut text: Vec<u8> = wave::text(start, &[Runner::Idle]);
    // The mark at the end comes last.
    let mark = Line::Mark(start).written().len();
    text.truncate(text.len() - mark);
    let mut at = start + 1;
    let mut put = |text: &mut Vec<u8>, job: u32| {
        text.extend(
            [Line::Mark(at), Line::Job(job)]
                .into_iter()
                .flat_map(Line::written),
        );
        at += 1;
    };
    let change = mark + Line::Job(0).written().len();
    let missing = |text: &[u8]| size - text.len() - mark;
    while missing(&text) > 2 * change + 40 {
        let job = if text.ends_with(b"b1 !\n") { 2 } else { 1 };
        put(&mut text, job);
    }
    let bits = missing(&text) - 2 * change;
    let more = bits / 2 + 1;
    put(&mut text, 1 << more);
    put(&mut text, 1 << (bits - more));
    text.extend(Line::Mark(at).written());
    text
}
