//! The reading of a waveform, by the sentence that says which line is wrong: the first at
//! which no text of a run begins with the lines so far. To find out, the run is made up
//! that these lines would tell of, whatever they look like, and its own text is held
//! against them. Where the last of them leaves open whom a tick went to, each of the few
//! ways to go on is tried.

use crate::boundary::Reading;
use crate::model::{Instant, Runner, FEEDS_MOST, LAST_INSTANT};
use crate::wave::{Line, Wires, HEADS};

pub const TEXT_MOST: usize = 1_048_576;

/// Ticks that went to the same one.
#[derive(Clone, Copy, Debug, PartialEq, Eq)]
pub struct Stretch {
    pub from: Instant,
    pub to: Instant,
    pub wires: Wires,
}

#[derive(Clone, Debug, PartialEq, Eq)]
pub struct Run {
    pub start: Instant,
    pub stretches: Vec<Stretch>,
}

impl Stretch {
    pub fn runner(&self) -> Runner {
        match self.wires {
            Wires { job: 0, feed: 0 } => Runner::Idle,
            Wires { job: 0, feed } => Runner::Feed(feed),
            Wires { job, .. } => Runner::Job(job),
        }
    }
}

/// Never a job and a feed, and a feed that there can be.
fn can_be_named(wires: Wires) -> bool {
    (wires.job == 0 || wires.feed == 0) && wires.feed as usize <= FEEDS_MOST
}

impl Run {
    pub fn end(&self) -> Instant {
        self.stretches.last().map_or(self.start, |last| last.to)
    }

    /// Whether there is such a run: ticks in every stretch, another one's than in the
    /// stretch before, and none past the clock's last instant.
    fn is_one(&self) -> bool {
        let pairs = self.stretches.windows(2);
        self.end() <= LAST_INSTANT
            && self.stretches.iter().all(|one| one.from < one.to)
            && self.stretches.iter().all(|one| can_be_named(one.wires))
            && pairs.clone().all(|pair| pair[0].to == pair[1].from)
            && pairs.clone().all(|pair| pair[0].wires != pair[1].wires)
    }

    /// The lines of its text.
    pub fn lines(&self) -> Vec<Vec<u8>> {
        let mut lines: Vec<Line> = (0..HEADS.len()).map(Line::Head).collect();
        lines.push(Line::Mark(self.start));
        let mut before = None;
        for Stretch { to, wires, .. } in &self.stretches {
            let was = before.replace(*wires);
            lines.extend(
                (was.map(|was| was.job) != Some(wires.job)).then_some(Line::Job(wires.job)),
            );
            lines.extend(
                (was.map(|was| was.feed) != Some(wires.feed)).then_some(Line::Feed(wires.feed)),
            );
            lines.push(Line::Mark(*to));
        }
        lines.into_iter().map(Line::written).collect()
    }
}

/// What a line behind those in front may mean, however it is written: whether it is written
/// so is seen when it is written again.
fn meant(line: &[u8]) -> Option<Line> {
    let line = std::str::from_utf8(line).ok()?.trim_end();
    if let Some(instant) = line.strip_prefix('#') {
        return Some(Line::Mark(instant.trim().parse().ok()?));
    }
    let value = line.strip_prefix('b')?;
    let number = |digits: &str| u32::from_str_radix(digits.trim(), 2).ok();
    if let Some(digits) = value.strip_suffix('!') {
        return number(digits).map(Line::Job);
    }
    value.strip_suffix('"').and_then(number).map(Line::Feed)
}

/// New values, as far as they came.
#[derive(Clone, Copy, Default)]
struct Values {
    job: Option<u32>,
    feed: Option<u32>,
}

impl Values {
    fn came(self) -> bool {
        self.job.is_some() || self.feed.is_some()
    }

    fn over(self, before: Wires) -> Wires {
        Wires {
            job: self.job.unwrap_or(before.job),
            feed: self.feed.unwrap_or(before.feed),
        }
    }
}

/// The runs to try for these lines: one of them has a text that begins so, if any run has.
/// After new values the tick is one; of a feed's value that did not come it is tried that
/// it stays and that it is 0.
fn runs(lines: &[&[u8]]) -> Vec<Run> {
    let meant: Option<Vec<Line>> = lines
        .iter()
        .skip(HEADS.len())
        .map(|line| meant(line))
        .collect();
    let (start, rest) = match meant.as_deref() {
        Some([]) => (0, &[][..]),
        Some([Line::Mark(start), rest @ ..]) => (*start, rest),
        _ => return Vec::new(),
    };
    let mut stretches = Vec::new();
    let (mut from, mut before, mut new) = (start, Wires::default(), Values::default());
    for line in rest {
        match *line {
            Line::Head(_) => return Vec::new(),
            Line::Job(number) => new.job = Some(number),
            Line::Feed(position) => new.feed = Some(position),
            Line::Mark(to) => {
                let wires = std::mem::take(&mut new).over(before);
                stretches.push(Stretch { from, to, wires });
                (from, before) = (to, wires);
            }
        }
    }
    if !new.came() {
        return vec![Run { start, stretches }];
    }
    let ways = [before.feed, 0].map(|feed| new.over(Wires { feed, ..before }));
    let one_more = |wires| {
        let to = from.saturating_add(1);
        let mut stretches = stretches.clone();
        stretches.push(Stretch { from, to, wires });
        Run { start, stretches }
    };
    ways.map(one_more).to_vec()
}

/// Whether the text of some run begins with these lines.
fn begins(lines: &[&[u8]]) -> bool {
    let begins = |run: Run| run.is_one() && starts_with(&run.lines(), lines);
    runs(lines).into_iter().any(begins)
}

fn starts_with(whole: &[Vec<u8>], front: &[&[u8]]) -> bool {
    let mut pairs = whole.iter().zip(front);
    whole.len() >= front.len() && pairs.all(|(line, other)| line == other)
}

/// The whole lines of a text, each with its newline; what follows the last one is left out.
fn whole_lines(text: &[u8]) -> Vec<&[u8]> {
    let lines = text.split_inclusive(|byte| *byte == b'\n');
    lines.filter(|line| line.ends_with(b"\n")).collect()
}

fn ends_in_a_newline(text: &[u8]) -> bool {
    text.last().map_or(true, |last| *last == b'\n')
}

/// The run that a text tells of, or the number of its first wrong line, one past the last
/// where text is missing.
pub fn judge(text: &[u8]) -> Result<Run, usize> {
    let lines = whole_lines(text);
    if ends_in_a_newline(text) {
        let is_whole = |run: &Run| {
            let whole = run.lines();
            run.is_one() && whole.len() == lines.len() && starts_with(&whole, &lines)
        };
        if let Some(run) = runs(&lines).into_iter().find(is_whole) {
            return Ok(run);
        }
    }
    // Where some lines begin a text, so do fewer.
    let (mut good, mut wrong) = (0, lines.len() + 1);
    while good + 1 < wrong {
        let middle = (good + wrong) / 2;
        match begins(&lines[..middle]) {
            true => good = middle,
            false => wrong = middle,
        }
    }
    Err(wrong)
}

// ---------------------------------------------------------------- one stretch

/// What a reading comes to.
#[derive(Clone, Copy, Debug, PartialEq, Eq)]
pub enum Found {
    /// A stretch, and the reading behind it.
    Stretch(Stretch, Reading),
    /// The text ends here as it may.
    End(Reading),
    /// The first wrong line.
    Wrong(usize),
    /// The reading is none of this text.
    NotInOrder,
}

/// All that one stretch is told by, up to the mark that ends it.
struct Passage {
    /// The wires before the mark that was read last; nothing where the text is read from its
    /// front, so that the lines there and the first mark are of the passage.
    before: Option<Wires>,
    from: Instant,
    to: Instant,
    new: Values,
}

impl Passage {
    fn wires(&self) -> Wires {
        self.new.over(self.before.unwrap_or_default())
    }

    /// New values only, of those that can be, and a tick that is one's alone. Whether the
    /// wires before it could be so is not asked.
    fn is_one(&self) -> bool {
        let Values { job, feed } = self.new;
        let wires = self.wires();
        let are_new = match self.before {
            Some(before) => self.new.came() && job != Some(before.job) && feed != Some(before.feed),
            None => job.is_some() && feed.is_some(),
        };
        are_new
            && (wires.job == 0 || wires.feed == 0)
            && feed.map_or(true, |feed| feed as usize <= FEEDS_MOST)
            && self.from < self.to
            && self.to <= LAST_INSTANT
    }

    fn lines(&self) -> Vec<Vec<u8>> {
        let mut lines = Vec::new();
        if self.before.is_none() {
            lines.extend((0..HEADS.len()).map(Line::Head));
            lines.push(Line::Mark(self.from));
        }
        lines.extend(self.new.job.map(Line::Job));
        lines.extend(self.new.feed.map(Line::Feed));
        lines.push(Line::Mark(self.to));
        lines.into_iter().map(Line::written).collect()
    }
}

/// Where a reading stands, and the text from there on.
struct Standing<'a> {
    reading: Reading,
    text: &'a [u8],
    lines: Vec<&'a [u8]>,
}

impl Standing<'_> {
    fn is_in_front(&self) -> bool {
        self.reading.place == 0
    }

    /// How many lines come before the first that tells of the stretch.
    fn heads(&self) -> usize {
        if self.is_in_front() {
            HEADS.len() + 1
        } else {
            0
        }
    }

    /// The passages to try for so many lines: what they do not tell is made up.
    fn passages(&self, count: usize) -> Vec<Passage> {
        let lines = &self.lines[..count];
        let first = lines.get(HEADS.len()).map(|line| meant(line));
        let from = match first {
            _ if !self.is_in_front() => self.reading.at,
            Some(Some(Line::Mark(start))) => start,
            Some(_) => return Vec::new(),
            None => 0,
        };
        let Reading { job, feed, .. } = self.reading;
        let before = (!self.is_in_front()).then_some(Wires { job, feed });
        let (mut new, mut to) = (Values::default(), from.saturating_add(1));
        for line in lines.iter().skip(self.heads()) {
            match meant(line) {
                Some(Line::Job(number)) => new.job = Some(number),
                Some(Line::Feed(position)) => new.feed = Some(position),
                Some(Line::Mark(instant)) => to = instant,
                _ => return Vec::new(),
            }
        }
        let passage = |new| Passage {
            before,
            from,
            to,
            new,
        };
        let filled = |job: Option<u32>, feed: Option<u32>| Values {
            job: new.job.or(job),
            feed: new.feed.or(feed),
        };
        [(None, None), (None, Some(0)), (Some(0), Some(0))]
            .map(|(job, feed)| passage(filled(job, feed)))
            .into()
    }

    fn begins(&self, count: usize) -> bool {
        if self.is_in_front() && count <= self.heads() {
            return begins(&self.lines[..count]);
        }
        let front = &self.lines[..count];
        let begins = |one: Passage| one.is_one() && starts_with(&one.lines(), front);
        self.passages(count).into_iter().any(begins)
    }

    /// The passage that so many lines are, if they are one.
    fn whole(&self, count: usize) -> Option<Stretch> {
        let lines = self.lines.get(..count)?;
        let is_whole = |one: &Passage| {
            one.is_one() && one.lines().len() == count && starts_with(&one.lines(), lines)
        };
        let passage = self.passages(count).into_iter().find(is_whole)?;
        Some(Stretch {
            from: passage.from,
            to: passage.to,
            wires: passage.wires(),
        })
    }

    /// Behind so many lines, at a mark.
    fn behind(&self, count: usize, at: Instant, wires: Wires) -> Reading {
        let bytes: usize = self.lines[..count].iter().map(|line| line.len()).sum();
        Reading {
            place: self.reading.place + bytes,
            lines: self.reading.lines + count,
            at,
            job: wires.job,
            feed: wires.feed,
        }
    }

    /// The end, if the text ends here as it may: behind the last mark that was read, or
    /// behind the first.
    fn end(&self) -> Option<Reading> {
        if !self.is_in_front() {
            return self.text.is_empty().then_some(self.reading);
        }
        let alone = self.lines.len() == self.heads();
        let run = alone.then(|| judge(self.text).ok()).flatten()?;
        Some(self.behind(self.lines.len(), run.start, Wires::default()))
    }
}

/// One stretch on from a reading.
pub fn stretch(text: &[u8], reading: Reading) -> Found {
    if reading.lines > reading.place || reading.place > text.len() {
        return Found::NotInOrder;
    }
    let text = &text[reading.place..];
    let here = Standing {
        reading,
        text,
        lines: whole_lines(text),
    };
    if let Some(reading) = here.end() {
        return Found::End(reading);
    }
    let most = here.lines.len().min(here.heads() + 3);
    let whole = |count| here.whole(count).map(|found| (count, found));
    if let Some((count, found)) = (1..=most).find_map(whole) {
        return Found::Stretch(found, here.behind(count, found.to, found.wires));
    }
    let good = (1..=most).take_while(|count| here.begins(*count)).count();
    Found::Wrong(reading.lines + good + 1)
}

// ---------------------------------------------------------------- the program

/// What `wave --read` prints for this text.
pub fn told(text: &[u8]) -> Vec<u8> {
    if text.len() > TEXT_MOST {
        return b"too long\n".to_vec();
    }
    let run = match judge(text) {
        Ok(run) => run,
        Err(line) => return format!("line {line}\n").into_bytes(),
    };
    let who = |stretch: &Stretch| match stretch.runner() {
        Runner::Idle => "idle".to_string(),
        Runner::Job(number) => format!("job {number}"),
        Runner::Feed(position) => format!("feed {position}"),
    };
    let mut lines = vec![format!("start {}\n", run.start)];
    let told = |stretch: &Stretch| format!("{} {} {}\n", stretch.from, stretch.to, who(stretch));
    lines.extend(run.stretches.iter().map(told));
    lines.push(format!("end {}\n", run.end()));
    lines.concat().into_bytes()
}
