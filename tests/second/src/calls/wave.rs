//! Waveforms: runs written in parts, with other calls between them; cursors and readings that
//! are not in order; and texts of every kind, judged and read stretch by stretch.

use super::*;
use crate::judge;
use crate::model::Runner;
use crate::texts;
use crate::wave::{self, LINE_MOST};

/// At least this many calls of a part that write or read waveforms, with other calls between
/// them; an error tells the first difference.
pub fn compare_waves(
    library: &dyn Library,
    seed: u64,
    part: u64,
    count: u64,
) -> Result<Tally, String> {
    let mut walk = Walk::new(&Own, library, !seed, part);
    if part == 0 {
        walk.walk_through_fixed_texts()?;
    }
    while walk.calls < count {
        if walk.random.chance(75) {
            walk.walk_with_a_waveform()?;
        } else {
            walk.walk_through_texts()?;
        }
    }
    Ok(walk.tally)
}

/// A run that is being written, and what was written of it; beside that, whom its ticks went
/// to.
#[derive(Clone)]
struct Waving {
    desk: Desk,
    cursor: Cursor,
    start: u64,
    names: Vec<Runner>,
    text: Vec<u8>,
}

impl Waving {
    /// Takes the steps again, one by one, and keeps whom they named.
    fn went_on(&mut self, waved: &Waved, buffer: &[u8]) -> Result<(), String> {
        for _ in 0..waved.steps {
            let stepped = Own.step(self.desk);
            if stepped.refusal != 0 {
                return Err(format!("a step that gets {}\n{waved:?}", stepped.refusal));
            }
            self.desk = stepped.desk;
            self.names.push(match stepped.kind {
                0 => Runner::Idle,
                1 => Runner::Job(stepped.number),
                _ => Runner::Feed(stepped.number),
            });
        }
        if self.desk != waved.desk {
            return Err(format!("{} steps lead elsewhere", waved.steps));
        }
        self.cursor = waved.cursor;
        self.text.extend(&buffer[..waved.bytes]);
        Ok(())
    }

    /// The parts joined are the text of the run.
    fn is_whole(&self) -> Result<(), String> {
        let whole = wave::text(self.start, &self.names);
        if self.text == whole {
            return Ok(());
        }
        let (joined, whole) = (Text(self.text.clone()), Text(whole));
        Err(format!("joined:{joined:?}\n--- the run's:{whole:?}"))
    }
}

impl Walk<'_> {
    fn walk_with_a_waveform(&mut self) -> Result<(), String> {
        let desk = self.desk_to_wave();
        let mut waving = match self.tallied(desk, &Call::WaveBegin)? {
            Said::Begun(Begun { cursor, .. }) => Waving {
                desk,
                cursor,
                start: desk.clock,
                names: Vec::new(),
                text: Vec::new(),
            },
            said => return Err(tell(&said)),
        };
        for _ in 0..self.random.between(1, 30) {
            self.some_turn(&mut waving)?;
        }
        self.close(waving)
    }

    /// Mostly with jobs, and now and then with more of them than there is time for, so that
    /// one is late on the way.
    fn desk_to_wave(&mut self) -> Desk {
        let mut desk = loop {
            let mut opening = some_opening(&mut self.random);
            if self.random.chance(12) {
                opening.start = LAST_INSTANT - self.random.below(40);
            }
            if let Ok(state) = opening.open() {
                break write(&state);
            }
        };
        for _ in 0..self.random.below(5) {
            let (number, work, lead) = request(&mut self.random, &to_ask_with(&desk));
            desk = Own.ask(desk, number, work, lead).desk;
        }
        if self.random.chance(20) {
            overbook(&mut self.random, &mut desk);
        }
        desk
    }

    fn some_turn(&mut self, waving: &mut Waving) -> Result<(), String> {
        match self.random.below(100) {
            0..=54 => self.go_on(waving),
            55..=74 => self.another_call(waving),
            75..=84 => self.with_another_cursor(waving),
            85..=88 => self.with_another_desk(waving),
            89..=92 => self.close(waving.clone()),
            _ => self.closing_another(waving.desk.clock),
        }
    }

    fn some_room(&mut self) -> usize {
        self.lengths += 1;
        match self.random.below(100) {
            0..=44 => self.lengths % 81,
            45..=64 => self.random.index(LINE_MOST + 5),
            65..=89 => self.random.between(LINE_MOST as u64, 400) as usize,
            _ => self.random.between(400, WAVE_MOST as u64) as usize,
        }
    }

    fn some_count(&mut self, clock: u64) -> u32 {
        let near = LAST_INSTANT.saturating_sub(clock) < 500;
        let steps = match self.random.below(100) {
            0..=9 => 0,
            10..=39 => 1,
            40..=74 => self.random.between(2, 12),
            75..=94 => self.random.between(2, 60),
            95..=99 if near => self.random.pick(&[u32::MAX.into(), 1 << 31, 500]),
            _ => self.random.between(60, 400),
        };
        steps as u32
    }

    fn go_on(&mut self, waving: &mut Waving) -> Result<(), String> {
        let (cursor, desk) = (waving.cursor, waving.desk);
        let (steps, length) = (self.some_count(desk.clock), self.some_room());
        let call = Call::Wave {
            cursor,
            steps,
            length,
        };
        let said = self.tallied(desk, &call)?;
        let wrong = |why: String| format!("{why}\n{}", about(&desk, &call, &said));
        match &said {
            Said::Waved(
                Waved {
                    refusal: BUFFER_TOO_SHORT,
                    ..
                },
                _,
            ) if length >= LINE_MOST => Err(wrong("room for every line, and 11".into())),
            Said::Waved(waved, buffer) if waved.refusal == 0 => {
                waving.went_on(waved, buffer).map_err(wrong)
            }
            _ => Ok(()),
        }
    }

    /// Any but a step may come between.
    fn another_call(&mut self, waving: &mut Waving) -> Result<(), String> {
        let state = to_ask_with(&waving.desk);
        let call = match self.random.below(6) {
            0 => {
                let (number, work, lead) = request(&mut self.random, &state);
                Call::Ask { number, work, lead }
            }
            1 => {
                let number = invent::live_or_not(&mut self.random, &state);
                Call::End { number }
            }
            2 => {
                let position = invent::position(&mut self.random, &state);
                Call::Rest { position }
            }
            _ => self.some_call(&waving.desk),
        };
        if !matches!(call, Call::Step) {
            waving.desk = self.call(waving.desk, call)?;
        }
        Ok(())
    }

    /// This one, or one made by hand, with a field that is mostly wrong.
    fn with_another_cursor(&mut self, waving: &Waving) -> Result<(), String> {
        for _ in 0..self.random.between(1, 4) {
            let cursor = some_cursor(&mut self.random, waving.cursor, waving.desk.clock);
            let (steps, length) = (self.some_count(waving.desk.clock), self.some_room());
            self.call(
                waving.desk,
                Call::Wave {
                    cursor,
                    steps,
                    length,
                },
            )?;
        }
        Ok(())
    }

    /// Out of order, or a step further than the cursor.
    fn with_another_desk(&mut self, waving: &Waving) -> Result<(), String> {
        let mut desk = waving.desk;
        match self.random.below(4) {
            0 => desk = Own.step(desk).desk,
            _ => damage(&mut self.random, &mut desk),
        }
        let (cursor, length) = (waving.cursor, self.some_room());
        let steps = self.some_count(desk.clock);
        self.call(
            desk,
            Call::Wave {
                cursor,
                steps,
                length,
            },
        )?;
        self.call(desk, Call::WaveBegin)?;
        Ok(())
    }

    fn closing_another(&mut self, clock: u64) -> Result<(), String> {
        let far = [LAST_INSTANT, LAST_INSTANT, LAST_INSTANT + 1, u64::MAX, 1];
        for _ in 0..self.random.between(1, 4) {
            let clock = match self.random.below(3) {
                0 => self.random.pick(&far),
                _ => clock,
            };
            let cursor = some_cursor(&mut self.random, Cursor::default(), clock);
            let length = self.some_room();
            self.call(Desk::default(), Call::WaveClose { cursor, length })?;
        }
        Ok(())
    }

    /// In parts, until nothing is written any more. Then the text is whole, it is read as the
    /// run that it is, and the cursor is of no use but to be closed again.
    fn close(&mut self, mut waving: Waving) -> Result<(), String> {
        loop {
            let (cursor, length) = (waving.cursor, self.some_room());
            let call = Call::WaveClose { cursor, length };
            let said = self.tallied(waving.desk, &call)?;
            let (closed, buffer) = match &said {
                Said::Closed(closed, buffer) => (closed, buffer),
                said => return Err(tell(said)),
            };
            if closed.refusal == BUFFER_TOO_SHORT && length < LINE_MOST {
                continue;
            }
            if closed.refusal != 0 {
                return Err(format!("no end\n{}", about(&waving.desk, &call, &said)));
            }
            waving.text.extend(&buffer[..closed.bytes]);
            waving.cursor = closed.cursor;
            if closed.bytes == 0 {
                break;
            }
        }
        waving.is_whole()?;
        let (cursor, steps, length) = (waving.cursor, 1, self.some_room());
        match self.tallied(
            waving.desk,
            &Call::Wave {
                cursor,
                steps,
                length,
            },
        )? {
            Said::Waved(waved, _) if waved.refusal == model::NOT_IN_ORDER => (),
            said => return Err(format!("after the close\n{}", tell(&said))),
        }
        self.read_back(&waving)
    }

    /// The text gives whom each tick went to, and the instants at both ends.
    fn read_back(&mut self, waving: &Waving) -> Result<(), String> {
        let run = match self.through(&waving.text)? {
            Some(run) => run,
            None => return Err(format!("not read back:{:?}", Text(waving.text.clone()))),
        };
        let ticks = |one: &judge::Stretch| (one.to - one.from) as usize;
        let spread = |one: &judge::Stretch| vec![one.runner(); ticks(one)];
        let names: Vec<Runner> = run.stretches.iter().flat_map(spread).collect();
        let end = waving.start + waving.names.len() as u64;
        if (run.start, run.end()) != (waving.start, end) || names != waving.names {
            return Err(format!(
                "read back otherwise:{:?}",
                Text(waving.text.clone())
            ));
        }
        Ok(())
    }

    // ------------------------------------------------------------ texts

    fn walk_through_texts(&mut self) -> Result<(), String> {
        let run = texts::run(&mut self.random);
        let text = run.lines().concat();
        if self.through(&text)?.as_ref() != Some(&run) {
            return Err(format!("read otherwise: {run:?}{:?}", Text(text)));
        }
        self.with_other_readings(&text)?;
        self.with_readings_made_by_hand()?;
        for _ in 0..4 {
            let mut texts = texts::changed(&mut self.random, &run);
            invent::shuffle(&mut self.random, &mut texts);
            for text in texts.into_iter().take(12) {
                self.some_reading(text)?;
            }
        }
        Ok(())
    }

    fn some_reading(&mut self, text: Vec<u8>) -> Result<(), String> {
        match self.random.below(6) {
            0 => self.through(&text).map(|_| ()),
            1 => self.with_other_readings(&text),
            _ => {
                let text = Text(text);
                self.call(Desk::default(), Call::WaveRead { text })?;
                Ok(())
            }
        }
    }

    /// Behind a mark and wires that no text may have there, in front of lines that tell of one
    /// stretch, or nearly.
    fn with_readings_made_by_hand(&mut self) -> Result<(), String> {
        for _ in 0..10 {
            let random = &mut self.random;
            let text = Text(texts::passage(random));
            let ends = [LAST_INSTANT - 1, LAST_INSTANT, LAST_INSTANT + 1, u64::MAX];
            let reading = Reading {
                place: 1,
                lines: random.pick(&[0, 1]),
                at: match random.below(4) {
                    0 => random.pick(&ends),
                    _ => random.below(4),
                },
                job: random.pick(&[0, 0, 1, 1, 2, u32::MAX]),
                feed: random.pick(&[0, 0, 1, 1, 2, 16, 17, u32::MAX]),
            };
            self.call(Desk::default(), Call::WaveStretch { text, reading })?;
        }
        Ok(())
    }

    fn walk_through_fixed_texts(&mut self) -> Result<(), String> {
        for text in texts::fixed() {
            if text.len() < 1_000 {
                self.through(&text)?;
            }
            let text = Text(text);
            self.call(Desk::default(), Call::WaveRead { text })?;
        }
        Ok(())
    }

    /// Judged at once, and read stretch by stretch: which comes to the same. The run, if it
    /// is one.
    fn through(&mut self, text: &[u8]) -> Result<Option<judge::Run>, String> {
        let lent = || Text(text.to_vec());
        let whole = match self.tallied(Desk::default(), &Call::WaveRead { text: lent() })? {
            Said::Read(read, _) => read,
            said => return Err(tell(&said)),
        };
        let mut stretches = Vec::new();
        let mut reading = Reading::default();
        let last = loop {
            let call = Call::WaveStretch {
                text: lent(),
                reading,
            };
            let found = match self.tallied(Desk::default(), &call)? {
                Said::Stretch(found, _) => found,
                said => return Err(tell(&said)),
            };
            if found.refusal != 0 || found.from == found.to {
                break found;
            }
            stretches.push(as_found(&found));
            reading = found.reading;
        };
        let start = stretches.first().map_or(last.from, |first| first.from);
        let alike = match whole.refusal {
            0 => (whole.start, whole.end, whole.stretches) == (start, last.to, stretches.len()),
            _ => (whole.refusal, whole.line) == (last.refusal, last.line),
        };
        if !alike {
            let text = lent();
            return Err(format!(
                "{whole:?}, by stretches {stretches:?} {last:?}:{text:?}"
            ));
        }
        Ok((whole.refusal == 0).then_some(judge::Run { start, stretches }))
    }

    /// From readings on the way, and from those with a field that is mostly wrong.
    fn with_other_readings(&mut self, text: &[u8]) -> Result<(), String> {
        let mut on_the_way = Reading::default();
        for _ in 0..self.random.between(1, 8) {
            let mut reading = on_the_way;
            if self.random.chance(75) {
                reading = another_reading(&mut self.random, text, reading);
            }
            if let judge::Found::Stretch(_, behind) = judge::stretch(text, on_the_way) {
                on_the_way = behind;
            }
            let text = Text(text.to_vec());
            self.call(Desk::default(), Call::WaveStretch { text, reading })?;
        }
        Ok(())
    }
}

fn as_found(found: &Stretch) -> judge::Stretch {
    let (from, to) = (found.from, found.to);
    let runner = match found.kind {
        0 => Runner::Idle,
        1 => Runner::Job(found.number),
        _ => Runner::Feed(found.number),
    };
    let wires = wave::wires(runner);
    judge::Stretch { from, to, wires }
}

// ---------------------------------------------------------------- cursors and readings

/// A yes, not always the same.
fn yes(random: &mut Random) -> u32 {
    random.pick(&[1, 1, 1, 2, 256, 1 << 31, u32::MAX])
}

/// In order at this instant: before the first step or after one.
fn cursor_at(random: &mut Random, clock: u64) -> Cursor {
    let before = Cursor {
        since: clock,
        clock,
        ..Cursor::default()
    };
    match clock {
        0 => before_a_step(random, before),
        _ if random.chance(35) => before_a_step(random, before),
        _ => after_a_step(random, before),
    }
}

/// Some of the lines in front written, or all of them, or the mark too.
fn before_a_step(random: &mut Random, before: Cursor) -> Cursor {
    let heads = random.pick(&[0, 1, 2, 3, 4, 5, 6, 6]);
    let mark = match heads {
        6 => random.pick(&[0, 1, 1]),
        _ => 1,
    };
    let mark = mark * yes(random);
    Cursor {
        heads,
        mark,
        ..before
    }
}

/// Each of its lines due, or none.
fn after_a_step(random: &mut Random, before: Cursor) -> Cursor {
    let wires = texts::some_wires(random);
    let (job, feed) = random.pick(&[(0, 0), (0, 0), (0, 1), (1, 0), (1, 1)]);
    let mark = (job | feed) & random.below(2) as u32;
    let ticks = match job | feed {
        0 => random.between(1, 9).min(before.clock),
        _ => 1,
    };
    Cursor {
        since: before.clock - ticks,
        number: wires.job,
        position: wires.feed,
        ran: yes(random),
        heads: 6,
        mark: mark * yes(random),
        job: job * yes(random),
        feed: feed * yes(random),
        ..before
    }
}

/// This cursor or one made by hand, mostly with one field that is another.
fn some_cursor(random: &mut Random, cursor: Cursor, clock: u64) -> Cursor {
    let mut cursor = match random.below(4) {
        0 => cursor,
        _ => cursor_at(random, clock),
    };
    for _ in 0..random.pick(&[0, 1, 1, 1, 2]) {
        another_field(random, &mut cursor);
    }
    cursor
}

fn another_field(random: &mut Random, cursor: &mut Cursor) {
    let Cursor { since, clock, .. } = *cursor;
    let near = clock.wrapping_add(1).wrapping_sub(random.below(4));
    let far = random.pick(&[0, LAST_INSTANT, u64::MAX, clock ^ 1 << 32]);
    let flag = yes(random) * random.pick(&[0, 1, 1]);
    match random.below(9) {
        0 => cursor.since = random.pick(&[near, near, far, since.wrapping_sub(1)]),
        1 => cursor.clock = random.pick(&[near, near, far, LAST_INSTANT + 1]),
        2 => cursor.number = random.pick(&[0, 1, 7, u32::MAX]),
        3 => cursor.position = random.pick(&[0, 1, 16, 17, 17, 32, u32::MAX]),
        4 => cursor.ran = flag,
        5 => cursor.heads = random.pick(&[0, 1, 5, 5, 6, 7, 7, 262, u32::MAX]),
        6 => cursor.mark = flag,
        7 => cursor.job = flag,
        _ => cursor.feed = flag,
    }
}

/// The reading with a field that is another, often one at which it makes a difference.
fn another_reading(random: &mut Random, text: &[u8], mut reading: Reading) -> Reading {
    let (length, value) = (text.len(), texts::some_wires(random));
    let any = random.index(length + 1);
    let Reading {
        place, lines, at, ..
    } = reading;
    match random.below(12) {
        0..=1 => {
            reading.place = random.pick(&[0, 1, place + 1, length, length + 1, any, usize::MAX])
        }
        2 => reading.lines = random.pick(&[0, place, place + 1, lines + 1, usize::MAX]),
        3 => {
            reading.place = length;
            reading.lines = random.pick(&[length, length + 1, lines]);
        }
        4..=6 => {
            let near = [at, at + 1, at + 2, at.saturating_sub(1), 0];
            let far = [LAST_INSTANT - 1, LAST_INSTANT, LAST_INSTANT + 1, u64::MAX];
            reading.at = match random.below(2) {
                0 => random.pick(&near),
                _ => random.pick(&far),
            };
        }
        7..=8 => reading.job = random.pick(&[0, 1, 2, value.job, u32::MAX]),
        9..=10 => reading.feed = random.pick(&[0, 1, 2, value.feed, 16, 17, u32::MAX]),
        _ => {
            reading.job = random.pick(&[0, 1, 2]);
            reading.feed = random.pick(&[0, 1, 2, 17]);
        }
    }
    reading
}
