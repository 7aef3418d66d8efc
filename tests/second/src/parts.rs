//! The writing of a waveform in parts: a run keeps the very lines that are still to be
//! written, and a step puts its own behind them.

use crate::boundary::Cursor;
use crate::model::{Desk, Instant, Refusal, Runner, BUFFER_TOO_SHORT, LAST_INSTANT, NOT_IN_ORDER};
use crate::wave::{wires, Line, Wires, HEADS};
use std::collections::VecDeque;

/// A run that is being written.
#[derive(Clone, Debug, PartialEq, Eq)]
pub struct Run {
    clock: Instant,
    /// The instant of the mark that is due, or was written last.
    since: Instant,
    /// Where the wires were in the last tick; nothing before the first.
    last: Option<Wires>,
    due: VecDeque<Line>,
}

/// A run that went on: the desk after the steps that were taken, and what was written.
#[derive(Clone, Debug, PartialEq, Eq)]
pub struct Gone {
    pub desk: Desk,
    pub run: Run,
    pub steps: u32,
    pub bytes: Vec<u8>,
}

impl Run {
    pub fn begin(clock: Instant) -> Run {
        let heads = (0..HEADS.len()).map(Line::Head);
        Run {
            clock,
            since: clock,
            last: None,
            due: heads.chain([Line::Mark(clock)]).collect(),
        }
    }

    /// Whom a tick went to: the first time both values, later a mark and those that are
    /// new.
    fn tell(&mut self, runner: Runner) {
        let now = wires(runner);
        let (job, feed) = (Line::Job(now.job), Line::Feed(now.feed));
        match self.last {
            None => self.due.extend([job, feed]),
            Some(before) if before == now => (),
            Some(before) => {
                self.since = self.clock;
                self.due.push_back(Line::Mark(self.clock));
                self.due.extend((before.job != now.job).then_some(job));
                self.due.extend((before.feed != now.feed).then_some(feed));
            }
        }
        self.last = Some(now);
        self.clock += 1;
    }

    /// Due lines as long as they fit into the room.
    fn write(&mut self, room: usize, bytes: &mut Vec<u8>) {
        while let Some(line) = self.due.front() {
            let written = line.written();
            if bytes.len() + written.len() > room {
                return;
            }
            bytes.extend(written);
            self.due.pop_front();
        }
    }

    /// Going on by at most so many steps: 11 where nothing was written and something is due.
    pub fn go_on(mut self, mut desk: Desk, most: u32, room: usize) -> Result<Gone, Refusal> {
        let mut bytes = Vec::new();
        let mut steps = 0;
        loop {
            self.write(room, &mut bytes);
            if !self.due.is_empty() || steps == most || !steps_on(&desk) {
                break;
            }
            self.tell(desk.tick().runner);
            steps += 1;
        }
        if bytes.is_empty() && !self.due.is_empty() {
            return Err(BUFFER_TOO_SHORT);
        }
        Ok(Gone {
            desk,
            run: self,
            steps,
            bytes,
        })
    }

    /// What is due, then the mark at the end, none where no step was taken. No run is left
    /// where all of it was written.
    pub fn close(mut self, room: usize) -> Result<(Option<Run>, Vec<u8>), Refusal> {
        let ran = self.last.is_some();
        if ran {
            self.due.push_back(Line::Mark(self.clock));
        }
        let mut bytes = Vec::new();
        self.write(room, &mut bytes);
        if self.due.is_empty() {
            return Ok((None, bytes));
        }
        if bytes.is_empty() {
            return Err(BUFFER_TOO_SHORT);
        }
        if ran {
            self.due.pop_back();
        }
        Ok((Some(self), bytes))
    }
}

/// Whether a step of a desk that was in order, or came from one by steps, is taken: nothing
/// but a job that is late gets it out of order.
fn steps_on(desk: &Desk) -> bool {
    desk.clock < LAST_INSTANT && desk.jobs.iter().all(|job| job.deadline > desk.clock)
}

// ---------------------------------------------------------------- the cursor

/// What these numbers say, whether or not they are in order.
pub fn as_it_says(cursor: &Cursor) -> Run {
    let last = Wires {
        job: cursor.number,
        feed: cursor.position,
    };
    let heads = (cursor.heads as usize..HEADS.len()).map(Line::Head);
    let mark = (cursor.mark != 0).then_some(Line::Mark(cursor.since));
    let job = (cursor.job != 0).then_some(Line::Job(cursor.number));
    let feed = (cursor.feed != 0).then_some(Line::Feed(cursor.position));
    Run {
        clock: cursor.clock,
        since: cursor.since,
        last: (cursor.ran != 0).then_some(last),
        due: heads.chain(mark).chain(job).chain(feed).collect(),
    }
}

/// The run of a cursor at the desk's clock: 13 where it is not in order there.
pub fn read(cursor: &Cursor, clock: Instant) -> Result<Run, Refusal> {
    match in_order(cursor, clock) {
        true => Ok(as_it_says(cursor)),
        false => Err(NOT_IN_ORDER),
    }
}

fn in_order(cursor: &Cursor, clock: Instant) -> bool {
    let run = as_it_says(cursor);
    let is_mark = |line: &Line| matches!(line, Line::Mark(_));
    let is_value = |line: &Line| matches!(line, Line::Job(_) | Line::Feed(_));
    let (mark, value) = (run.due.iter().any(is_mark), run.due.iter().any(is_value));
    let all_heads = cursor.heads == HEADS.len() as u32;
    if cursor.clock != clock || cursor.heads > HEADS.len() as u32 {
        return false;
    }
    match run.last {
        None => {
            let untouched = cursor.number == 0 && cursor.position == 0;
            cursor.since == clock && untouched && !value && (mark || all_heads)
        }
        Some(wires) => {
            let fresh = cursor.since.checked_add(1) == Some(clock);
            let named = wires.feed <= 16 && (wires.job == 0 || wires.feed == 0);
            all_heads
                && cursor.since < clock
                && named
                && (value || !mark)
                && (fresh || run.due.is_empty())
        }
    }
}

/// The numbers that tell of a run; those of no run are all zero.
pub fn write(run: Option<&Run>) -> Cursor {
    let run = match run {
        Some(run) => run,
        None => return Cursor::default(),
    };
    let Wires { job, feed } = run.last.unwrap_or_default();
    let due = |kind: fn(&Line) -> bool| run.due.iter().filter(|line| kind(line)).count() as u32;
    Cursor {
        since: run.since,
        clock: run.clock,
        number: job,
        position: feed,
        ran: run.last.is_some().into(),
        heads: HEADS.len() as u32 - due(|line| matches!(line, Line::Head(_))),
        mark: due(|line| matches!(line, Line::Mark(_))),
        job: due(|line| matches!(line, Line::Job(_))),
        feed: due(|line| matches!(line, Line::Feed(_))),
    }
}

/// The run of a cursor that is to be closed; nothing for the empty one, and 13 for any other
/// that is not in order at its own clock, or past the last instant.
pub fn read_to_close(cursor: &Cursor) -> Result<Option<Run>, Refusal> {
    if *cursor == Cursor::default() {
        return Ok(None);
    }
    if cursor.clock > LAST_INSTANT {
        return Err(NOT_IN_ORDER);
    }
    read(cursor, cursor.clock).map(Some)
}
