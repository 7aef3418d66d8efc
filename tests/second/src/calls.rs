//! Random calls, answered by this program and by a library, compared whole:
//! the answer, every field of the state handed back, every word of the buffers.

mod wave;

use crate::boundary::{
    Answer, Begun, Closed, Cursor, Desk, Feed, Job, Label, Library, Listed, Read, Reading, Reason,
    Share, Stepped, Stretch, Waved,
};
use crate::invent::{self, Mesh, Opening};
use crate::model::{
    self, BUFFER_TOO_SHORT, CHARGE_MOST, DOES_NOT_FIT, JOB_LENGTH_MOST, LAST_INSTANT,
};
use crate::own::{rank, read, write, Own};
use crate::random::Random;
use crate::texts::Text;
use crate::workers;
use std::cmp::Reverse;
use std::collections::BTreeMap;
use std::io;

pub use wave::compare_waves;

#[cfg(feature = "calls")]
pub fn linked(seed: u64, count: u64) -> io::Result<bool> {
    let compared = in_parts(&crate::boundary::Linked, seed, count);
    Ok(report(seed, compared))
}

#[cfg(not(feature = "calls"))]
pub fn linked(_seed: u64, _count: u64) -> io::Result<bool> {
    Err(crate::fault(
        "built without the feature `calls`, so there is no library to call",
    ))
}

/// How often each call gave each number.
pub type Tally = BTreeMap<(&'static str, u32), u64>;

fn report(seed: u64, outcome: Result<Tally, String>) -> bool {
    match outcome {
        Ok(tally) => {
            for ((call, refusal), times) in &tally {
                println!("{call:7} {refusal:2}: {times}");
            }
            let calls: u64 = tally.values().sum();
            println!("seed {seed}: {calls} calls compared, no difference");
            true
        }
        Err(difference) => {
            println!("difference: seed {seed}, {difference}");
            false
        }
    }
}

// ---------------------------------------------------------------- one call

#[derive(Clone, Debug)]
enum Call {
    Open(Opening),
    Ask {
        number: u32,
        work: u32,
        lead: u32,
    },
    AskMesh {
        mesh: Mesh,
        number: u32,
        lead: u32,
    },
    AskUndated {
        number: u32,
        work: u32,
    },
    Why {
        number: u32,
        work: u32,
        lead: u32,
    },
    Step,
    End {
        number: u32,
    },
    Rest {
        position: u32,
    },
    List {
        length: usize,
    },
    Label {
        jobs: Vec<u8>,
        feeds: Vec<u8>,
    },
    WaveBegin,
    Wave {
        cursor: Cursor,
        steps: u32,
        length: usize,
    },
    WaveClose {
        cursor: Cursor,
        length: usize,
    },
    WaveRead {
        text: Text,
    },
    WaveStretch {
        text: Text,
        reading: Reading,
    },
}

#[derive(Clone, Debug, PartialEq, Eq)]
enum Said {
    Answer(Answer),
    /// With the lent front, which must come back as it was.
    Mesh(Answer, Vec<u8>),
    Reason(Reason),
    Stepped(Stepped),
    /// With the lent buffer and the guard words behind it.
    Listed(Listed, Vec<u64>),
    /// With the lent lists, which must come back as they were.
    Label(Label, Vec<u8>, Vec<u8>),
    Begun(Begun),
    /// With the lent buffer and the guard bytes behind it.
    Waved(Waved, Vec<u8>),
    Closed(Closed, Vec<u8>),
    /// With the lent text, which must come back as it was.
    Read(Read, Vec<u8>),
    Stretch(Stretch, Vec<u8>),
}

const FRONT_MOST: usize = 100;
const LIST_MOST: usize = 4 * 64 + 5;
const JOB_LABELS_MOST: usize = 12 * 70 + 11;
const FEED_LABELS_MOST: usize = 8 * 17 + 7;
const WAVE_MOST: usize = 2_000;
const GUARD: usize = 16;

/// What the buffer holds before a list call: no two words alike.
fn unwritten() -> Vec<u64> {
    (1..=(LIST_MOST + GUARD) as u64)
        .map(|word| word.wrapping_mul(0xa076_1d64_78bd_642f))
        .collect()
}

/// And before part of a waveform: no byte of it stands in any text.
fn unwritten_bytes() -> Vec<u8> {
    (0..WAVE_MOST + GUARD)
        .map(|place| 0x80 | (place * 37) as u8)
        .collect()
}

fn make(library: &dyn Library, desk: Desk, call: &Call) -> Said {
    match call {
        Call::Open(opening) => {
            let Opening { start, charge, .. } = *opening;
            Said::Answer(match opening.share {
                Some(model::Share { p, q }) => {
                    library.open_shared(&opening.list, start, charge, Share { p, q })
                }
                None => library.open(&opening.list, start, charge),
            })
        }
        Call::Ask { number, work, lead } => Said::Answer(library.ask(desk, *number, *work, *lead)),
        Call::AskMesh { mesh, number, lead } => {
            let head = mesh.head.clone();
            let answer = library.ask_mesh(desk, &head, mesh.size, *number, *lead);
            Said::Mesh(answer, head)
        }
        Call::AskUndated { number, work } => {
            Said::Answer(library.ask_undated(desk, *number, *work))
        }
        Call::Why { number, work, lead } => Said::Reason(library.why(desk, *number, *work, *lead)),
        Call::Step => Said::Stepped(library.step(desk)),
        Call::End { number } => Said::Answer(library.end(desk, *number)),
        Call::Rest { position } => Said::Answer(library.rest(desk, *position)),
        Call::List { length } => {
            let mut buffer = unwritten();
            let listed = library.list(desk, &mut buffer[..*length]);
            Said::Listed(listed, buffer)
        }
        Call::Label { jobs, feeds } => {
            let (jobs, feeds) = (jobs.clone(), feeds.clone());
            let label = library.label(desk, &jobs, &feeds);
            Said::Label(label, jobs, feeds)
        }
        Call::WaveBegin => Said::Begun(library.wave_begin(desk)),
        call => make_of_a_wave(library, desk, call),
    }
}

fn make_of_a_wave(library: &dyn Library, desk: Desk, call: &Call) -> Said {
    let mut buffer = unwritten_bytes();
    match call {
        Call::Wave {
            cursor,
            steps,
            length,
        } => {
            let waved = library.wave(desk, *cursor, *steps, &mut buffer[..*length]);
            Said::Waved(waved, buffer)
        }
        Call::WaveClose { cursor, length } => {
            let closed = library.wave_close(*cursor, &mut buffer[..*length]);
            Said::Closed(closed, buffer)
        }
        Call::WaveRead { text } => {
            let Text(text) = text.clone();
            let read = library.wave_read(&text);
            Said::Read(read, text)
        }
        Call::WaveStretch { text, reading } => {
            let Text(text) = text.clone();
            let stretch = library.wave_stretch(&text, *reading);
            Said::Stretch(stretch, text)
        }
        _ => unreachable!("the other calls are made above"),
    }
}

fn name(call: &Call) -> &'static str {
    match call {
        Call::Open(Opening { share: None, .. }) => "open",
        Call::Open(_) => "shared",
        Call::Ask { .. } => "ask",
        Call::AskMesh { .. } => "mesh",
        Call::AskUndated { .. } => "undated",
        Call::Why { .. } => "why",
        Call::Step => "step",
        Call::End { .. } => "end",
        Call::Rest { .. } => "rest",
        Call::List { .. } => "list",
        Call::Label { .. } => "label",
        Call::WaveBegin => "begin",
        Call::Wave { .. } => "wave",
        Call::WaveClose { .. } => "close",
        Call::WaveRead { .. } => "read",
        Call::WaveStretch { .. } => "stretch",
    }
}

/// The number a call gave. Labels give none: 0 for the empty answer here, else
/// 101 or 102 by the list, so that the tally shows that each kind came.
fn refusal(said: &Said) -> u32 {
    match said {
        Said::Answer(answer) | Said::Mesh(answer, _) => answer.refusal,
        Said::Reason(reason) => reason.refusal,
        Said::Stepped(stepped) => stepped.refusal,
        Said::Listed(listed, _) => listed.refusal,
        Said::Label(Label { length: 0, .. }, ..) => 0,
        Said::Label(label, ..) => 100 + label.list,
        Said::Begun(begun) => begun.refusal,
        Said::Waved(waved, _) => waved.refusal,
        Said::Closed(closed, _) => closed.refusal,
        Said::Read(read, _) => read.refusal,
        Said::Stretch(stretch, _) => stretch.refusal,
    }
}

// ---------------------------------------------------------------- the walk

struct Walk<'a> {
    own: &'a dyn Library,
    library: &'a dyn Library,
    random: Random,
    tally: Tally,
    calls: u64,
    /// Lengths of buffers go round through all there are.
    lengths: usize,
    /// Lengths of fronts too, by themselves.
    fronts: usize,
}

/// Calls are made in parts of this many, each with random numbers of its own: so the
/// calls of a seed are the same ones however many parts are under way at once.
const PART: u64 = 5_000;

fn in_parts(library: &(dyn Library + Sync), seed: u64, count: u64) -> Result<Tally, String> {
    let parts = (count + PART - 1) / PART;
    let tallies = workers::each(parts as usize, |part| {
        let part = part as u64;
        let calls = PART.min(count - part * PART);
        let in_part = |difference| format!("part {part}\n{difference}");
        let others = compare(library, seed, part, calls).map_err(in_part)?;
        let waves = compare_waves(library, seed, part, calls).map_err(in_part)?;
        Ok::<_, String>([others, waves])
    })?;
    let mut all = Tally::new();
    for (answer, times) in tallies.into_iter().flatten().flatten() {
        *all.entry(answer).or_default() += times;
    }
    Ok(all)
}

/// At least this many calls of a part; an error tells the first difference.
pub fn compare(library: &dyn Library, seed: u64, part: u64, count: u64) -> Result<Tally, String> {
    let mut walk = Walk::new(&Own, library, seed, part);
    while walk.calls < count {
        if walk.random.chance(15) {
            walk.walk_with_undated_jobs_alone()?;
        } else {
            walk.walk_from_an_opening()?;
        }
    }
    Ok(walk.tally)
}

/// At least this many calls in which no job is taken but with no date, on both of these; an
/// error tells the first difference, or the first such ask that does not fit.
#[cfg(test)]
pub fn compare_undated_alone(
    own: &dyn Library,
    library: &dyn Library,
    seed: u64,
    count: u64,
) -> Result<Tally, String> {
    let mut walk = Walk::new(own, library, seed, 0);
    while walk.calls < count {
        walk.walk_with_undated_jobs_alone()?;
    }
    Ok(walk.tally)
}

impl<'a> Walk<'a> {
    fn new(own: &'a dyn Library, library: &'a dyn Library, seed: u64, part: u64) -> Walk<'a> {
        Walk {
            own,
            library,
            random: Random::of(seed, part),
            tally: Tally::new(),
            calls: 0,
            lengths: 0,
            fronts: 0,
        }
    }

    /// One call to both; hands back the state to go on from.
    fn call(&mut self, desk: Desk, call: Call) -> Result<Desk, String> {
        let said = self.tallied(desk, &call)?;
        Ok(state_after(desk, &said))
    }

    /// What both say to a call that counts.
    fn tallied(&mut self, desk: Desk, call: &Call) -> Result<Said, String> {
        let said = self.said(desk, call)?;
        *self.tally.entry((name(call), refusal(&said))).or_default() += 1;
        Ok(said)
    }

    /// What both say to a call.
    fn said(&mut self, desk: Desk, call: &Call) -> Result<Said, String> {
        let ours = make(self.own, desk, call);
        let theirs = make(self.library, desk, call);
        if ours != theirs {
            return Err(describe(&desk, call, &ours, &theirs));
        }
        self.calls += 1;
        Ok(ours)
    }

    fn walk_from_an_opening(&mut self) -> Result<(), String> {
        // Openings alone, as a walk is long and an opening has many refusals.
        for _ in 0..self.random.below(14) {
            let opening = some_opening(&mut self.random);
            self.call(Desk::default(), Call::Open(opening))?;
        }
        let opening = some_opening(&mut self.random);
        let refused = opening.open().is_err();
        let mut desk = self.call(Desk::default(), Call::Open(opening))?;
        if refused && self.random.chance(80) {
            return Ok(());
        }
        if self.random.chance(5) {
            desk = self.crowd(desk)?;
        }
        for _ in 0..self.random.between(5, 60) {
            desk = self.some_calls(desk)?;
            if self.random.chance(40) {
                self.on_a_damaged_copy(desk)?;
            }
            if self.random.chance(10) {
                self.on_an_overbooked_copy(desk)?;
            }
            if self.random.chance(15) {
                self.on_a_copy_with_other_figures(desk)?;
            }
            if self.random.chance(15) {
                self.on_a_copy_in_another_order(desk)?;
            }
            if self.random.chance(20) {
                self.on_a_copy_with_another_share(desk)?;
            }
            if self.random.chance(25) {
                self.meshes_on_an_empty_desk(desk.clock)?;
            }
            if self.random.chance(10) {
                self.reasons_on_a_moved_copy(desk)?;
            }
            if self.random.chance(6) {
                self.reasons_far_ahead(desk.clock)?;
            }
        }
        Ok(())
    }

    /// From an opening with a share that its feeds leave it, each layer due when the next one
    /// comes. Ends, rests, steps and refusals of every kind may stand between; but a job
    /// that has a lead of its own is taken nowhere, and so no ask with no date may get 6.
    fn walk_with_undated_jobs_alone(&mut self) -> Result<(), String> {
        let opening = invent::undated_opening(&mut self.random);
        let mut desk = self.call(Desk::default(), Call::Open(opening))?;
        // Now and then each with a number of its own, to fill the table.
        let crowds = self.random.chance(12);
        let turns = match crowds {
            true => 75,
            false => self.random.between(5, 100) as u32,
        };
        for turn in 0..turns {
            desk = match self.random.below(100) {
                _ if crowds && self.random.chance(95) => {
                    let (number, work) = (turn + 1, 1);
                    self.undated_alone(desk, Call::AskUndated { number, work })?
                }
                0..=44 => {
                    let call = self.some_undated(&to_ask_with(&desk));
                    self.undated_alone(desk, call)?
                }
                45..=69 => self.some_steps(desk)?,
                70..=74 => run_on(&mut self.random, desk),
                _ => {
                    let call = self.some_call(&desk);
                    if is_taken_with_its_own_lead(desk, &call) {
                        continue;
                    }
                    match call {
                        Call::AskUndated { .. } => self.undated_alone(desk, call)?,
                        _ => self.call(desk, call)?,
                    }
                }
            }
        }
        Ok(())
    }

    /// An ask with no date that may not get 6, whoever says it.
    fn undated_alone(&mut self, desk: Desk, call: Call) -> Result<Desk, String> {
        let said = self.said(desk, &call)?;
        if refusal(&said) == DOES_NOT_FIT {
            return Err(format!("no date, and 6\n{}", about(&desk, &call, &said)));
        }
        *self.tally.entry(("alone", refusal(&said))).or_default() += 1;
        Ok(state_after(desk, &said))
    }

    /// Many small jobs with long leads, to fill the table.
    fn crowd(&mut self, mut desk: Desk) -> Result<Desk, String> {
        for number in (0..70).map(|job| 100 + job * 7 % 71) {
            let work = self.random.between(1, 3) as u32;
            let lead = 60_000 + 1_000 * self.random.below(3) as u32;
            desk = self.call(desk, Call::Ask { number, work, lead })?;
        }
        Ok(desk)
    }

    fn some_steps(&mut self, mut desk: Desk) -> Result<Desk, String> {
        for _ in 0..self.random.pick(&[1, 2, 5, 12]) {
            let before = desk;
            desk = self.call(desk, Call::Step)?;
            if desk == before {
                break; // Refused: it would be again.
            }
        }
        Ok(desk)
    }

    /// A call on a state in order, or a short run of steps.
    fn some_calls(&mut self, desk: Desk) -> Result<Desk, String> {
        match self.random.below(100) {
            0..=24 => self.some_steps(desk),
            25..=29 => Ok(run_on(&mut self.random, desk)),
            _ => {
                let call = self.some_call(&desk);
                self.call(desk, call)
            }
        }
    }

    fn some_call(&mut self, desk: &Desk) -> Call {
        let state = to_ask_with(desk);
        let random = &mut self.random;
        match random.below(100) {
            0..=24 => {
                let (number, work, lead) = request(random, &state);
                Call::Ask { number, work, lead }
            }
            25..=34 => {
                let (number, work, lead) = request(random, &state);
                Call::Why { number, work, lead }
            }
            35..=44 => self.some_mesh(&state),
            45..=54 => Call::Step,
            55..=62 => Call::End {
                number: invent::live_or_not(random, &state),
            },
            63..=70 => Call::Rest {
                position: invent::position(random, &state),
            },
            71..=80 => self.some_list(&state),
            81..=88 => self.some_label(&state),
            _ => self.some_undated(&state),
        }
    }

    fn some_undated(&mut self, state: &model::Desk) -> Call {
        let random = &mut self.random;
        let number = invent::number(random, state);
        let work = invent::undated_work(random, state) as u32;
        Call::AskUndated { number, work }
    }

    fn some_mesh(&mut self, state: &model::Desk) -> Call {
        let lent = match self.random.below(100) {
            0..=19 => {
                self.fronts += 1;
                self.fronts % (FRONT_MOST + 1)
            }
            20..=24 => self.random.pick(&[0, 80, 83, 83, 85]),
            25..=59 => 84,
            _ => self.random.between(84, FRONT_MOST as u64) as usize,
        };
        let random = &mut self.random;
        let mesh = invent::mesh(random, lent);
        // Often with more than one thing wrong, as the order of refusals shows
        // nowhere else.
        let number = match random.below(8) {
            0 => 0,
            _ => invent::number(random, state),
        };
        let lead = match random.below(8) {
            0 => random.pick(&[0, 65_537, u64::from(u32::MAX)]),
            _ => invent::mesh_lead(random, state, number, &mesh),
        };
        Call::AskMesh {
            mesh,
            number,
            lead: lead as u32,
        }
    }

    fn some_list(&mut self, state: &model::Desk) -> Call {
        self.lengths += 1;
        let jobs = state.jobs.len();
        let length = match self.random.below(100) {
            0..=49 => self.lengths % (LIST_MOST + 1),
            // Enough for three numbers a job, and mostly not for four.
            50..=64 => 3 * jobs + self.random.index(jobs + 1),
            _ => (4 * jobs + self.random.index(4)).saturating_sub(2),
        };
        Call::List {
            length: length.min(LIST_MOST),
        }
    }

    fn some_label(&mut self, state: &model::Desk) -> Call {
        self.lengths += 1;
        let jobs_length = self.lengths % (JOB_LABELS_MOST + 1);
        let feeds_length = match self.random.below(2) {
            0 => self.random.index(FEED_LABELS_MOST + 1),
            _ => (8 * state.feeds.len() + self.random.index(18)).saturating_sub(9),
        };
        let jobs = job_labels(&mut self.random, state, jobs_length);
        let feeds = (0..feeds_length)
            .map(|_| self.random.next() as u8)
            .collect();
        Call::Label { jobs, feeds }
    }

    /// Where nothing is promised yet the work of every band finds room, the last
    /// one's without a charge only, so that each shows in what is taken.
    fn meshes_on_an_empty_desk(&mut self, clock: u64) -> Result<(), String> {
        let charge = match self.random.below(2) {
            0 => 0,
            _ => self.random.between(1, CHARGE_MOST),
        };
        let mut desk = Desk {
            clock,
            charge,
            ..Desk::default()
        };
        for _ in 0..self.random.between(1, 4) {
            let call = self.some_mesh(&to_ask_with(&desk));
            desk = self.call(desk, call)?;
        }
        Ok(())
    }

    /// With any share there is, and a previous deadline that mostly is of some moment to a
    /// job of a certain work, whatever else was promised.
    fn on_a_copy_with_another_share(&mut self, desk: Desk) -> Result<(), String> {
        let mut shared = desk;
        if self.random.chance(30) {
            overbook(&mut self.random, &mut shared);
        } else if self.random.chance(50) {
            move_on(&mut self.random, &mut shared);
        }
        let model::Share { p, q } = invent::share(&mut self.random);
        shared.share = Share { p, q };
        let state = to_ask_with(&shared);
        let work = self.random.pick(&[1, 2, 3, 9, 60, 1_000]);
        shared.previous = invent::another_previous(&mut self.random, &state, work);
        if self.random.chance(70) {
            let number = invent::number(&mut self.random, &state);
            let work = work as u32;
            shared = self.call(shared, Call::AskUndated { number, work })?;
        }
        if self.random.chance(30) {
            match self.random.below(3) {
                0 => another_previous(&mut self.random, &mut shared),
                _ => another_share(&mut self.random, &mut shared),
            }
        }
        for _ in 0..self.random.between(1, 5) {
            let call = match self.random.below(3) {
                0 => self.some_undated(&to_ask_with(&shared)),
                _ => self.some_call(&shared),
            };
            shared = self.call(shared, call)?;
        }
        Ok(())
    }

    /// At another instant, often so near the end that what decides lies past it,
    /// and with pieces that ran in part: then it is often a later piece that is
    /// the first to be late, or the one that comes nearest to it.
    fn reasons_on_a_moved_copy(&mut self, desk: Desk) -> Result<(), String> {
        let mut moved = desk;
        move_on(&mut self.random, &mut moved);
        let state = to_ask_with(&moved);
        let room = (LAST_INSTANT - state.clock).min(65_536);
        for _ in 0..self.random.between(1, 3) {
            let random = &mut self.random;
            let number = invent::number(random, &state);
            let lead = match random.below(4) {
                0 => invent::lead(random, &state),
                1 => room,
                _ => random.between(1, room.max(1)),
            };
            let work = invent::work(random, &state, number, lead) as u32;
            let lead = lead as u32;
            self.call(moved, Call::Why { number, work, lead })?;
        }
        Ok(())
    }

    /// One feed of the longest round that leaves little or nothing over until it is
    /// due, and the longest lead. If a piece is due shortly before that ends, it is
    /// the next one, a round later, that decides.
    fn reasons_far_ahead(&mut self, clock: u64) -> Result<(), String> {
        let random = &mut self.random;
        let clock = clock.min(LAST_INSTANT - 65_536);
        let clock = random.pick(&[clock, LAST_INSTANT - 65_536]);
        let due = clock + 65_536 - random.pick(&[0, 1, 1, 1, 2, 50, 5_000, 40_000]);
        let (period, charge) = (40_320, random.pick(&[0, 0, 1, 3, 16]));
        let lead = random.pick(&[period, period, period, 40_319, 30_000, 200]);
        let work = lead - charge - random.pick(&[0, 0, 0, 1, 100]);
        let mut feed = model::Feed {
            period,
            work,
            offset: (due + period - lead) % period,
            lead,
            owes: 0,
        };
        if may_owe(&feed, clock) && random.chance(25) {
            feed.owes = random.below(work + charge + 1);
        }
        let state = model::Desk {
            clock,
            charge,
            feeds: vec![feed],
            ..model::Desk::default()
        };
        debug_assert!(state.in_order());
        for _ in 0..self.random.between(1, 4) {
            let lead = self.random.pick(&[65_536, 65_536, 65_536, 65_535, 30_000]);
            let work = invent::work(&mut self.random, &state, 1, lead);
            let why = Call::Why {
                number: 1,
                work: work as u32,
                lead: lead as u32,
            };
            self.call(write(&state), why)?;
        }
        Ok(())
    }

    /// Out of order by one field, mostly: then every call says so.
    fn on_a_damaged_copy(&mut self, desk: Desk) -> Result<(), String> {
        let mut damaged = desk;
        damage(&mut self.random, &mut damaged);
        for _ in 0..self.random.between(1, 4) {
            let call = self.some_call(&damaged);
            self.call(damaged, call)?;
        }
        Ok(())
    }

    /// With more jobs than there is time for, many of them due together, and figures of
    /// which one or more mostly do not agree: then every call says so.
    fn on_a_copy_with_other_figures(&mut self, desk: Desk) -> Result<(), String> {
        let mut other = desk;
        overbook(&mut self.random, &mut other);
        another_figure(&mut self.random, &mut other);
        for _ in 0..self.random.between(1, 4) {
            let call = self.some_call(&other);
            self.call(other, call)?;
        }
        Ok(())
    }

    /// With more jobs than there is time for, many of them due together, and mostly not in
    /// the order of the table, their figures right all the same: then every call says so.
    fn on_a_copy_in_another_order(&mut self, desk: Desk) -> Result<(), String> {
        let mut other = desk;
        overbook(&mut self.random, &mut other);
        another_order(&mut self.random, &mut other);
        for _ in 0..self.random.between(1, 4) {
            let call = self.some_call(&other);
            self.call(other, call)?;
        }
        Ok(())
    }

    /// In order but with too much to do: asks get 6, steps go on until a job is
    /// late and the state out of order.
    fn on_an_overbooked_copy(&mut self, desk: Desk) -> Result<(), String> {
        let mut booked = desk;
        overbook(&mut self.random, &mut booked);
        for _ in 0..self.random.between(3, 20) {
            booked = self.some_calls(booked)?;
            if self.random.chance(10) {
                self.on_a_damaged_copy(booked)?;
            }
            let in_order = read(&booked).map_or(false, |state| state.in_order());
            if !in_order && self.random.chance(50) {
                break;
            }
        }
        Ok(())
    }
}

/// An opening that mostly passes, else often with more than one thing wrong, as the
/// order of refusals shows nowhere else.
fn some_opening(random: &mut Random) -> Opening {
    let mut opening = match random.below(2) {
        0 => invent::opening(random),
        _ => invent::shared_opening(random),
    };
    if random.chance(15) {
        spoil_list(random, &mut opening.list);
    }
    if random.chance(3) {
        opening.start = random.next();
    }
    if opening.open().is_err() && random.chance(30) {
        opening.charge = random.pick(&invent::CHARGES_TOO_HIGH);
    }
    if opening.share.is_some() && opening.open().is_err() && random.chance(50) {
        opening.share = Some(invent::no_share(random));
    }
    opening
}

/// The state that arguments are made for: where one is not in order any will do.
fn to_ask_with(desk: &Desk) -> model::Desk {
    read(desk)
        .filter(|state| state.in_order())
        .unwrap_or_default()
}

/// A number, a work and a lead to ask with.
fn request(random: &mut Random, state: &model::Desk) -> (u32, u32, u32) {
    let number = invent::number(random, state);
    let lead = invent::lead(random, state);
    let work = invent::work(random, state, number, lead);
    (number, work as u32, lead as u32)
}

/// Many ticks at once, by the model alone, to get far from the opening.
fn run_on(random: &mut Random, desk: Desk) -> Desk {
    let mut state = match read(&desk).filter(|state| state.in_order()) {
        Some(state) => state,
        None => return desk,
    };
    let ticks = random.below(3_000).min(LAST_INSTANT - state.clock);
    for _ in 0..ticks {
        state.tick();
    }
    write(&state)
}

fn spoil_list(random: &mut Random, list: &mut Vec<u32>) {
    match random.below(11) {
        0 => list.extend((0..random.between(1, 8)).map(|_| 1)),
        1 => {
            let any = random.index(80);
            list.resize(random.pick(&[any, 51, 64, 65, 67, 68, 68, 72]), 1);
        }
        2 => list.truncate(random.index(list.len() + 1)),
        // More feeds than there are places.
        10 => list.resize(random.pick(&[68, 72, 256]), 1),
        _ if list.is_empty() => list.push(4),
        // More work than the period has ticks.
        3 if list.len() % 4 == 0 => {
            let feed = 4 * random.index(list.len() / 4);
            list[feed + 1] = list[feed] + 1;
        }
        // A period that makes the round too long.
        9 if list.len() % 4 == 0 => list.extend([40_319, 1, 0, 40_319]),
        // A deadline length at or over its limits.
        4..=6 if list.len() % 4 == 0 => {
            let feed = 4 * random.index(list.len() / 4);
            let period = list[feed];
            list[feed + 3] = random.pick(&[0, 1, period, period + 1, period + 1, u32::MAX]);
        }
        _ => {
            let place = random.index(list.len());
            list[place] =
                random.pick(&[0, 1, 2, 40_319, 40_320, 40_321, 65_536, u32::MAX, 1 << 31]);
        }
    }
}

/// Records for the runner, for other jobs and for none, cut to the length.
fn job_labels(random: &mut Random, state: &model::Desk, length: usize) -> Vec<u8> {
    let first = state
        .jobs
        .iter()
        .min_by_key(|job| (job.deadline, job.number));
    let often = random.pick(&[0, 2, 5, 50]);
    let mut labels = Vec::new();
    while labels.len() < length {
        let number = match first {
            Some(job) if random.chance(often) => job.number,
            Some(job) if random.chance(10) => job.number.swap_bytes(),
            _ if random.chance(30) => random.next() as u32,
            _ if state.jobs.is_empty() => 0,
            _ => {
                let other = state.jobs[random.index(state.jobs.len())].number;
                if first.map_or(false, |job| job.number == other) {
                    0
                } else {
                    other
                }
            }
        };
        labels.extend(number.to_be_bytes());
        labels.extend(random.next().to_be_bytes());
    }
    labels.truncate(length);
    labels
}

// ---------------------------------------------------------------- states made by hand

/// Whether a piece of the feed may owe at this instant: it can have come, and its
/// deadline is not over.
fn may_owe(feed: &model::Feed, clock: u64) -> bool {
    feed.due(clock).map_or(false, |due| due > clock)
}

/// Keeps the state in order, but promises more than there is time for.
fn overbook(random: &mut Random, desk: &mut Desk) {
    let mut state = match read(desk).filter(|state| state.in_order()) {
        Some(state) => state,
        None => return,
    };
    if random.chance(40) {
        shortly_before_a_deadline(random, &mut state);
    }
    let clock = state.clock;
    for feed in &mut state.feeds {
        if may_owe(feed, clock) && random.chance(30) {
            feed.owes = random.below(feed.charged_work(state.charge) + 1);
        }
    }
    if clock < LAST_INSTANT {
        overbook_jobs(random, &mut state);
    }
    debug_assert!(state.in_order());
    *desk = write(&state);
}

fn overbook_jobs(random: &mut Random, state: &mut model::Desk) {
    let clock = state.clock;
    let room = (LAST_INSTANT - clock).min(65_536);
    let most = JOB_LENGTH_MOST + state.charge;
    let near = random.pick(&[1, 5, 30, 300, 65_536]).min(room);
    for job in &mut state.jobs {
        if random.chance(40) {
            job.deadline = clock + random.between(1, near);
        }
        if random.chance(20) {
            job.owed = random.pick(&[1, 2, 10, 65_536, most]);
        }
    }
    for _ in 0..random.pick(&[0, 1, 1, 3, 10, 100]) {
        let mut job = model::Job {
            number: random.between(1, 300) as u32,
            owed: random.pick(&[1, 1, 2, 3, 10, 1_000, 65_536, most]),
            deadline: clock + random.between(1, near),
            figure: 0,
        };
        if !state.jobs.is_empty() && random.chance(30) {
            // Due together with another.
            job.deadline = state.jobs[random.index(state.jobs.len())].deadline;
        }
        let known = state.jobs.iter().any(|other| other.number == job.number);
        if !known && state.jobs.len() < 64 {
            state.jobs.push(job);
        }
    }
    if random.chance(5) {
        // As much as figures can be of so many.
        state.jobs.iter_mut().for_each(|job| job.owed = most);
    }
    state.add_up();
}

/// At an instant just before a piece is due, which owes as much as can be: with jobs
/// due no later it is late, mostly before the next one comes.
fn shortly_before_a_deadline(random: &mut Random, state: &mut model::Desk) {
    if state.feeds.is_empty() {
        return;
    }
    let place = random.index(state.feeds.len());
    let left = random.between(1, state.feeds[place].lead.min(4));
    let clock = state.feeds[place].next_due(state.clock) - left;
    if (state.clock..=LAST_INSTANT).contains(&clock) {
        move_to(random, state, clock);
        state.feeds[place].owes = state.feeds[place].charged_work(state.charge);
    }
}

/// The same feeds at another instant, their current pieces having run in part, and
/// the jobs that find their place there.
fn move_to(random: &mut Random, state: &mut model::Desk, clock: u64) {
    for feed in &mut state.feeds {
        let whole = feed.charged_work(state.charge);
        feed.owes = match random.below(4) {
            _ if !may_owe(feed, clock) => 0,
            0 => 0,
            1 => whole,
            _ => random.below(whole + 1),
        };
    }
    for job in &mut state.jobs {
        job.deadline = job.deadline - state.clock + clock;
    }
    state.jobs.retain(|job| job.deadline <= LAST_INSTANT);
    state.add_up();
    state.clock = clock;
}

/// So that what decides lies far on, or past the last instant.
fn move_on(random: &mut Random, desk: &mut Desk) {
    let mut state = match read(desk).filter(|state| state.in_order()) {
        Some(state) => state,
        None => return,
    };
    let longest = state.feeds.iter().map(|feed| feed.period).max();
    let clock = match random.below(4) {
        0 => state.clock,
        1 => LAST_INSTANT - random.below(60),
        2 => LAST_INSTANT - random.below(2 * longest.unwrap_or(9)),
        _ => LAST_INSTANT - random.between(65_000, 65_600),
    };
    move_to(random, &mut state, clock);
    if random.chance(50) {
        state.jobs.clear();
    }
    debug_assert!(state.in_order());
    *desk = write(&state);
}

/// One thing wrong; sometimes one field set to a value just inside its limits.
fn damage(random: &mut Random, desk: &mut Desk) {
    match random.below(30) {
        0 => desk.feeds.count = random.pick(&[17, 18, 256, usize::MAX, desk.feeds.count + 1]),
        1 => desk.table.count = random.pick(&[65, 66, 256, usize::MAX, desk.table.count + 1]),
        2 => number_twice(random, desk),
        3 => piece_before_its_offset(random, desk),
        4 => clock_at_or_past_the_end(random, desk),
        5 => feeds_that_would_not_pass(random, desk),
        6 => {
            // Garbage behind the live ones.
            let job =
                &mut desk.table.jobs[random.between(desk.table.count.min(63) as u64, 63) as usize];
            set_job(job, random.below(4), 1);
        }
        7 => {
            let feed =
                &mut desk.feeds.feeds[random.between(desk.feeds.count.min(15) as u64, 15) as usize];
            set_feed(feed, random.below(5), 1);
        }
        8..=9 => another_charge(random, desk),
        10..=11 => owing_all_or_more(random, desk),
        12..=13 => another_lead(random, desk),
        14..=15 => at_a_deadline(random, desk),
        16..=17 => another_figure(random, desk),
        18..=19 => owing_past_all_numbers(random, desk),
        20..=21 => another_order(random, desk),
        22..=24 => another_share(random, desk),
        25 => another_previous(random, desk),
        _ => one_field(random, desk),
    }
}

/// Makes the figures agree with what is owed, whether or not that is in order. A sum
/// that is too high for 64 bits goes round.
pub fn add_up(desk: &mut Desk) {
    let count = desk.table.count.min(64);
    let figures = figures_by(Rule::DueNoLater, &desk.table.jobs[..count]);
    for (job, figure) in desk.table.jobs.iter_mut().zip(figures) {
        job.figure = figure;
    }
}

/// Puts every live job in its place, and makes the figures agree.
pub fn settle(desk: &mut Desk) {
    let count = desk.table.count.min(64);
    desk.table.jobs[..count].sort_by_key(rank);
    add_up(desk);
}

/// What a job's figure adds up: the document's rule, and others.
#[derive(Clone, Copy, Debug, PartialEq, Eq)]
pub enum Rule {
    DueNoLater,
    /// Those before it in the table, and itself.
    UpToItsPlace,
    /// Those due earlier, and itself.
    DueEarlier,
    DueNoEarlier,
    WithoutItself,
    ItselfAlone,
    All,
}

/// The likelier ones twice.
const OTHER_RULES: [Rule; 8] = [
    Rule::UpToItsPlace,
    Rule::UpToItsPlace,
    Rule::DueEarlier,
    Rule::DueEarlier,
    Rule::DueNoEarlier,
    Rule::WithoutItself,
    Rule::ItselfAlone,
    Rule::All,
];

/// The figures of these jobs by this rule.
pub fn figures_by(rule: Rule, jobs: &[Job]) -> Vec<u64> {
    let counts = |place: usize, other: usize| {
        let (job, by, itself) = (&jobs[place], &jobs[other], place == other);
        match rule {
            Rule::DueNoLater => by.deadline <= job.deadline,
            Rule::UpToItsPlace => other <= place,
            Rule::DueEarlier => by.deadline < job.deadline || itself,
            Rule::DueNoEarlier => by.deadline >= job.deadline,
            Rule::WithoutItself => by.deadline <= job.deadline && !itself,
            Rule::ItselfAlone => itself,
            Rule::All => true,
        }
    };
    let figure = |place| {
        let counted = (0..jobs.len()).filter(|other| counts(place, *other));
        counted.fold(0, |sum: u64, other| sum.wrapping_add(jobs[other].owed))
    };
    (0..jobs.len()).map(figure).collect()
}

/// A figure that mostly does not agree, or more of them.
fn another_figure(random: &mut Random, desk: &mut Desk) {
    let count = desk.table.count.min(64);
    if count == 0 || random.chance(5) {
        let unused = random.between(count.min(63) as u64, 63) as usize;
        desk.table.jobs[unused].figure = random.pick(&[1, 1, 65_536, 1 << 63, u64::MAX]);
        return;
    }
    let jobs = &mut desk.table.jobs[..count];
    let (place, other) = (random.index(count), random.index(count));
    let figure = jobs[place].figure;
    jobs[place].figure = match random.below(10) {
        0 => figure.wrapping_add(1),
        1 => figure.wrapping_sub(1),
        2 => 0,
        3 => jobs[other].figure,
        // Alike in the low bits.
        4 => figure ^ random.pick(&[1 << 32, 1 << 63, 1 << 31, 1 << 16]),
        5 => random.pick(&[1 << 63, u64::MAX, u64::MAX - 1, 1 << 32, 64 * 65_552]),
        // One or all by another rule.
        6..=7 => figures_by(random.pick(&OTHER_RULES), jobs)[place],
        8 => {
            let figures = figures_by(random.pick(&OTHER_RULES), jobs);
            for (job, figure) in jobs.iter_mut().zip(&figures) {
                job.figure = *figure;
            }
            figures[place]
        }
        // Two that are off by as much.
        _ => {
            jobs[other].figure = jobs[other].figure.wrapping_sub(1);
            jobs[place].figure.wrapping_add(1)
        }
    };
}

/// Jobs that owe so much that their sums, gone round, are as low as they should be:
/// what is owed has to be bounded before it is added up.
fn owing_past_all_numbers(random: &mut Random, desk: &mut Desk) {
    let count = desk.table.count.min(64);
    if count == 0 {
        return one_field(random, desk);
    }
    let (place, other) = (random.index(count), random.index(count));
    let some = random.between(1, 9);
    let jobs = &mut desk.table.jobs;
    jobs[place].owed = random.pick(&[u64::MAX, 0u64.wrapping_sub(some), (1 << 63) + some]);
    if random.chance(70) {
        jobs[other].deadline = jobs[place].deadline;
        jobs[other].owed = 0u64.wrapping_sub(jobs[place].owed) + some;
    }
    settle(desk);
}

/// The jobs mostly not in the order of the table, some of them with other deadlines or
/// numbers; the figures agree, so that nothing else is wrong.
fn another_order(random: &mut Random, desk: &mut Desk) {
    let count = desk.table.count.min(64);
    if count < 2 {
        return;
    }
    let jobs = &mut desk.table.jobs[..count];
    let (any, last) = (random.index(count - 1), count - 1);
    let place = random.pick(&[any, any, 0, last - 1]);
    match random.below(23) {
        // Two neighbours exchanged, due together or not.
        0..=2 => jobs.swap(place, place + 1),
        3..=6 => {
            due_together(jobs, place);
            jobs.swap(place, place + 1);
        }
        // One put elsewhere: the last first, the first last, or any.
        7 => jobs.rotate_right(1),
        8 => jobs.rotate_left(1),
        9 => jobs[place..].rotate_left(1),
        10 => jobs[..place + 2].rotate_right(1),
        // Two alike in deadline and number.
        11..=12 => {
            due_together(jobs, place);
            jobs[place + 1].number = jobs[place].number;
            jobs.sort_by_key(rank);
        }
        // A number twice, each job in its place all the same unless they are due together.
        13..=14 => {
            due_together(jobs, place);
            jobs[place].number = jobs[random.index(count)].number;
            jobs.sort_by_key(rank);
        }
        // All of them: as they may have come, the other way round, or by another rule.
        15..=16 => invent::shuffle(random, jobs),
        17 => jobs.reverse(),
        18 => jobs.sort_by_key(|job| (job.deadline, Reverse(job.number))),
        19 => jobs.sort_by_key(|job| job.number),
        20 => jobs.sort_by_key(|job| (job.owed, job.deadline, job.number)),
        // In order after all.
        _ => due_together(jobs, place),
    }
    add_up(desk);
}

/// The job behind this place becomes due with the one there. What falls due at each
/// place stays as it was but for that one, so that the two that stand there are due
/// together.
fn due_together(jobs: &mut [Job], place: usize) {
    jobs[place + 1].deadline = jobs[place].deadline;
    jobs.sort_by_key(rank);
}

/// A deadline length outside its limits, or about as short as line 10 allows; now and
/// then under one tick more of charge, so that this alone is too much. What is owed
/// goes, so that nothing else is wrong.
fn another_lead(random: &mut Random, desk: &mut Desk) {
    let state = match read(desk).filter(|state| state.in_order() && !state.feeds.is_empty()) {
        Some(state) => state,
        None => return one_field(random, desk),
    };
    let place = random.index(state.feeds.len());
    let period = state.feeds[place].period;
    let shortest = invent::shortest_lead(&state.feeds, place, state.charge).unwrap_or(period);
    for feed in &mut desk.feeds.feeds {
        feed.owes = 0;
    }
    desk.feeds.feeds[place].lead = match random.below(11) {
        0..=1 => 0,
        2 => period + 1,
        3 => random.pick(&[40_320, 40_321, 1 << 32, 1 << 63, u64::MAX]),
        4 => random.between(1, period),
        5..=7 => shortest - 1,
        _ => shortest,
    };
    if random.chance(30) && desk.charge < CHARGE_MOST {
        desk.charge += 1;
    }
}

/// At a piece's deadline, or a tick before or after it, the piece owing all the same:
/// out of order from the deadline on, unless that is when the next one comes.
fn at_a_deadline(random: &mut Random, desk: &mut Desk) {
    let mut state = match read(desk).filter(|state| state.in_order() && !state.feeds.is_empty()) {
        Some(state) => state,
        None => return one_field(random, desk),
    };
    let place = random.index(state.feeds.len());
    let clock = state.feeds[place].next_due(state.clock) + random.pick(&[0, 0, 1, 2]) - 1;
    if clock > LAST_INSTANT {
        return one_field(random, desk);
    }
    move_to(random, &mut state, clock);
    let whole = state.feeds[place].charged_work(state.charge);
    state.feeds[place].owes = random.pick(&[1, whole]);
    *desk = write(&state);
}

/// A share that is none, or one at its limits; mostly with no previous deadline that would
/// be wrong too.
fn another_share(random: &mut Random, desk: &mut Desk) {
    let model::Share { p, q } = match random.below(4) {
        0..=2 => invent::no_share(random),
        _ => invent::share(random),
    };
    desk.share = match random.below(8) {
        // One of the two alone.
        0 => Share { p, ..desk.share },
        1 => Share { q, ..desk.share },
        // Alike in the low bits.
        2 => Share {
            q: desk.share.q ^ random.pick(&[1 << 16, 1 << 31, 1 << 10]),
            ..desk.share
        },
        _ => Share { p, q },
    };
}

/// A previous deadline at its limit or above it, beside a share or none.
fn another_previous(random: &mut Random, desk: &mut Desk) {
    if random.chance(40) {
        desk.share = Share::default();
    }
    let far = [1 << 41, 1 << 63, u64::MAX, LAST_INSTANT + 65_536];
    desk.previous = match random.below(6) {
        0 => LAST_INSTANT,
        1..=3 => LAST_INSTANT + 1,
        4 => random.pick(&far),
        _ => desk.clock,
    };
}

/// The charge alone is another one: with it the feeds may no longer pass, and what
/// jobs and pieces owe may be too much.
fn another_charge(random: &mut Random, desk: &mut Desk) {
    desk.charge = match random.below(9) {
        0 => CHARGE_MOST + 1,
        1..=2 => random.pick(&[18, 32, 1 << 32, 1 << 63, u64::MAX, u64::MAX - 65_536]),
        3 => desk.charge.saturating_sub(1),
        4..=5 => desk.charge + 1,
        _ => random.between(0, CHARGE_MOST),
    };
}

/// A job or a piece that owes all it can, or one tick more, under this charge or
/// the lowest or highest.
fn owing_all_or_more(random: &mut Random, desk: &mut Desk) {
    desk.charge = random.pick(&[desk.charge, desk.charge, 0, CHARGE_MOST]);
    let more = desk.charge + random.below(2);
    let (feeds, jobs) = (desk.feeds.count.min(16), desk.table.count.min(64));
    if jobs > 0 && random.chance(50) {
        desk.table.jobs[random.index(jobs)].owed = JOB_LENGTH_MOST + more;
        settle_mostly(random, desk);
    } else if feeds > 0 {
        let feed = &mut desk.feeds.feeds[random.index(feeds)];
        feed.owes = feed.work + more;
    }
}

/// After a change of what a job owes, by when or under which number: else its place or
/// the figures would be wrong too, and hide what is.
fn settle_mostly(random: &mut Random, desk: &mut Desk) {
    if random.chance(80) {
        settle(desk);
    }
}

/// Often a later job's, so that each stands in its place all the same.
fn number_twice(random: &mut Random, desk: &mut Desk) {
    let count = desk.table.count;
    if (2..=64).contains(&count) {
        desk.table.jobs[count - 1].number = desk.table.jobs[0].number;
        settle_mostly(random, desk);
    } else if count == 1 && desk.table.jobs[0].deadline > desk.clock {
        desk.table.jobs[1] = desk.table.jobs[0];
        desk.table.count = 2;
        if desk.table.jobs[0].deadline - desk.clock > 1 && random.chance(50) {
            desk.table.jobs[0].deadline -= 1;
        }
        add_up(desk);
    }
}

/// Goes back before an offset, where nothing can have come.
fn piece_before_its_offset(random: &mut Random, desk: &mut Desk) {
    let count = desk.feeds.count.min(16);
    let place = match (0..count).find(|&place| desk.feeds.feeds[place].offset > 0) {
        Some(place) => place,
        None => return one_field(random, desk),
    };
    desk.table = Default::default();
    desk.clock = random.below(desk.feeds.feeds[place].offset);
    for feed in &mut desk.feeds.feeds[..count] {
        feed.owes = 0;
    }
    // Mostly the one wrong thing, else a state that is in order after all.
    desk.feeds.feeds[place].owes = random.pick(&[0, 1, 1, 1]);
}

fn clock_at_or_past_the_end(random: &mut Random, desk: &mut Desk) {
    desk.table = Default::default();
    desk.clock = random.pick(&[LAST_INSTANT, LAST_INSTANT + 1, u64::MAX, LAST_INSTANT - 1]);
}

fn feeds_that_would_not_pass(random: &mut Random, desk: &mut Desk) {
    let count = desk.feeds.count.min(16);
    if count == 0 {
        desk.feeds.count = 1;
        desk.feeds.feeds[0] = Feed {
            period: 40_321,
            work: 1,
            offset: 0,
            lead: 1,
            owes: 0,
        };
        return;
    }
    let feed = &mut desk.feeds.feeds[random.index(count)];
    match random.below(6) {
        0 => feed.period = random.pick(&[0, 40_319, 40_321, u64::MAX, 1 << 32, 1 << 40]),
        1 => feed.work = random.pick(&[0, 40_320, 40_321, u64::MAX, 1 << 32]),
        2 => feed.offset = feed.period + random.below(2),
        3 => feed.work = feed.period,
        4 => feed.work += 1,
        _ => feed.owes = feed.work + desk.charge + random.pick(&[0, 1, 1, u64::MAX / 2]),
    }
}

/// A value at which some field of this state is about to matter.
fn value_at_a_limit(random: &mut Random, desk: &Desk) -> u64 {
    let (clock, charge) = (desk.clock, desk.charge);
    let other = desk.table.jobs[random.index(64)].number.into();
    random.pick(&[
        0,
        1,
        clock,
        clock.wrapping_add(1),
        clock.wrapping_sub(1),
        clock.wrapping_add(65_536),
        clock.wrapping_add(65_537),
        LAST_INSTANT,
        LAST_INSTANT + 1,
        40_320,
        40_321,
        65_536,
        65_537,
        65_536 + charge,
        65_537 + charge,
        u64::MAX,
        u64::MAX - 1,
        1 << 32,
        1_000,
        1_001,
        other,
    ])
}

/// Any one field, set to such a value.
fn one_field(random: &mut Random, desk: &mut Desk) {
    let value = value_at_a_limit(random, desk);
    match random.below(12) {
        0 => desk.clock = value,
        1 => desk.feeds.count = (value % 20) as usize,
        2 => desk.table.count = (value % 70) as usize,
        3 => desk.charge = value,
        4 => desk.share.p = value as u32,
        5 => desk.share.q = value as u32,
        6 => desk.previous = value,
        7..=8 => {
            let among = desk.feeds.count.clamp(1, 16);
            let feed = &mut desk.feeds.feeds[random.index(among)];
            set_feed(feed, random.below(5), value);
        }
        _ => {
            let among = desk.table.count.clamp(1, 64);
            let field = random.below(4);
            set_job(&mut desk.table.jobs[random.index(among)], field, value);
            if field < 3 {
                settle_mostly(random, desk);
            }
        }
    }
}

fn set_feed(feed: &mut Feed, field: u64, value: u64) {
    match field {
        0 => feed.period = value,
        1 => feed.work = value,
        2 => feed.offset = value,
        3 => feed.lead = value,
        _ => feed.owes = value,
    }
}

fn set_job(job: &mut Job, field: u64, value: u64) {
    match field {
        0 => job.number = value as u32,
        1 => job.owed = value,
        2 => job.deadline = value,
        _ => job.figure = value,
    }
}

fn is_taken_with_its_own_lead(desk: Desk, call: &Call) -> bool {
    matches!(call, Call::Ask { .. } | Call::AskMesh { .. }) && refusal(&make(&Own, desk, call)) == 0
}

/// The state to go on from after a call on this one.
fn state_after(desk: Desk, said: &Said) -> Desk {
    match said {
        Said::Answer(answer) | Said::Mesh(answer, _) => answer.desk,
        Said::Stepped(stepped) => stepped.desk,
        Said::Waved(waved, _) => waved.desk,
        _ => desk,
    }
}

// ---------------------------------------------------------------- telling a difference

fn describe(desk: &Desk, call: &Call, ours: &Said, theirs: &Said) -> String {
    format!(
        "{}\n--- the library\n{}",
        about(desk, call, ours),
        tell(theirs)
    )
}

fn about(desk: &Desk, call: &Call, said: &Said) -> String {
    format!(
        "--- state\n{}\n--- call\n{call:?}\n--- this program\n{}",
        short(desk),
        tell(said)
    )
}

/// A state without the long tail of places that are all zero.
fn short(desk: &Desk) -> String {
    let mut lines = vec![format!(
        "clock {}, charge {}, {} feeds, {} jobs, share {}/{}, previous {}",
        desk.clock,
        desk.charge,
        desk.feeds.count,
        desk.table.count,
        desk.share.p,
        desk.share.q,
        desk.previous
    )];
    for (position, feed) in (1..).zip(&desk.feeds.feeds) {
        if *feed != Feed::default() || position <= desk.feeds.count {
            lines.push(format!("  at {position}: {feed:?}"));
        }
    }
    for (place, job) in (1..).zip(&desk.table.jobs) {
        if *job != Job::default() || place <= desk.table.count {
            lines.push(format!("  at {place}: {job:?}"));
        }
    }
    lines.join("\n")
}

fn tell(said: &Said) -> String {
    match said {
        Said::Answer(answer) | Said::Mesh(answer, _) => {
            format!("refusal {}\n{}", answer.refusal, short(&answer.desk))
        }
        Said::Reason(reason) => format!("{reason:?}"),
        Said::Stepped(Stepped {
            desk,
            refusal,
            kind,
            number,
            owes,
        }) => format!(
            "refusal {refusal}, kind {kind}, number {number}, owes {owes}\n{}",
            short(desk)
        ),
        Said::Listed(listed, buffer) => {
            let fresh = unwritten();
            let written: Vec<(usize, &u64)> = buffer
                .iter()
                .enumerate()
                .filter(|(place, word)| fresh[*place] != **word)
                .collect();
            format!("{listed:?}, words written {written:?}")
        }
        Said::Label(label, ..) => format!("{label:?}"),
        Said::Begun(begun) => format!("{begun:?}"),
        Said::Waved(waved, buffer) => tell_waved(waved, buffer),
        Said::Closed(closed, buffer) => format!("{closed:?}\n{}", tell_bytes(buffer)),
        Said::Read(read, _) => format!("{read:?}"),
        Said::Stretch(stretch, _) => format!("{stretch:?}"),
    }
}

fn tell_waved(waved: &Waved, buffer: &[u8]) -> String {
    let Waved {
        desk,
        cursor,
        refusal,
        steps,
        bytes,
    } = waved;
    format!(
        "refusal {refusal}, steps {steps}, bytes {bytes}, {cursor:?}\n{}\n{}",
        short(desk),
        tell_bytes(buffer)
    )
}

/// The bytes of a buffer up to the last that was written.
fn tell_bytes(buffer: &[u8]) -> String {
    let fresh = unwritten_bytes();
    let mut pairs = buffer.iter().zip(&fresh);
    let last = pairs.rposition(|(byte, before)| byte != before);
    let written = &buffer[..last.map_or(0, |last| last + 1)];
    format!("written: {:?}", Text(written.to_vec()))
}
