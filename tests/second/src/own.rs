//! The model behind the C boundary's shapes: what every call should answer.

use crate::boundary::{
    Answer, Begun, Closed, Cursor, Desk, Feed, Job, Label, Library, Listed, Read, Reading, Reason,
    Share, Stepped, Stretch, Waved,
};
use crate::judge::{self, Found};
use crate::model::{self, Place, Refusal, Runner, NOT_A_WAVEFORM, NOT_IN_ORDER};
use crate::parts;

/// The state that these fixed tables hold; nothing if a count is above its limit, a
/// live job isn't in its place or an unused place isn't all zero, which is not in order.
pub fn read(desk: &Desk) -> Option<model::Desk> {
    let (all_feeds, all_jobs) = (&desk.feeds.feeds, &desk.table.jobs);
    let (feeds, free_feeds) = (
        all_feeds.get(..desk.feeds.count)?,
        &all_feeds[desk.feeds.count..],
    );
    let (jobs, free_jobs) = (
        all_jobs.get(..desk.table.count)?,
        &all_jobs[desk.table.count..],
    );
    let unused = free_feeds.iter().all(|feed| *feed == Feed::default())
        && free_jobs.iter().all(|job| *job == Job::default());
    let holds = unused && each_in_its_place(jobs);
    holds.then(|| model::Desk {
        clock: desk.clock,
        charge: desk.charge,
        feeds: feeds.iter().map(model_feed).collect(),
        jobs: as_they_may_have_come(jobs),
        share: (desk.share != Share::default()).then_some(model_share(desk.share)),
        previous: Some(desk.previous).filter(|previous| *previous != 0),
    })
}

fn model_share(Share { p, q }: Share) -> model::Share {
    model::Share { p, q }
}

/// What the table goes by: the earlier deadline first, then the lower number.
pub fn rank(job: &Job) -> (u64, u32) {
    (job.deadline, job.number)
}

/// Before each job stand just those that go before it, so that no two go alike.
fn each_in_its_place(jobs: &[Job]) -> bool {
    let before = |job: &Job| jobs.iter().filter(|other| rank(other) < rank(job)).count();
    (0..).zip(jobs).all(|(place, job)| before(job) == place)
}

/// The table does not tell in which order its jobs came, and no answer may turn on it:
/// so the model gets them in one that neither deadlines nor numbers give.
fn as_they_may_have_come(jobs: &[Job]) -> Vec<model::Job> {
    let mut jobs: Vec<model::Job> = jobs.iter().map(model_job).collect();
    jobs.sort_by_key(|job| job.number.wrapping_mul(0x9e37_79b1));
    jobs
}

fn model_feed(feed: &Feed) -> model::Feed {
    let Feed {
        period,
        work,
        offset,
        lead,
        owes,
    } = *feed;
    model::Feed {
        period,
        work,
        offset,
        lead,
        owes,
    }
}

fn model_job(job: &Job) -> model::Job {
    let Job {
        number,
        owed,
        deadline,
        figure,
    } = *job;
    model::Job {
        number,
        owed,
        deadline,
        figure,
    }
}

/// The fixed tables that hold this state, the jobs in the order of the table.
pub fn write(state: &model::Desk) -> Desk {
    let mut desk = Desk {
        clock: state.clock,
        charge: state.charge,
        previous: state.previous.unwrap_or(0),
        ..Desk::default()
    };
    if let Some(model::Share { p, q }) = state.share {
        desk.share = Share { p, q };
    }
    desk.feeds.count = state.feeds.len();
    for (place, feed) in desk.feeds.feeds.iter_mut().zip(&state.feeds) {
        let model::Feed {
            period,
            work,
            offset,
            lead,
            owes,
        } = *feed;
        *place = Feed {
            period,
            work,
            offset,
            lead,
            owes,
        };
    }
    desk.table.count = state.jobs.len();
    for (place, job) in desk.table.jobs.iter_mut().zip(&state.jobs) {
        let model::Job {
            number,
            owed,
            deadline,
            figure,
        } = *job;
        *place = Job {
            number,
            owed,
            deadline,
            figure,
        };
    }
    desk.table.jobs[..state.jobs.len()].sort_by_key(rank);
    desk
}

fn state_of(desk: &Desk) -> Result<model::Desk, Refusal> {
    read(desk).ok_or(NOT_IN_ORDER)
}

/// A refusal hands back the state as it was, every field of it.
fn answer(before: Desk, after: Result<model::Desk, Refusal>) -> Answer {
    match after {
        Ok(state) => Answer {
            desk: write(&state),
            refusal: 0,
        },
        Err(refusal) => Answer {
            desk: before,
            refusal,
        },
    }
}

fn kind_and_number(runner: Runner) -> (u32, u32) {
    match runner {
        Runner::Idle => (0, 0),
        Runner::Job(number) => (1, number),
        Runner::Feed(position) => (2, position),
    }
}

/// The state that these tables hold, if it is in order.
fn in_order(desk: &Desk) -> Result<model::Desk, Refusal> {
    state_of(desk).and_then(|state| match state.in_order() {
        true => Ok(state),
        false => Err(NOT_IN_ORDER),
    })
}

/// What was written goes to the front; the rest of the buffer is untouched.
pub fn waved(
    desk: Desk,
    cursor: Cursor,
    gone: Result<parts::Gone, Refusal>,
    buffer: &mut [u8],
) -> Waved {
    match gone {
        Ok(gone) => {
            buffer[..gone.bytes.len()].copy_from_slice(&gone.bytes);
            Waved {
                desk: write(&gone.desk),
                cursor: parts::write(Some(&gone.run)),
                refusal: 0,
                steps: gone.steps,
                bytes: gone.bytes.len(),
            }
        }
        Err(refusal) => Waved {
            desk,
            cursor,
            refusal,
            ..Waved::default()
        },
    }
}

pub fn closed(
    cursor: Cursor,
    left: Result<(Option<parts::Run>, Vec<u8>), Refusal>,
    buffer: &mut [u8],
) -> Closed {
    match left {
        Ok((run, bytes)) => {
            buffer[..bytes.len()].copy_from_slice(&bytes);
            Closed {
                cursor: parts::write(run.as_ref()),
                refusal: 0,
                bytes: bytes.len(),
            }
        }
        Err(refusal) => Closed {
            cursor,
            refusal,
            bytes: 0,
        },
    }
}

fn stretch_found(found: judge::Stretch, reading: Reading) -> Stretch {
    let (kind, number) = kind_and_number(found.runner());
    Stretch {
        reading,
        from: found.from,
        to: found.to,
        kind,
        number,
        ..Stretch::default()
    }
}

/// This program's own answers.
pub struct Own;

impl Library for Own {
    fn open(&self, list: &[u32], start: u64, charge: u32) -> Answer {
        answer(Desk::default(), model::open(list, start, charge))
    }

    fn open_shared(&self, list: &[u32], start: u64, charge: u32, share: Share) -> Answer {
        let opened = model::open_shared(list, start, charge, model_share(share));
        answer(Desk::default(), opened)
    }

    fn ask(&self, desk: Desk, number: u32, work: u32, lead: u32) -> Answer {
        answer(
            desk,
            state_of(&desk).and_then(|state| state.ask(number, work, lead)),
        )
    }

    fn ask_mesh(&self, desk: Desk, head: &[u8], size: u64, number: u32, lead: u32) -> Answer {
        answer(
            desk,
            state_of(&desk).and_then(|state| state.ask_mesh(head, size, number, lead)),
        )
    }

    fn ask_undated(&self, desk: Desk, number: u32, work: u32) -> Answer {
        answer(
            desk,
            state_of(&desk).and_then(|state| state.ask_undated(number, work)),
        )
    }

    fn why(&self, desk: Desk, number: u32, work: u32, lead: u32) -> Reason {
        let reason = match state_of(&desk) {
            Ok(state) => state.why(number, work, lead),
            Err(refusal) => model::Reason {
                refusal,
                ..model::Reason::default()
            },
        };
        let model::Reason {
            refusal,
            at,
            jobs,
            feeds,
            job,
            margin,
        } = reason;
        Reason {
            refusal,
            at,
            jobs,
            feeds,
            job,
            margin,
        }
    }

    fn step(&self, desk: Desk) -> Stepped {
        match state_of(&desk).and_then(|state| state.step()) {
            Ok((state, ran)) => {
                let (kind, number) = kind_and_number(ran.runner);
                Stepped {
                    desk: write(&state),
                    refusal: 0,
                    kind,
                    number,
                    owes: ran.owes,
                }
            }
            Err(refusal) => Stepped {
                desk,
                refusal,
                kind: 0,
                number: 0,
                owes: 0,
            },
        }
    }

    fn end(&self, desk: Desk, number: u32) -> Answer {
        answer(desk, state_of(&desk).and_then(|state| state.end(number)))
    }

    fn rest(&self, desk: Desk, position: u32) -> Answer {
        answer(desk, state_of(&desk).and_then(|state| state.rest(position)))
    }

    fn list(&self, desk: Desk, buffer: &mut [u64]) -> Listed {
        match state_of(&desk).and_then(|state| state.list(buffer)) {
            Ok(count) => Listed { refusal: 0, count },
            Err(refusal) => Listed { refusal, count: 0 },
        }
    }

    fn label(&self, desk: Desk, jobs: &[u8], feeds: &[u8]) -> Label {
        match read(&desk).map_or(Place::Empty, |state| state.label(jobs, feeds)) {
            Place::Empty => Label {
                list: 1,
                from: 0,
                length: 0,
            },
            Place::InJobLabels(from) => Label {
                list: 1,
                from,
                length: 8,
            },
            Place::InFeedLabels(from) => Label {
                list: 2,
                from,
                length: 8,
            },
        }
    }

    fn wave_begin(&self, desk: Desk) -> Begun {
        match in_order(&desk) {
            Ok(state) => Begun {
                cursor: parts::write(Some(&parts::Run::begin(state.clock))),
                refusal: 0,
            },
            Err(refusal) => Begun {
                cursor: Cursor::default(),
                refusal,
            },
        }
    }

    fn wave(&self, desk: Desk, cursor: Cursor, steps: u32, buffer: &mut [u8]) -> Waved {
        let gone = in_order(&desk).and_then(|state| {
            let run = parts::read(&cursor, state.clock)?;
            run.go_on(state, steps, buffer.len())
        });
        waved(desk, cursor, gone, buffer)
    }

    fn wave_close(&self, cursor: Cursor, buffer: &mut [u8]) -> Closed {
        let left = parts::read_to_close(&cursor).and_then(|run| match run {
            Some(run) => run.close(buffer.len()),
            None => Ok((None, Vec::new())),
        });
        closed(cursor, left, buffer)
    }

    fn wave_read(&self, text: &[u8]) -> Read {
        match judge::judge(text) {
            Ok(run) => Read {
                start: run.start,
                end: run.end(),
                stretches: run.stretches.len(),
                ..Read::default()
            },
            Err(line) => Read {
                refusal: NOT_A_WAVEFORM,
                line,
                ..Read::default()
            },
        }
    }

    fn wave_stretch(&self, text: &[u8], reading: Reading) -> Stretch {
        let refused = |refusal, line| Stretch {
            reading,
            refusal,
            line,
            ..Stretch::default()
        };
        match judge::stretch(text, reading) {
            Found::Stretch(found, reading) => stretch_found(found, reading),
            Found::End(reading) => Stretch {
                reading,
                from: reading.at,
                to: reading.at,
                ..Stretch::default()
            },
            Found::Wrong(line) => refused(NOT_A_WAVEFORM, line),
            Found::NotInOrder => refused(NOT_IN_ORDER, 0),
        }
    }
}
