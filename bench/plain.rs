//! A plain hand-written desk for comparison: the same checks of the state and the same walk back from the far end, as one
//! writes them in Rust without proofs. It works on a borrowed state and copies nothing.

use crate::desk::{Desk, Feed, Job, Share};
use crate::desk::{HIGHEST_CHARGE, HIGHEST_Q, LAST_INSTANT, LONGEST_LEAD, LONGEST_PERIOD, LONGEST_ROUND, LONGEST_WORK};
use crate::desk::{MOST_FEEDS, MOST_JOBS, NUMBERS_A_JOB};

fn gcd(a: u64, b: u64) -> u64 {
    if b == 0 { a } else { gcd(b, a % b) }
}

fn since(feed: &Feed, clock: u64) -> u64 {
    (clock + feed.period - feed.offset) % feed.period
}

fn next_release(feed: &Feed, clock: u64) -> u64 {
    clock + feed.period - since(feed, clock)
}

/// When the current piece is due; one has come.
fn due(feed: &Feed, clock: u64) -> u64 {
    clock - since(feed, clock) + feed.lead
}

fn feeds_of(desk: &Desk) -> &[Feed] {
    &desk.feeds.feeds[..desk.feeds.count]
}

fn jobs_of(desk: &Desk) -> &[Job] {
    &desk.table.jobs[..desk.table.count]
}

/// The round, or nothing where it is above its limit.
fn round_of(feeds: &[Feed]) -> Option<u64> {
    let mut round = 1;
    for feed in feeds {
        round = round / gcd(round, feed.period) * feed.period;
        if round > LONGEST_ROUND {
            return None;
        }
    }
    Some(round)
}

fn feed_within(feed: &Feed) -> bool {
    (1..=LONGEST_PERIOD).contains(&feed.period)
        && (1..=LONGEST_PERIOD).contains(&feed.work)
        && feed.offset < feed.period
        && (1..=feed.period).contains(&feed.lead)
}

/// What the pieces want that come and are due within so many ticks, of feeds released together.
fn demand(feeds: &[Feed], charge: u64, stretch: u64) -> u64 {
    feeds.iter().map(|feed| (stretch + feed.period - feed.lead) / feed.period * (feed.work + charge)).sum()
}

/// Whether no stretch has fewer ticks than are wanted in it. Where every piece is due when the next one comes, the round
/// decides. Else down from the round: where no more is wanted than there is, nor is it in any stretch down to that length.
fn bears(feeds: &[Feed], charge: u64, round: u64) -> bool {
    if feeds.iter().all(|feed| feed.lead == feed.period) {
        return demand(feeds, charge, round) <= round;
    }
    let mut stretch = round;
    while stretch > 0 {
        let wanted = demand(feeds, charge, stretch);
        if wanted > stretch {
            return false;
        }
        stretch = wanted.min(stretch - 1);
    }
    true
}

fn feeds_in_order(desk: &Desk) -> bool {
    if desk.feeds.count > MOST_FEEDS {
        return false;
    }
    let feeds = feeds_of(desk);
    if !feeds.iter().all(feed_within) {
        return false;
    }
    let round = match round_of(feeds) {
        Some(round) => round,
        None => return false,
    };
    let empty = |feed: &Feed| *feed == Feed::default();
    let current = |feed: &Feed| feed.offset <= desk.clock && since(feed, desk.clock) < feed.lead;
    let piece = |feed: &Feed| feed.owes <= feed.work + desk.charge && (feed.owes == 0 || current(feed));
    bears(feeds, desk.charge, round)
        && desk.feeds.feeds[desk.feeds.count..].iter().all(empty)
        && feeds.iter().all(piece)
}

fn jobs_in_order(desk: &Desk) -> bool {
    if desk.table.count > MOST_JOBS {
        return false;
    }
    let jobs = jobs_of(desk);
    let within = |job: &Job| {
        job.number != 0
            && (1..=LONGEST_WORK + desk.charge).contains(&job.owed)
            && job.deadline > desk.clock
            && job.deadline - desk.clock <= LONGEST_LEAD
            && job.deadline <= LAST_INSTANT
    };
    let empty = |job: &Job| *job == Job::default();
    jobs.iter().all(within)
        && jobs.iter().enumerate().all(|(i, job)| jobs[i + 1..].iter().all(|other| other.number != job.number))
        && jobs.windows(2).all(|pair| rank(&pair[0]) < rank(&pair[1]))
        && figures_agree(jobs)
        && desk.table.jobs[desk.table.count..].iter().all(empty)
}

/// The order of the table.
fn rank(job: &Job) -> (u64, u32) {
    (job.deadline, job.number)
}

/// Of jobs in the order of the table: the last of those due together shows all that has been added up, and they the same.
fn figures_agree(jobs: &[Job]) -> bool {
    let mut sum = 0;
    jobs.iter().enumerate().all(|(i, job)| {
        sum += job.owed;
        match jobs.get(i + 1) {
            Some(next) if next.deadline == job.deadline => next.figure == job.figure,
            _ => job.figure == sum,
        }
    })
}

/// A share, or none at all.
fn share_in_order(share: &Share) -> bool {
    *share == Share::default() || (1..=share.q).contains(&share.p) && share.q <= HIGHEST_Q
}

fn in_order(desk: &Desk) -> bool {
    desk.clock <= LAST_INSTANT
        && desk.charge <= HIGHEST_CHARGE
        && share_in_order(&desk.share)
        && desk.previous <= LAST_INSTANT
        && feeds_in_order(desk)
        && jobs_in_order(desk)
}

/// What the live jobs due by an instant owe together: what the last of them shows.
fn jobs_owe(desk: &Desk, by: u64) -> u64 {
    let jobs = jobs_of(desk);
    let due = jobs.partition_point(|job| job.deadline <= by);
    if due == 0 { 0 } else { jobs[due - 1].figure }
}

fn owed_by(desk: &Desk, by: u64) -> u64 {
    let feeds: u64 = feeds_of(desk)
        .iter()
        .map(|feed| {
            let current = if feed.owes > 0 && due(feed, desk.clock) <= by { feed.owes } else { 0 };
            let first = next_release(feed, desk.clock) + feed.lead;
            let later = if by < first { 0 } else { (by - first) / feed.period + 1 };
            current + (feed.work + desk.charge) * later
        })
        .sum();
    jobs_owe(desk, by) + feeds
}

/// Whether one job more fits.
fn fits(desk: &Desk, new: &Job) -> bool {
    let jobs = jobs_of(desk).last().map_or(0, |job| job.deadline).max(new.deadline);
    let feeds = feeds_of(desk).iter().map(|feed| next_release(feed, desk.clock)).max().unwrap_or(0);
    let round = match round_of(feeds_of(desk)) {
        Some(round) => round,
        None => return false,
    };
    let horizon = desk.clock.max(jobs).max(feeds) + round;
    let mut end = horizon;
    while desk.clock + 1 < end {
        let owed = owed_by(desk, end - 1) + if new.deadline < end { new.owed } else { 0 };
        if end - 1 - desk.clock < owed {
            return false;
        }
        end = desk.clock + owed;
    }
    true
}

pub fn ask(desk: &mut Desk, number: u32, work: u32, lead: u32) -> u32 {
    if !in_order(desk) {
        return 13;
    }
    asked(desk, number, work.into(), lead.into())
}

pub fn ask_undated(desk: &mut Desk, number: u32, work: u32) -> u32 {
    if !in_order(desk) {
        return 13;
    }
    if number == 0 {
        return 1;
    }
    if desk.share == Share::default() {
        return 19;
    }
    let (p, q, work) = (u64::from(desk.share.p), u64::from(desk.share.q), u64::from(work));
    let deadline = desk.clock.max(desk.previous) + ((work + desk.charge) * q + p - 1) / p;
    let refusal = asked(desk, number, work, deadline - desk.clock);
    if refusal == 0 {
        desk.previous = deadline;
    }
    refusal
}

/// An ask of a state in order.
fn asked(desk: &mut Desk, number: u32, work: u64, lead: u64) -> u32 {
    if number == 0 {
        return 1;
    }
    if !(1..=LONGEST_WORK).contains(&work) || !(1..=LONGEST_LEAD).contains(&lead) {
        return 2;
    }
    if desk.clock + lead > LAST_INSTANT {
        return 3;
    }
    if jobs_of(desk).iter().any(|job| job.number == number) {
        return 4;
    }
    if desk.table.count == MOST_JOBS {
        return 5;
    }
    let (owed, deadline) = (work + desk.charge, desk.clock + lead);
    let new = Job { number, owed, deadline, figure: jobs_owe(desk, deadline) + owed };
    if !fits(desk, &new) {
        return 6;
    }
    for job in due_from(desk, deadline) {
        job.figure += owed;
    }
    let at = jobs_of(desk).partition_point(|job| rank(job) < rank(&new));
    desk.table.jobs.copy_within(at..desk.table.count, at + 1);
    desk.table.jobs[at] = new;
    desk.table.count += 1;
    0
}

/// The live jobs due no earlier.
fn due_from(desk: &mut Desk, deadline: u64) -> &mut [Job] {
    let count = desk.table.count;
    let first = jobs_of(desk).partition_point(|job| job.deadline < deadline);
    &mut desk.table.jobs[first..count]
}

/// So many ticks of the job there are owed no more; those due no earlier show so many fewer, and it leaves with its last.
fn less(desk: &mut Desk, at: usize, ticks: u64) {
    let count = desk.table.count;
    for job in due_from(desk, desk.table.jobs[at].deadline) {
        job.figure -= ticks;
    }
    desk.table.jobs[at].owed -= ticks;
    if desk.table.jobs[at].owed == 0 {
        desk.table.jobs.copy_within(at + 1..count, at);
        desk.table.jobs[count - 1] = Job::default();
        desk.table.count = count - 1;
    }
}

pub fn end(desk: &mut Desk, number: u32) -> u32 {
    if !in_order(desk) {
        return 13;
    }
    let at = match jobs_of(desk).iter().position(|job| job.number == number) {
        Some(at) => at,
        None => return 7,
    };
    less(desk, at, desk.table.jobs[at].owed);
    0
}

/// A step of any state: the refusal, and whom the tick went to.
pub fn step(desk: &mut Desk) -> (u32, u32, u32) {
    if !in_order(desk) {
        return (13, 0, 0);
    }
    if desk.clock == LAST_INSTANT {
        return (3, 0, 0);
    }
    tick(desk)
}

/// The refusal, and the count of the live jobs, which stand in the front of the buffer by four numbers each.
pub fn list(desk: &Desk, buffer: &mut [u64]) -> (u32, u32) {
    if !in_order(desk) {
        return (13, 0);
    }
    let jobs = jobs_of(desk);
    if buffer.len() < NUMBERS_A_JOB * jobs.len() {
        return (11, 0);
    }
    for (four, job) in buffer.chunks_exact_mut(NUMBERS_A_JOB).zip(jobs) {
        four.copy_from_slice(&[job.number.into(), job.owed, job.deadline, job.figure]);
    }
    (0, jobs.len() as u32)
}

/// A tick of a state in order, not at the clock's end. Kind 0 is idle, 1 a job by number, 2 a feed by position.
pub fn tick(desk: &mut Desk) -> (u32, u32, u32) {
    let job = jobs_of(desk).first().map(|job| (job.deadline, job.number));
    let clock = desk.clock;
    let feed = feeds_of(desk)
        .iter()
        .enumerate()
        .filter(|(_, feed)| feed.owes > 0)
        .map(|(i, feed)| (due(feed, clock), i))
        .min();
    let named = match (job, feed) {
        (Some((due, number)), other) if other.map_or(true, |(d, _)| due <= d) => {
            less(desk, 0, 1);
            (0, 1, number)
        }
        (_, Some((_, at))) => {
            desk.feeds.feeds[at].owes -= 1;
            (0, 2, at as u32 + 1)
        }
        _ => (0, 0, 0),
    };
    desk.clock += 1;
    let (clock, charge, count) = (desk.clock, desk.charge, desk.feeds.count);
    for feed in &mut desk.feeds.feeds[..count] {
        match since(feed, clock) {
            0 => feed.owes = feed.work + charge,
            late if late >= feed.lead => feed.owes = 0,
            _ => (),
        }
    }
    named
}
