//! Why a request does not fit, or how near it comes to that, by adding up: every
//! instant after the clock in its turn, and each piece of work when its deadline
//! comes. Nothing is rehearsed, so that this and `ahead` are two ways to know
//! line 6.
//!
//! # How far is enough
//!
//! The margin at an instant D is the time until D less what is owed by D. Let M
//! be an instant after the clock, at or after every job's deadline (the new one's
//! too) and every feed's next release, and R the round. A deadline after M is
//! that of a whole piece: it was released at the feed's next release or later, as
//! the piece before is due by then. In any R instants that follow on each other a
//! feed with period T has R/T deadlines, so from D to D + R, where D is M or later,
//! exactly R/T whole pieces of each feed are added, together at most R by line 10
//! for a stretch of R, while the time until then grows by R. So the margin at D + R
//! is never below that at D.
//!
//! - If some instant at or after M + R is overbooked, so is the one a round
//!   before it: the first overbooked one comes before M + R.
//! - If some instant at or after M + R has the smallest margin, the one a round
//!   before it has it too: the first that has it comes before M + R.
//!
//! A deadline of a job lies at most 65,536 after the clock, a next release at
//! most 40,320 after it, and no round is above 40,320. So 65,536 + 40,320
//! instants are enough whatever the state; this program goes through one longest
//! round more. What instants these are plays no part: they may lie past the
//! clock's last, where feeds go on as before.

use crate::model::{
    Desk, Feed, Instant, Job, Length, Reason, DOES_NOT_FIT, JOB_LENGTH_MOST, ROUND_MOST,
};

/// So many instants after the clock are gone through.
pub const FAR_ENOUGH: usize = (JOB_LENGTH_MOST + 2 * ROUND_MOST) as usize;

/// What is owed by an instant (all that is due at or before it) and by whom, and
/// the margin there: the time until then less all of it.
#[derive(Clone, Copy, Debug, PartialEq, Eq)]
pub struct Owed {
    pub at: Instant,
    pub jobs: Length,
    pub feeds: Length,
    pub job: Length,
    pub margin: i64,
}

/// A feed as its pieces fall due.
struct Stream {
    period: Length,
    charged_work: Length,
    /// The next instant at which a piece of it falls due.
    due: Instant,
    /// What that piece owes: first the current one where its deadline is still to
    /// come, then whole ones.
    owes: Length,
}

/// The instants after the clock without end, the new job among what is owed.
pub struct Instants {
    now: Owed,
    /// The live jobs, latest deadline first, so that the next is at the back.
    jobs: Vec<Job>,
    streams: Vec<Stream>,
    /// The new job's deadline and what it owes.
    new: (Instant, Length),
    /// The next instant at which anything falls due.
    soonest: Instant,
}

impl Instants {
    /// With a new job that owes this much within this lead.
    pub fn after_the_clock(desk: &Desk, owes: Length, lead: Length) -> Instants {
        let stream = |feed: &Feed| {
            let charged_work = feed.charged_work(desk.charge);
            let due = feed.next_due(desk.clock);
            let is_current = feed.due(desk.clock) == Some(due);
            Stream {
                period: feed.period,
                charged_work,
                due,
                owes: if is_current { feed.owes } else { charged_work },
            }
        };
        let mut jobs = desk.jobs.clone();
        jobs.sort_by_key(|job| std::cmp::Reverse(job.deadline));
        let mut instants = Instants {
            now: Owed {
                at: desk.clock,
                jobs: 0,
                feeds: 0,
                job: 0,
                margin: 0,
            },
            jobs,
            streams: desk.feeds.iter().map(stream).collect(),
            new: (desk.clock + lead, owes),
            soonest: desk.clock,
        };
        instants.fall_due();
        instants
    }

    /// On to the next instant at which something falls due, at most to this one;
    /// until there the margin grows by one a tick.
    pub fn leap(&mut self, most: Instant) -> Owed {
        let at = self.soonest.min(most);
        self.now.margin += (at - self.now.at) as i64;
        self.now.at = at;
        if at == self.soonest {
            self.fall_due();
        }
        self.now
    }

    /// Adds what is due at this very instant (at the clock nothing is), and looks
    /// for the next at which something will be.
    fn fall_due(&mut self) {
        let now = &mut self.now;
        let (mut jobs, mut feeds, mut job) = (0, 0, 0);
        self.soonest = Instant::MAX;
        while self.jobs.last().map_or(false, |job| job.deadline == now.at) {
            jobs += self.jobs.pop().map_or(0, |job| job.owed);
        }
        if let Some(job) = self.jobs.last() {
            self.soonest = job.deadline;
        }
        for stream in &mut self.streams {
            if stream.due == now.at {
                feeds += stream.owes;
                stream.owes = stream.charged_work;
                stream.due += stream.period;
            }
            self.soonest = self.soonest.min(stream.due);
        }
        let (deadline, owes) = self.new;
        if deadline == now.at {
            job += owes;
        } else if deadline > now.at {
            self.soonest = self.soonest.min(deadline);
        }
        now.jobs += jobs;
        now.feeds += feeds;
        now.job += job;
        now.margin -= (jobs + feeds + job) as i64;
    }
}

impl Iterator for Instants {
    type Item = Owed;

    fn next(&mut self) -> Option<Owed> {
        self.now.at += 1;
        self.now.margin += 1;
        if self.now.at == self.soonest {
            self.fall_due();
        }
        Some(self.now)
    }
}

/// The reason for a request that passed every line before 6. The new job owes its
/// work and the charge.
pub fn reason(desk: &Desk, work: Length, lead: Length) -> Reason {
    let (mut at, mut margin) = (desk.clock, i64::MAX);
    for owed in Instants::after_the_clock(desk, work + desk.charge, lead).take(FAR_ENOUGH) {
        if owed.margin < 0 {
            return Reason {
                refusal: DOES_NOT_FIT,
                at: owed.at,
                jobs: owed.jobs,
                feeds: owed.feeds,
                job: owed.job,
                margin: owed.margin,
            };
        }
        // The first of equal ones stays.
        if owed.margin < margin {
            (at, margin) = (owed.at, owed.margin);
        }
    }
    Reason {
        at,
        margin,
        ..Reason::default()
    }
}
