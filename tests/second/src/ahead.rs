//! Line 6, by rehearsing: run the step rule ahead from the state with the
//! requested job in it and watch whether anything is ever late. Nothing that is
//! owed is added up.
//!
//! A job comes here with the charge in what it owes, and a piece gets it when it
//! comes. It is never paid again at a switch: to what follows the charge is work
//! like any other.
//!
//! # Why the step rule decides
//!
//! If the rehearsal is never late, its own choice of ticks serves every F, so
//! the request fits. Now let it be late, first at the instant D. Call work with
//! its deadline at or before D *early*, and let s be the last instant before D
//! at which no early work is waiting (before releases at s), or the clock t if
//! there is none. From s to D every tick goes to early work.
//!
//! - If s is not t, all that early work came at s or later. Jobs are all there
//!   at t, so it is pieces of feeds only, which come and are due inside s to D. No
//!   feed has more of those than one that is released at s, and the feeds passed
//!   line 10 for a stretch of D-s, so together they owe at most D-s: and D-s ticks
//!   were given to them and to nothing else, so none is late. This can't be.
//! - So s is t: from t to D every tick went to early work and it was not enough.
//!   No other choice of ticks has more than all of them: F = D fails.
//!
//! # How far is enough
//!
//! Let M be an instant at or after every job's deadline and every feed's next
//! release, and R the round. A first lateness at D > M + R can't be: by the
//! above every tick from t to D goes to early work, and more is owed by D than
//! D-t. Go back one round, to D-R, which is still at or after M. A current piece is
//! due at its feed's next release at the latest, so the work whose deadline lies
//! after D-R and not after D is, for each feed, exactly R/T whole pieces, which
//! together owe at most R by line 10 for a stretch of R. So more is owed by D-R
//! than D-t-R, and something was late at D-R or before, against D being first.
//! So M + R is enough; this program goes to M + 2R.
//!
//! And once nothing at all waits at an instant s, no job is left, and by the
//! first case nothing is late ever after. This program does not lean on that
//! alone: it goes on for one whole round more and then stops.

use crate::model::{round_of, Desk, Feed, Instant, Job, Length};

/// A feed in rehearsal.
struct Stream {
    period: Length,
    charged_work: Length,
    lead: Length,
    owes: Length,
    /// The current piece's deadline; any instant while none has come.
    due: Instant,
    /// The next one.
    release: Instant,
}

struct Rehearsal {
    now: Instant,
    /// The stop; it may come nearer when the backlog has emptied.
    stop: Instant,
    round: Length,
    emptied: bool,
    streams: Vec<Stream>,
    /// Latest deadline first, so that the next to run is at the back.
    jobs: Vec<Job>,
}

/// Whether the step rule, from this state on, is never late. The feeds must
/// have passed the opening's lines and the deadlines must lie after the clock.
pub fn never_late(desk: &Desk) -> bool {
    Rehearsal::new(desk).run()
}

/// The instant M of the comment above.
fn settled(desk: &Desk) -> Instant {
    let deadlines = desk.jobs.iter().map(|job| job.deadline);
    let releases = desk.feeds.iter().map(|feed| feed.next_release(desk.clock));
    deadlines.chain(releases).max().unwrap_or(desk.clock)
}

/// Far enough: M + 2R. Also used by the slow rehearsal of the tests.
pub fn far_enough(desk: &Desk) -> Instant {
    let round = round_of(&desk.feeds).expect("the feeds passed the opening");
    settled(desk) + 2 * round
}

/// Of work that was served until now and still owes this much: unfinished at its
/// deadline is late too.
fn in_time(now: Instant, owes: Length, deadline: Instant) -> bool {
    now < deadline || (now == deadline && owes == 0)
}

impl Rehearsal {
    fn new(desk: &Desk) -> Rehearsal {
        let stream = |feed: &Feed| Stream {
            period: feed.period,
            charged_work: feed.charged_work(desk.charge),
            lead: feed.lead,
            owes: feed.owes,
            due: feed.due(desk.clock).unwrap_or(desk.clock),
            release: feed.next_release(desk.clock),
        };
        let mut jobs = desk.jobs.clone();
        jobs.sort_by_key(|job| std::cmp::Reverse((job.deadline, job.number)));
        Rehearsal {
            now: desk.clock,
            stop: far_enough(desk),
            round: round_of(&desk.feeds).expect("the feeds passed the opening"),
            emptied: false,
            streams: desk.feeds.iter().map(stream).collect(),
            jobs,
        }
    }

    fn run(&mut self) -> bool {
        while self.now <= self.stop {
            if !self.release() {
                return false;
            }
            if !self.run_until_something_happens() {
                return false;
            }
        }
        true
    }

    /// Pieces of this instant come; false if one of them finds its forerunner
    /// unfinished, which is then late.
    fn release(&mut self) -> bool {
        for stream in &mut self.streams {
            if stream.release == self.now {
                if stream.owes > 0 {
                    return false;
                }
                stream.owes = stream.charged_work;
                stream.due = stream.release + stream.lead;
                stream.release += stream.period;
            }
        }
        true
    }

    /// Serve the work that the step rule names, for as many ticks as it stays
    /// named: to its end, or to the next release of any feed. False if it is
    /// late. Only the served work need be looked at: the rest is no earlier, and
    /// what is late and waits is named before all that is not.
    fn run_until_something_happens(&mut self) -> bool {
        let next = self
            .streams
            .iter()
            .map(|s| s.release)
            .min()
            .unwrap_or(Instant::MAX);
        let first = (0..self.streams.len())
            .filter(|&place| self.streams[place].owes > 0)
            .min_by_key(|&place| (self.streams[place].due, place));
        let job_deadline = self.jobs.last().map_or(Instant::MAX, |job| job.deadline);
        match first {
            Some(place) if self.streams[place].due < job_deadline => {
                let stream = &mut self.streams[place];
                let ticks = stream.owes.min(next - self.now);
                stream.owes -= ticks;
                self.now += ticks;
                in_time(self.now, stream.owes, stream.due)
            }
            _ if job_deadline < Instant::MAX => self.run_job(next),
            _ => {
                self.idle(next);
                true
            }
        }
    }

    fn run_job(&mut self, next: Instant) -> bool {
        let job = self
            .jobs
            .last_mut()
            .expect("a job has the earliest deadline");
        let ticks = job.owed.min(next - self.now);
        job.owed -= ticks;
        self.now += ticks;
        let in_time = in_time(self.now, job.owed, job.deadline);
        if job.owed == 0 {
            self.jobs.pop();
        }
        in_time
    }

    fn idle(&mut self, next: Instant) {
        if !self.emptied {
            self.emptied = true;
            self.stop = self.stop.min(self.now + self.round);
        }
        self.now = next;
    }
}
