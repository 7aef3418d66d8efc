//! A plain model of the desk, in the document's words and nothing cleverer.
//!
//! Every call follows the document's order of refusals. The hard questions are
//! not answered here: whether a request fits (see `ahead`), and where it fails or
//! comes nearest to failing (see `reason`).

use crate::{ahead, mesh, reason};

/// A reading of the clock, or a deadline.
pub type Instant = u64;
/// A work, a period, a lead or deadline length, a charge.
pub type Length = u64;

pub const LAST_INSTANT: Instant = 1 << 40;
pub const JOB_LENGTH_MOST: Length = 65_536;
pub const JOBS_MOST: usize = 64;
pub const FEEDS_MOST: usize = 16;
pub const FEED_LENGTH_MOST: Length = 40_320;
pub const ROUND_MOST: Length = 40_320;
pub const CHARGE_MOST: Length = 16;
pub const Q_MOST: u32 = 1_000;

/// The document's numbers, table "What each number says", and those of the
/// requests that came after it.
pub type Refusal = u32;
pub const NUMBER_ZERO: Refusal = 1;
pub const OUTSIDE_LIMITS: Refusal = 2;
pub const PAST_LAST_INSTANT: Refusal = 3;
pub const NUMBER_LIVE: Refusal = 4;
pub const TABLE_FULL: Refusal = 5;
pub const DOES_NOT_FIT: Refusal = 6;
pub const NO_SUCH: Refusal = 7;
pub const TOO_MANY_FEEDS: Refusal = 8;
pub const ROUND_TOO_LONG: Refusal = 9;
pub const LOAD_TOO_HIGH: Refusal = 10;
pub const BUFFER_TOO_SHORT: Refusal = 11;
pub const LIST_NOT_IN_FOURS: Refusal = 12;
pub const NOT_IN_ORDER: Refusal = 13;
pub const FRONT_TOO_SHORT: Refusal = 15;
pub const LENGTH_DISAGREES: Refusal = 16;
pub const NO_TRIANGLES: Refusal = 17;
pub const CHARGE_TOO_HIGH: Refusal = 18;
pub const NO_SHARE: Refusal = 19;
pub const NOT_A_WAVEFORM: Refusal = 20;

#[derive(Clone, Copy, Debug, PartialEq, Eq)]
pub struct Feed {
    pub period: Length,
    /// Without the charge, as it was lent.
    pub work: Length,
    pub offset: Length,
    /// How many ticks after it came a piece is due.
    pub lead: Length,
    /// What the current piece still owes; 0 also while none has come, and from its
    /// deadline on.
    pub owes: Length,
}

#[derive(Clone, Copy, Debug, PartialEq, Eq)]
pub struct Job {
    pub number: u32,
    pub owed: Length,
    pub deadline: Instant,
    /// What all live jobs due no later still owe together, itself included.
    pub figure: Length,
}

/// What part of the processor exports with no date may count on: p of every q ticks.
#[derive(Clone, Copy, Debug, PartialEq, Eq)]
pub struct Share {
    pub p: u32,
    pub q: u32,
}

/// The desk's state. Jobs stand in the order in which they came, and nothing looks for
/// one by its place: the order of the table is the boundary's (see `own`).
#[derive(Clone, Debug, PartialEq, Eq, Default)]
pub struct Desk {
    pub clock: Instant,
    /// What each job and each piece owes beside its work, once.
    pub charge: Length,
    pub feeds: Vec<Feed>,
    pub jobs: Vec<Job>,
    /// Nothing where the opening carried none.
    pub share: Option<Share>,
    /// The deadline of the export with no date that was taken last, whatever became of it.
    pub previous: Option<Instant>,
}

/// Who gets a tick.
#[derive(Clone, Copy, Debug, PartialEq, Eq)]
pub enum Runner {
    Idle,
    Job(u32),
    /// By position, counted from 1.
    Feed(u32),
}

/// What a step answers: the runner and what it still owes after the tick.
#[derive(Clone, Copy, Debug, PartialEq, Eq)]
pub struct Ran {
    pub runner: Runner,
    pub owes: Length,
}

/// Why a request is refused (0 if it would be taken). With 6: the earliest
/// overbooked instant, what the live jobs, the feeds and the new job owe by then,
/// and the margin there, below zero. With 0: the smallest margin and the earliest
/// instant that has it. All else is 0.
#[derive(Clone, Copy, Debug, Default, PartialEq, Eq)]
pub struct Reason {
    pub refusal: Refusal,
    pub at: Instant,
    pub jobs: Length,
    pub feeds: Length,
    pub job: Length,
    pub margin: i64,
}

/// The place of a label in one of the two lent lists.
#[derive(Clone, Copy, Debug, PartialEq, Eq)]
pub enum Place {
    Empty,
    InJobLabels(usize),
    InFeedLabels(usize),
}

impl Share {
    /// Whether an opening may carry it.
    fn is_one(self) -> bool {
        self.p != 0 && self.q != 0 && self.p <= self.q && self.q <= Q_MOST
    }

    /// The ticks in which it gives this many, begun ones whole.
    fn time_for(self, ticks: Length) -> Length {
        let (p, q) = (Length::from(self.p), Length::from(self.q));
        let (whole, begun) = (ticks * q / p, ticks * q % p);
        whole + u64::from(begun > 0)
    }
}

impl Feed {
    /// What a piece owes as it comes.
    pub fn charged_work(&self, charge: Length) -> Length {
        self.work + charge
    }

    pub fn releases_at(&self, instant: Instant) -> bool {
        instant % self.period == self.offset
    }

    /// The last release at or before the instant, whether or not the desk was open
    /// then; nothing while the instant is below the offset.
    fn last_release(&self, instant: Instant) -> Option<Instant> {
        let since_the_first = instant.checked_sub(self.offset)?;
        Some(instant - since_the_first % self.period)
    }

    /// When the piece that is current at the instant is due, or was; nothing while
    /// none can have come.
    pub fn due(&self, instant: Instant) -> Option<Instant> {
        Some(self.last_release(instant)? + self.lead)
    }

    /// The first release after the instant.
    pub fn next_release(&self, instant: Instant) -> Instant {
        if instant < self.offset {
            self.offset
        } else {
            instant + self.period - (instant - self.offset) % self.period
        }
    }

    /// The first instant after this one at which a piece is due: the current one,
    /// or the next where it has not come or its deadline is over.
    pub fn next_due(&self, instant: Instant) -> Instant {
        let current = self.due(instant).filter(|due| *due > instant);
        current.unwrap_or_else(|| self.next_release(instant) + self.lead)
    }
}

/// Euclid's rule.
pub fn common_divisor(larger: u64, smaller: u64) -> u64 {
    if smaller == 0 {
        larger
    } else {
        common_divisor(smaller, larger % smaller)
    }
}

/// The round of these periods, or nothing if it is above its limit. A common
/// multiple only grows with each further period, so stopping early is safe.
pub fn round_of(feeds: &[Feed]) -> Option<Length> {
    let mut round = 1;
    for feed in feeds {
        round = round / common_divisor(round, feed.period) * feed.period;
        if round > ROUND_MOST {
            return None;
        }
    }
    Some(round)
}

fn within(value: u64, from: u64, to: u64) -> bool {
    from <= value && value <= to
}

fn feed_within_limits(feed: &Feed) -> bool {
    within(feed.period, 1, FEED_LENGTH_MOST)
        && within(feed.work, 1, FEED_LENGTH_MOST)
        && feed.offset < feed.period
        && within(feed.lead, 1, feed.period)
}

/// Line 10, by rehearsing: all feeds are released together, nothing else is there,
/// and each tick goes to the piece that is due first. Where a stretch of ticks has
/// fewer than the pieces want that come and are due in it, one of them is late
/// however the ticks go; where none has, no other offsets want more, and this choice
/// is late nowhere. At the round's end all pieces are due and all feeds are released
/// together again, so what comes after it is what was before.
fn is_late_together(feeds: &[Feed], charge: Length, round: Length) -> bool {
    let mut owes = vec![0; feeds.len()];
    let mut now = 0;
    while now < round {
        for (owes, feed) in owes
            .iter_mut()
            .zip(feeds)
            .filter(|(_, feed)| now % feed.period == 0)
        {
            if *owes > 0 {
                return true;
            }
            *owes = feed.charged_work(charge);
        }
        let next = feeds
            .iter()
            .map(|feed| now - now % feed.period + feed.period)
            .min();
        let next = next.unwrap_or(round);
        if is_late_until(feeds, &mut owes, now, next) {
            return true;
        }
        now = next;
    }
    owes.iter().any(|owes| *owes > 0)
}

/// Between two releases: whether a piece that gets ticks is late with its last.
fn is_late_until(feeds: &[Feed], owes: &mut [Length], from: Instant, next: Instant) -> bool {
    let due = |feed: &Feed| from - from % feed.period + feed.lead;
    let mut now = from;
    while now < next {
        let ready = (0..feeds.len()).filter(|place| owes[*place] > 0);
        let first = match ready.min_by_key(|place| due(&feeds[*place])) {
            Some(first) => first,
            None => return false,
        };
        let ticks = owes[first].min(next - now);
        now += ticks;
        owes[first] -= ticks;
        let owing = owes[first] > 0;
        if now > due(&feeds[first]) || (owing && now == due(&feeds[first])) {
            return true;
        }
    }
    false
}

/// Lines 2, 9 and 10 of the opening, in that order; 10 is judged on charged work.
pub fn feeds_refusal(feeds: &[Feed], charge: Length) -> Option<Refusal> {
    if !feeds.iter().all(feed_within_limits) {
        return Some(OUTSIDE_LIMITS);
    }
    let round = match round_of(feeds) {
        Some(round) => round,
        None => return Some(ROUND_TOO_LONG),
    };
    is_late_together(feeds, charge, round).then_some(LOAD_TOO_HIGH)
}

/// Opening without a share: 12, 8, 3, 18, 2, 9, 10. (A refused opening's state is the
/// default.)
pub fn open(list: &[u32], start: Instant, charge: u32) -> Result<Desk, Refusal> {
    open_with(list, start, charge, None)
}

/// Opening with one: 12, 8, 3, 18, 19, 2, 9, 10.
pub fn open_shared(
    list: &[u32],
    start: Instant,
    charge: u32,
    share: Share,
) -> Result<Desk, Refusal> {
    open_with(list, start, charge, Some(share))
}

fn open_with(
    list: &[u32],
    start: Instant,
    charge: u32,
    share: Option<Share>,
) -> Result<Desk, Refusal> {
    let charge = Length::from(charge);
    if list.len() % 4 != 0 {
        return Err(LIST_NOT_IN_FOURS);
    }
    if list.len() / 4 > FEEDS_MOST {
        return Err(TOO_MANY_FEEDS);
    }
    if start > LAST_INSTANT {
        return Err(PAST_LAST_INSTANT);
    }
    if charge > CHARGE_MOST {
        return Err(CHARGE_TOO_HIGH);
    }
    if !share.map_or(true, Share::is_one) {
        return Err(NO_SHARE);
    }
    let mut feeds: Vec<Feed> = list
        .chunks(4)
        .map(|four| Feed {
            period: four[0].into(),
            work: four[1].into(),
            offset: four[2].into(),
            lead: four[3].into(),
            owes: 0,
        })
        .collect();
    if let Some(refusal) = feeds_refusal(&feeds, charge) {
        return Err(refusal);
    }
    // Pieces from before the opening never were; one released now is ready.
    for feed in &mut feeds {
        if feed.releases_at(start) {
            feed.owes = feed.charged_work(charge);
        }
    }
    Ok(Desk {
        clock: start,
        charge,
        feeds,
        jobs: Vec::new(),
        share,
        previous: None,
    })
}

impl Desk {
    /// "A state in order", but for unused places and the order of the table: this model
    /// has neither, so the caller that reads a state out of fixed tables looks at those.
    pub fn in_order(&self) -> bool {
        self.clock <= LAST_INSTANT
            && self.charge <= CHARGE_MOST
            && self.share.map_or(true, Share::is_one)
            && self.previous.map_or(true, |due| due <= LAST_INSTANT)
            && self.feeds_in_order()
            && self.jobs_in_order()
    }

    fn feeds_in_order(&self) -> bool {
        self.feeds.len() <= FEEDS_MOST
            && feeds_refusal(&self.feeds, self.charge).is_none()
            && self.feeds.iter().all(|feed| self.piece_in_order(feed))
    }

    /// A current piece owes at most its charged work, and nothing while it can't have
    /// come or from its deadline on.
    fn piece_in_order(&self, feed: &Feed) -> bool {
        let before_its_deadline = || feed.due(self.clock).map_or(false, |due| due > self.clock);
        feed.owes <= feed.charged_work(self.charge) && (feed.owes == 0 || before_its_deadline())
    }

    fn jobs_in_order(&self) -> bool {
        let numbered_once = |job: &Job| {
            self.jobs
                .iter()
                .filter(|other| other.number == job.number)
                .count()
                == 1
        };
        self.jobs.len() <= JOBS_MOST
            && self.jobs.iter().all(|job| {
                job.number != 0
                    && numbered_once(job)
                    && within(job.owed, 1, JOB_LENGTH_MOST + self.charge)
                    && job.deadline > self.clock
                    && job.deadline - self.clock <= JOB_LENGTH_MOST
                    && job.deadline <= LAST_INSTANT
            })
            && self.figures_agree()
    }

    /// Asked only of jobs that each owe no more than they may, so that no sum is too long.
    fn figures_agree(&self) -> bool {
        let agrees = |job: &Job| job.figure == self.owed_by(job.deadline);
        self.jobs.iter().all(agrees)
    }

    /// What the jobs due at or before an instant owe together.
    fn owed_by(&self, instant: Instant) -> Length {
        let due = self.jobs.iter().filter(|job| job.deadline <= instant);
        due.map(|job| job.owed).sum()
    }

    /// Every figure afresh, whatever it was. A call that changes what jobs owe ends
    /// with this: none adds to a figure or takes away from one.
    pub fn add_up(&mut self) {
        for place in 0..self.jobs.len() {
            self.jobs[place].figure = self.owed_by(self.jobs[place].deadline);
        }
    }

    fn live(&self, number: u32) -> Option<usize> {
        self.jobs.iter().position(|job| job.number == number)
    }

    /// Asking: 13, 1, 2, 3, 4, 5, 6. The limits of work are without the charge.
    pub fn ask(&self, number: u32, work: u32, lead: u32) -> Result<Desk, Refusal> {
        self.ask_for(number, work.into(), lead.into())
    }

    fn ask_for(&self, number: u32, work: Length, lead: Length) -> Result<Desk, Refusal> {
        if !self.in_order() {
            return Err(NOT_IN_ORDER);
        }
        if number == 0 {
            return Err(NUMBER_ZERO);
        }
        if !within(work, 1, JOB_LENGTH_MOST) || !within(lead, 1, JOB_LENGTH_MOST) {
            return Err(OUTSIDE_LIMITS);
        }
        if self.clock + lead > LAST_INSTANT {
            return Err(PAST_LAST_INSTANT);
        }
        if self.live(number).is_some() {
            return Err(NUMBER_LIVE);
        }
        if self.jobs.len() == JOBS_MOST {
            return Err(TABLE_FULL);
        }
        let mut taken = self.clone();
        taken.jobs.push(Job {
            number,
            owed: work + self.charge,
            deadline: self.clock + lead,
            figure: 0,
        });
        taken.add_up();
        if ahead::never_late(&taken) {
            Ok(taken)
        } else {
            Err(DOES_NOT_FIT)
        }
    }

    /// Asking with the mesh file itself: 13, 15, 16, 17, then as any ask.
    pub fn ask_mesh(
        &self,
        head: &[u8],
        size: u64,
        number: u32,
        lead: u32,
    ) -> Result<Desk, Refusal> {
        if !self.in_order() {
            return Err(NOT_IN_ORDER);
        }
        self.ask(number, mesh::work(head, size)?, lead)
    }

    /// Asking with no date: 13, 1, 19, then as any ask with the lead that the rule gives
    /// it. Only a yes to this is remembered.
    pub fn ask_undated(&self, number: u32, work: u32) -> Result<Desk, Refusal> {
        if !self.in_order() {
            return Err(NOT_IN_ORDER);
        }
        if number == 0 {
            return Err(NUMBER_ZERO);
        }
        let share = self.share.ok_or(NO_SHARE)?;
        let deadline = self.undated_deadline(share, work.into());
        let mut taken = self.ask_for(number, work.into(), deadline - self.clock)?;
        taken.previous = Some(deadline);
        Ok(taken)
    }

    /// The later of now and the previous one's deadline, plus the charged work divided by
    /// the share, rounded up; for the first one, from now.
    fn undated_deadline(&self, share: Share, work: Length) -> Instant {
        let from = match self.previous {
            Some(previous) => self.clock.max(previous),
            None => self.clock,
        };
        from + share.time_for(work + self.charge)
    }

    /// Why: the number that asking would give, and for 6 and 0 where that comes
    /// from. Rehearsing and adding up have to agree on line 6.
    pub fn why(&self, number: u32, work: u32, lead: u32) -> Reason {
        let refusal = self.ask(number, work, lead).err().unwrap_or(0);
        if ![0, DOES_NOT_FIT].contains(&refusal) {
            return Reason {
                refusal,
                ..Reason::default()
            };
        }
        let reason = reason::reason(self, work.into(), lead.into());
        assert_eq!(reason.refusal, refusal, "line 6 by two methods: {self:?}");
        reason
    }

    /// Who would get the tick at the clock's instant: the ready work with the
    /// earliest deadline; with equal ones a job before a feed, a lower job
    /// number before a higher, a lower position before a higher.
    pub fn next_runner(&self) -> Runner {
        let jobs = self.jobs.iter().map(|job| (job.deadline, 0, job.number));
        let feeds = (1u32..)
            .zip(&self.feeds)
            .filter(|(_, feed)| feed.owes > 0)
            .map(|(position, feed)| {
                let due = feed.due(self.clock).expect("it owes, so it has come");
                (due, 1, position)
            });
        match jobs.chain(feeds).min() {
            None => Runner::Idle,
            Some((_, 0, number)) => Runner::Job(number),
            Some((_, _, position)) => Runner::Feed(position),
        }
    }

    /// One tick by the step rule, with nothing checked.
    pub fn tick(&mut self) -> Ran {
        let runner = self.next_runner();
        let owes = match runner {
            Runner::Idle => 0,
            Runner::Job(number) => self.serve_job(number),
            Runner::Feed(position) => {
                let feed = &mut self.feeds[position as usize - 1];
                feed.owes -= 1;
                feed.owes
            }
        };
        self.clock += 1;
        for feed in &mut self.feeds {
            if feed.releases_at(self.clock) {
                feed.owes = feed.charged_work(self.charge);
            } else if feed.due(self.clock) == Some(self.clock) {
                // Served or not: from its deadline on it owes nothing.
                feed.owes = 0;
            }
        }
        self.add_up();
        Ran { runner, owes }
    }

    fn serve_job(&mut self, number: u32) -> Length {
        let place = self.live(number).expect("the runner is live");
        self.jobs[place].owed -= 1;
        let owes = self.jobs[place].owed;
        if owes == 0 {
            self.jobs.remove(place);
        }
        owes
    }

    /// Stepping: 13, 3.
    pub fn step(&self) -> Result<(Desk, Ran), Refusal> {
        if !self.in_order() {
            return Err(NOT_IN_ORDER);
        }
        if self.clock == LAST_INSTANT {
            return Err(PAST_LAST_INSTANT);
        }
        let mut next = self.clone();
        let ran = next.tick();
        Ok((next, ran))
    }

    /// Ending: 13, 7.
    pub fn end(&self, number: u32) -> Result<Desk, Refusal> {
        if !self.in_order() {
            return Err(NOT_IN_ORDER);
        }
        let place = self.live(number).ok_or(NO_SUCH)?;
        let mut next = self.clone();
        next.jobs.remove(place);
        next.add_up();
        Ok(next)
    }

    /// Resting: 13, 7. (A piece that hasn't come, or whose deadline is over, owes
    /// nothing.)
    pub fn rest(&self, position: u32) -> Result<Desk, Refusal> {
        if !self.in_order() {
            return Err(NOT_IN_ORDER);
        }
        let place = (position as usize).checked_sub(1).ok_or(NO_SUCH)?;
        let mut next = self.clone();
        match next.feeds.get_mut(place) {
            Some(feed) if feed.owes > 0 => feed.owes = 0,
            _ => return Err(NO_SUCH),
        }
        Ok(next)
    }

    /// Listing: 13, 11. Four numbers a job into the front of the buffer.
    pub fn list(&self, buffer: &mut [u64]) -> Result<u32, Refusal> {
        if !self.in_order() {
            return Err(NOT_IN_ORDER);
        }
        if buffer.len() < 4 * self.jobs.len() {
            return Err(BUFFER_TOO_SHORT);
        }
        let mut jobs = self.jobs.clone();
        jobs.sort_by_key(|job| (job.deadline, job.number));
        for (four, job) in buffer.chunks_mut(4).zip(&jobs) {
            four.copy_from_slice(&[job.number.into(), job.owed, job.deadline, job.figure]);
        }
        Ok(jobs.len() as u32)
    }

    /// The place of the runner's label. It gives no numbers: a state not in
    /// order, and the clock's last instant, count as idle.
    pub fn label(&self, job_labels: &[u8], feed_labels: &[u8]) -> Place {
        if !self.in_order() || self.clock == LAST_INSTANT {
            return Place::Empty;
        }
        match self.next_runner() {
            Runner::Idle => Place::Empty,
            Runner::Job(number) => job_labels
                .chunks_exact(12)
                .position(|record| record[..4] == number.to_be_bytes())
                .map_or(Place::Empty, |record| Place::InJobLabels(12 * record + 4)),
            Runner::Feed(position) => {
                let from = 8 * (position as usize - 1);
                if from + 8 <= feed_labels.len() {
                    Place::InFeedLabels(from)
                } else {
                    Place::Empty
                }
            }
        }
    }
}
