//! What the charge changes: the opening, what is owed, what fits, the reasons, and
//! a state in order; and libraries that are wrong in it.

use super::*;
use crate::reason::reason;

fn opened(list: &[u32], charge: u32) -> Desk {
    open(list, 0, charge).unwrap()
}

// ---------------------------------------------------------------- openings

#[test]
fn a_charge_within_its_limits() {
    for charge in 0..=16 {
        assert_eq!(opened(&[], charge).charge, u64::from(charge));
    }
    for charge in [17, 18, 256, 1 << 16, 1 << 31, u32::MAX] {
        assert_eq!(open(&[], 0, charge).err(), Some(18));
        let answer = Own.open(&[4, 1, 0, 4], 7, charge);
        assert_eq!((answer.desk, answer.refusal), (State::default(), 18));
    }
    // Refused for another reason, the state is the empty one all the same.
    let answer = Own.open(&[4, 5, 0, 4], 7, 3);
    assert_eq!((answer.desk, answer.refusal), (State::default(), 10));
}

#[test]
fn line_10_is_judged_on_charged_work() {
    assert!(open(&[4, 3, 0, 4], 0, 1).is_ok());
    assert_eq!(open(&[4, 3, 0, 4], 0, 2).err(), Some(10));
    assert!(open(&[40_320, 40_304, 0, 40_320], 0, 16).is_ok());
    assert_eq!(open(&[40_320, 40_305, 0, 40_320], 0, 16).err(), Some(10));
    // In a round of 12 the first has three pieces and the second two.
    assert!(open(&[4, 1, 0, 4, 6, 2, 0, 6], 0, 1).is_ok());
    assert_eq!(open(&[4, 1, 0, 4, 6, 2, 0, 6], 0, 2).err(), Some(10));
    assert_eq!(open(&[4, 1, 0, 4, 6, 3, 0, 6], 0, 1).err(), Some(10));
    // The limit of a feed's work is without it.
    assert_eq!(open(&[40_320, 40_320, 0, 40_320], 0, 1).err(), Some(10));
    assert_eq!(open(&[40_320, 40_321, 0, 40_320], 0, 1).err(), Some(2));
}

#[test]
fn a_feed_keeps_its_work_and_its_pieces_owe_the_charge() {
    let desk = opened(&[10, 4, 0, 10, 10, 2, 1, 10], 2);
    let owe = |desk: &Desk| [desk.feeds[0].owes, desk.feeds[1].owes];
    assert_eq!([desk.feeds[0].work, desk.feeds[1].work], [4, 2]);
    assert_eq!(owe(&desk), [6, 0]);
    let (desk, ran) = desk.step().unwrap();
    assert_eq!((ran.owes, owe(&desk)), (5, [5, 4]));
    assert_eq!([desk.feeds[0].work, desk.feeds[1].work], [4, 2]);
}

#[test]
fn charges_in_a_script() {
    assert_eq!(said("go 0 16\n"), "go ok\n");
    for charge in ["17", "18", "256", "4294967295"] {
        let output = said(&format!("feed 0 0 0 0\ngo 0 {charge}\nbad"));
        assert_eq!(output, "go no 18\n");
    }
    assert_eq!(said("go 1099511627777 17\n"), "go no 3\n");
    assert_eq!(said("go 0 4294967296\n"), "line 1 bad\n");
    assert_eq!(said("go 0\n"), "line 1 bad\n");
    assert_eq!(said("feed 4 3 0 4\ngo 0 1\n"), "go ok\n");
    assert_eq!(said("feed 4 3 0 4\ngo 0 2\n"), "go no 10\n");
    let input = "feed 6 2 0 6\ngo 0 1\nask 1 1 6\nask 2 1 6\nrun 7\n";
    let output = "go ok\nask 1 yes\nask 2 no 6\n0 job 1\n1 job 1\n2 feed 1\n3 feed 1\n4 feed 1\n\
                  5 idle\n6 feed 1\n";
    assert_eq!(said(input), output);
}

// ---------------------------------------------------------------- what fits

/// The new job's charge alone, the current piece's, and that of later pieces.
#[test]
fn what_fits_without_a_charge_and_not_with_it() {
    let refusal = |desk: &Desk, work, lead| desk.ask(1, work, lead).err();
    assert_eq!(refusal(&opened(&[], 0), 6, 6), None);
    assert_eq!(refusal(&opened(&[], 1), 6, 6), Some(6));
    assert_eq!(refusal(&opened(&[], 1), 5, 6), None);
    assert_eq!(refusal(&opened(&[10, 4, 0, 10], 0), 6, 10), None);
    assert_eq!(refusal(&opened(&[10, 4, 0, 10], 2), 3, 10), Some(6));
    assert_eq!(refusal(&opened(&[10, 4, 0, 10], 2), 2, 10), None);
    // By 20 the second piece owes 9 and the charge.
    let rested = |charge| opened(&[10, 9, 0, 10], charge).rest(1).unwrap();
    assert_eq!(refusal(&rested(0), 11, 20), None);
    assert_eq!(refusal(&rested(1), 10, 20), Some(6));
    assert_eq!(refusal(&rested(1), 9, 20), None);
    // X is full at charge 1.
    assert_eq!(refusal(&opened(&[4, 1, 0, 4, 6, 2, 0, 6], 0), 3, 6), None);
    let full = opened(&[4, 1, 0, 4, 6, 2, 0, 6], 1);
    assert_eq!(refusal(&full, 1, 65_536), Some(6));
}

#[test]
fn the_limit_of_work_is_without_the_charge() {
    let desk = opened(&[], 16);
    assert_eq!(desk.ask(1, 65_537, 65_536).err(), Some(2));
    assert_eq!(desk.ask(1, 0, 65_536).err(), Some(2));
    assert_eq!(desk.ask(1, 65_536, 65_536).err(), Some(6));
    assert_eq!(desk.ask(1, 65_521, 65_536).err(), Some(6));
    let taken = desk.ask(1, 65_520, 65_536).unwrap();
    assert_eq!(taken.jobs[0].owed, 65_536);
    assert!(opened(&[], 0).ask(1, 65_536, 65_536).is_ok());
    // Lines 3, 4 and 5 come before that 6.
    let end = open(&[], LAST_INSTANT - 9, 16).unwrap();
    assert_eq!(end.ask(1, 65_536, 65_536).err(), Some(3));
    assert_eq!(taken.ask(1, 65_536, 65_536).err(), Some(4));
    let mut full = desk;
    for number in 1..=64 {
        full = full.ask(number, 1, 65_000).unwrap();
    }
    assert_eq!(full.ask(65, 65_536, 65_536).err(), Some(5));
}

#[test]
fn a_mesh_owes_its_bands_work_and_the_charge() {
    let (head, size) = (front(12_345, 0), length_of(12_345));
    let desk = opened(&[], 5);
    assert_eq!(desk.ask_mesh(&head, size, 1, 20).err(), Some(6));
    let taken = desk.ask_mesh(&head, size, 1, 21).unwrap();
    assert_eq!(taken.jobs[0].owed, 21);
    let mut buffer = [0; 4];
    assert_eq!(taken.list(&mut buffer), Ok(1));
    assert_eq!(buffer, [1, 21, 21, 21]);
    let (most, size) = (front(u32::MAX, 0), length_of(u32::MAX));
    assert_eq!(desk.ask_mesh(&most, size, 1, 65_536).err(), Some(6));
    assert!(opened(&[], 0).ask_mesh(&most, size, 1, 65_536).is_ok());
}

// ---------------------------------------------------------------- steps, rests, ends

/// The job is interrupted by a piece, and that piece by a job: what each owes falls
/// by one a tick and never rises.
#[test]
fn work_that_is_interrupted_pays_once() {
    let mut desk = opened(&[10, 2, 3, 10], 2).ask(1, 3, 20).unwrap();
    let mut names = Vec::new();
    for tick in 0..12 {
        if tick == 5 {
            desk = desk.ask(2, 1, 4).unwrap();
        }
        let (next, ran) = desk.step().unwrap();
        names.push((ran.runner, ran.owes));
        desk = next;
    }
    let (first, second, feed) = (Runner::Job(1), Runner::Job(2), Runner::Feed(1));
    let expected = [
        (first, 4),
        (first, 3),
        (first, 2),
        (feed, 3),
        (feed, 2),
        (second, 2),
        (second, 1),
        (second, 0),
        (feed, 1),
        (feed, 0),
        (first, 1),
        (first, 0),
    ];
    assert_eq!(names, expected);
    assert!(desk.jobs.is_empty());
}

#[test]
fn a_rested_piece_and_an_ended_job_give_the_charge_back() {
    let full = opened(&[4, 3, 0, 4], 1);
    assert_eq!(full.ask(1, 3, 4).err(), Some(6));
    let rested = full.rest(1).unwrap();
    assert_eq!(rested.feeds[0].owes, 0);
    assert_eq!(rested.ask(1, 4, 4).err(), Some(6));
    assert!(rested.ask(1, 3, 4).is_ok());
    // The next piece owes it again.
    let mut next = rested;
    for _ in 0..4 {
        next = next.step().unwrap().0;
    }
    assert_eq!(next.feeds[0].owes, 4);
    // Ended after a tick: the rest of its work is gone, and of its charge.
    let (one, _) = opened(&[], 3).ask(1, 7, 10).unwrap().step().unwrap();
    assert_eq!(one.jobs[0].owed, 9);
    assert_eq!(one.ask(2, 1, 9).err(), Some(6));
    assert!(one.end(1).unwrap().ask(2, 6, 9).is_ok());
    assert_eq!(one.end(1).unwrap().ask(2, 7, 9).err(), Some(6));
}

// ---------------------------------------------------------------- reasons

/// X at charge 1: by 4 the first feed owes 2, by 6 both owe 2 + 3, by 8 4 + 3, by 12
/// 6 + 6.
#[test]
fn reasons_have_the_charge_in_each_part() {
    let full = opened(&[4, 1, 0, 4, 6, 2, 0, 6], 1);
    assert_eq!(full.why(1, 1, 6), overbooked(6, 0, 5, 2, -1));
    assert_eq!(full.why(1, 1, 7), overbooked(8, 0, 7, 2, -1));
    assert_eq!(full.why(1, 1, 12), overbooked(12, 0, 12, 2, -2));
    assert_eq!(full.why(1, 3, 4), overbooked(4, 0, 2, 4, -2));
    let one = opened(&[10, 4, 0, 10], 2).ask(5, 1, 10).unwrap();
    assert_eq!(one.why(6, 1, 10), overbooked(10, 3, 6, 3, -2));
    assert_eq!(one.why(6, 4, 20), overbooked(20, 3, 12, 6, -1));
    assert_eq!(one.why(6, 3, 20), tightest(0, 20));
    let desk = opened(&[], 16);
    let why = desk.why(1, 65_536, 65_536);
    assert_eq!(why, overbooked(65_536, 0, 0, 65_552, -16));
    assert_eq!(desk.why(1, 65_520, 65_536), tightest(0, 65_536));
    assert_eq!(desk.why(1, 1, 17), tightest(0, 17));
    assert_eq!(desk.why(1, 1, 18), tightest(1, 1));
}

/// Under any charge the same book of what is owed has the same reasons.
#[test]
fn a_charge_and_as_much_work_more_are_alike() {
    let mut random = Random::of(16, 0);
    let mut refused = 0;
    for _ in 0..300 {
        let desk = small_state(&mut random, &[2, 3, 4, 6, 8, 12, 20], 40);
        let charge = desk.charge;
        let mut worked = desk.clone();
        worked.charge = 0;
        for feed in &mut worked.feeds {
            feed.work += charge;
        }
        let (work, lead) = (random.between(1, 20), random.between(1, 40));
        let why = desk.why(9, work as u32, lead as u32);
        assert_eq!(why, worked.why(9, (work + charge) as u32, lead as u32));
        refused += u32::from(why.refusal == 6);
    }
    assert!((50..250).contains(&refused), "both often: {refused}");
}

// ---------------------------------------------------------------- a state in order

#[test]
fn what_is_owed_is_bounded_by_charged_work() {
    for charge in 0..=16 {
        let mut desk = opened(&[40, 3, 0, 40], charge).ask(1, 1, 40).unwrap();
        let charge = u64::from(charge);
        for (owed, good) in [
            (0, false),
            (1, true),
            (65_536 + charge, true),
            (65_537 + charge, false),
        ] {
            desk.jobs[0].owed = owed;
            desk.add_up();
            assert_eq!(desk.in_order(), good, "a job owes {owed} at {charge}");
        }
        desk.jobs.clear();
        for (owes, good) in [(0, true), (3 + charge, true), (4 + charge, false)] {
            desk.feeds[0].owes = owes;
            assert_eq!(desk.in_order(), good, "a piece owes {owes} at {charge}");
        }
    }
}

#[test]
fn the_charge_of_a_state_in_order() {
    let mut desk = opened(&[4, 1, 0, 4], 0).rest(1).unwrap();
    for (charge, good) in [(0, true), (3, true), (4, false), (16, false), (17, false)] {
        desk.charge = charge;
        assert_eq!(desk.in_order(), good, "charge {charge}");
    }
    desk.feeds.clear();
    for (charge, good) in [(16, true), (17, false), (1 << 32, false), (1 << 63, false)] {
        desk.charge = charge;
        assert_eq!(desk.in_order(), good, "charge {charge}");
    }
    desk.charge = u64::MAX;
    assert_eq!(desk.ask(0, 0, 0).err(), Some(13));
    assert_eq!(desk.why(1, 1, 1).refusal, 13);
    assert_eq!(desk.step().err(), Some(13));
    assert_eq!(desk.list(&mut []).err(), Some(13));
    assert_eq!(desk.label(&[0; 12], &[0; 8]), Place::Empty);
}

// ---------------------------------------------------------------- comparing calls

/// The state under this charge, what is owed cut down to its bounds, and with it the
/// figures where they agreed.
fn cut(desk: &State, charge: u64) -> State {
    let mut cut = *desk;
    cut.charge = charge;
    for feed in &mut cut.feeds.feeds {
        feed.owes = feed.owes.min(feed.work.saturating_add(charge));
    }
    for job in &mut cut.table.jobs {
        job.owed = job.owed.min(JOB_LENGTH_MOST + charge);
    }
    if agrees(desk) {
        calls::add_up(&mut cut);
    }
    cut
}

/// Which charges came with a state in order, and which kinds of state at a bound of
/// the charge, with nothing else wrong.
#[derive(Default)]
pub struct Seen {
    charges: RefCell<BTreeSet<u64>>,
    kinds: RefCell<BTreeSet<&'static str>>,
}

const KINDS: [&str; 9] = [
    "a job owes all it can",
    "a job owes a tick more",
    "a piece owes all it can",
    "a piece owes a tick more",
    "full feeds",
    "feeds too full by the charge",
    "charge 17",
    "charge 2^63",
    "the highest number for a charge",
];

impl Seen {
    pub fn note(&self, desk: &State) {
        let charge = desk.charge;
        let good = in_order(desk);
        if good {
            self.charges.borrow_mut().insert(charge);
        }
        let job = |owed| desk.table.jobs.iter().any(|job| job.owed == owed);
        let piece = |more| {
            let mut feeds = desk.feeds.feeds.iter();
            feeds.any(|feed| feed.work > 0 && feed.owes == feed.work.saturating_add(more))
        };
        let charged = (1..=16).contains(&charge);
        let by_what_is_owed = charged && !good && in_order(&cut(desk, charge));
        let by_the_charge = !good && charge > 0 && in_order(&cut(desk, 0));
        let full = good && read(desk).map_or(false, |state| is_full(&state));
        let holds = [
            charged && good && job(JOB_LENGTH_MOST + charge),
            by_what_is_owed && job(JOB_LENGTH_MOST + charge + 1),
            charged && good && piece(charge),
            by_what_is_owed && piece(charge + 1),
            charged && full,
            charged && by_the_charge && cut(desk, charge) == *desk,
            by_the_charge && charge == 17,
            by_the_charge && charge == 1 << 63,
            by_the_charge && charge == u64::MAX,
        ];
        let came = KINDS.iter().zip(holds).filter(|(_, holds)| *holds);
        self.kinds.borrow_mut().extend(came.map(|(kind, _)| kind));
    }

    pub fn saw_every_kind_of_state(&self) {
        assert!(self.charges.borrow().iter().copied().eq(0..=16));
        for kind in KINDS {
            assert!(self.kinds.borrow().contains(kind), "{kind} never came");
        }
    }
}

/// Whether the feeds want every tick of a round.
fn is_full(state: &Desk) -> bool {
    let round = round_of(&state.feeds).unwrap_or(0);
    let wanted = |feed: &Feed| (feed.work + state.charge) * (round / feed.period);
    !state.feeds.is_empty() && state.feeds.iter().map(wanted).sum::<u64>() == round
}

/// A library that is wrong in the charge, by number.
struct Mischarging(u32);

impl Library for Mischarging {
    fn open(&self, list: &[u32], start: u64, charge: u32) -> Answer {
        mischarged_opening(self.0, list, start, charge)
    }
    fn open_shared(&self, list: &[u32], start: u64, charge: u32, share: boundary::Share) -> Answer {
        let mut answer = Own.open_shared(list, start, charge, share);
        if self.0 == 14 && answer.refusal == 0 {
            answer.desk.charge = 0;
        }
        answer
    }
    fn ask(&self, desk: State, number: u32, work: u32, lead: u32) -> Answer {
        mischarged_ask(self.0, desk, number, work, lead)
    }
    fn ask_mesh(&self, desk: State, head: &[u8], size: u64, number: u32, lead: u32) -> Answer {
        let mut answer = Own.ask_mesh(desk, head, size, number, lead);
        if self.0 == 30 && answer.refusal == 0 {
            newest(&desk, &mut answer).owed -= desk.charge;
        }
        answer
    }
    fn ask_undated(&self, desk: State, number: u32, work: u32) -> Answer {
        let mut answer = Own.ask_undated(desk, number, work);
        match (self.0, answer.refusal) {
            (31, 0) => newest(&desk, &mut answer).owed -= desk.charge,
            (32, 0) => newest(&desk, &mut answer).owed += desk.charge,
            _ => (),
        }
        answer
    }
    fn why(&self, desk: State, number: u32, work: u32, lead: u32) -> boundary::Reason {
        let why = Own.why(desk, number, work, lead);
        match why.refusal {
            0 | 6 => mischarged_reason(self.0, desk, work, lead, why),
            _ => why,
        }
    }
    fn step(&self, desk: State) -> Stepped {
        let mut stepped = Own.step(desk);
        let clock = stepped.desk.clock;
        match (self.0, stepped.refusal) {
            // Pieces come without it, or it is not in what is told.
            (50, 0) => {
                for feed in &mut stepped.desk.feeds.feeds[..desk.feeds.count] {
                    if clock % feed.period == feed.offset {
                        feed.owes = feed.work;
                    }
                }
            }
            (51, 0) => stepped.owes = stepped.owes.saturating_sub(desk.charge),
            (52, 0) => stepped.desk.charge = 0,
            _ => (),
        }
        stepped
    }
    fn end(&self, desk: State, number: u32) -> Answer {
        let mut answer = Own.end(desk, number);
        answer.refusal = misjudged(self.0, &desk, answer.refusal, 7);
        answer
    }
    fn rest(&self, desk: State, position: u32) -> Answer {
        let mut answer = Own.rest(desk, position);
        if self.0 == 53 && answer.refusal == 0 {
            let place = position as usize - 1;
            let owes = desk.feeds.feeds[place].owes;
            answer.desk.feeds.feeds[place].owes = owes.min(desk.charge);
        }
        answer.refusal = misjudged(self.0, &desk, answer.refusal, 7);
        answer
    }
    fn list(&self, desk: State, buffer: &mut [u64]) -> Listed {
        let mut listed = Own.list(desk, buffer);
        if self.0 == 54 && listed.count > 0 {
            buffer[1] = buffer[1].saturating_sub(desk.charge);
        }
        listed.refusal = misjudged(self.0, &desk, listed.refusal, 11);
        listed
    }
    fn label(&self, desk: State, jobs: &[u8], feeds: &[u8]) -> Label {
        Own.label(desk, jobs, feeds)
    }
    right_waves!();
}

/// The job that was just taken.
fn newest<'a>(desk: &State, answer: &'a mut Answer) -> &'a mut boundary::Job {
    let at = order::taken(desk, &answer.desk).expect("it was taken");
    &mut answer.desk.table.jobs[at]
}

fn mischarged_opening(fault: u32, list: &[u32], start: u64, charge: u32) -> Answer {
    let free = Own.open(list, start, 0);
    let mut answer = Own.open(list, start, charge);
    let feeds = &mut answer.desk.feeds.feeds;
    match (fault, answer.refusal) {
        // The limit one higher, looked for in the low bits alone, or not at all.
        (1, 18) if charge == 17 => answer.refusal = free.refusal,
        (2, 18) => return Own.open(list, start, charge % 256),
        (3, 18) => answer.refusal = free.refusal,
        // At another place in the order.
        (4, 12 | 8) if charge > 16 => answer.refusal = 18,
        (5, 3) if charge > 16 => answer.refusal = 18,
        (6, 18) if free.refusal == 2 => answer.refusal = 2,
        (7, 18) if free.refusal == 9 => answer.refusal = 9,
        (8, 18) if free.refusal == 10 => answer.refusal = 10,
        // A refused opening that keeps it, one that passes and does not.
        (9, 1..) => answer.desk.charge = charge.into(),
        (10, 0) => answer.desk.charge = 0,
        // Line 10 on the work alone.
        (11, 10) if free.refusal == 0 => answer.refusal = 0,
        // Pieces without it, feeds with it.
        (12, 0) => feeds.iter_mut().for_each(|f| f.owes = f.owes.min(f.work)),
        (13, 0) => feeds.iter_mut().for_each(|f| f.work += u64::from(charge)),
        _ => (),
    }
    answer
}

fn mischarged_ask(fault: u32, desk: State, number: u32, work: u32, lead: u32) -> Answer {
    let mut answer = Own.ask(desk, number, work, lead);
    let (work, charge) = (u64::from(work), desk.charge);
    // Whether it fits where it owes this much, each live job this much more, and
    // later pieces this charge.
    let fits = |owed, more, charge| {
        let mut state = read(&desk).unwrap();
        state.jobs.iter_mut().for_each(|job| job.owed += more);
        state
            .jobs
            .push(job(number, owed, desk.clock + u64::from(lead)));
        state.charge = charge;
        ahead::never_late(&state)
    };
    match (fault, answer.refusal) {
        // The limit of work with it.
        (20, 3..=6) if work + charge > JOB_LENGTH_MOST => answer.refusal = 2,
        // The job taken without it, or with it twice.
        (21, 0) => newest(&desk, &mut answer).owed -= charge,
        (22, 0) => newest(&desk, &mut answer).owed += charge,
        // Line 6 without the new job's or that of later pieces, or with that of live
        // jobs once more.
        (23, 6) if fits(work, 0, charge) => answer.refusal = 0,
        (24, 6) if fits(work + charge, 0, 0) => answer.refusal = 0,
        (25, 0) if !fits(work + charge, charge, charge) => answer.refusal = 6,
        _ => (),
    }
    answer
}

fn mischarged_reason(
    fault: u32,
    desk: State,
    work: u32,
    lead: u32,
    right: boundary::Reason,
) -> boundary::Reason {
    let charge = desk.charge;
    let told = |why: Reason| boundary::Reason {
        refusal: why.refusal,
        at: why.at,
        jobs: why.jobs,
        feeds: why.feeds,
        job: why.job,
        margin: why.margin,
    };
    let mut uncharged = read(&desk).unwrap();
    uncharged.charge = 0;
    let (work, lead) = (u64::from(work), u64::from(lead));
    let mut why = right;
    match (fault, why.refusal) {
        // A part or the margin without it.
        (40, 6) => why.job = why.job.saturating_sub(charge),
        (41, 6) => why.jobs = why.jobs.saturating_sub(charge),
        (42, 6) => why.feeds = why.feeds.saturating_sub(charge),
        (43, 6) => why.margin += charge as i64,
        // Later pieces without it, so that another instant may decide.
        (44, _) => why = told(reason(&uncharged, work + charge, lead)),
        _ => (),
    }
    why
}

/// Whether a state is in order to a library with this fault.
fn counts_as_in_order(fault: u32, desk: &State) -> bool {
    let right = in_order(desk);
    let (charge, most) = (desk.charge, JOB_LENGTH_MOST);
    let (feeds, table) = (desk.feeds, desk.table);
    let bounded = charge <= CHARGE_MOST;
    match fault {
        // What is owed bounded by the work alone, or by the highest charge.
        60 => right && table.jobs.iter().all(|job| job.owed <= most),
        61 => right && feeds.feeds.iter().all(|feed| feed.owes <= feed.work),
        62 => {
            let highest = table.jobs.iter().all(|job| job.owed <= most + 16);
            let cut = cut(desk, charge.min(16));
            right || bounded && highest && in_order(&State { feeds, ..cut })
        }
        63 => {
            let highest = |feed: &boundary::Feed| feed.owes <= feed.work.saturating_add(16);
            let cut = cut(desk, charge.min(16));
            right || feeds.feeds.iter().all(highest) && in_order(&State { table, ..cut })
        }
        // Line 10 on the work alone.
        64 => right || bounded && cut(desk, charge) == *desk && in_order(&cut(desk, 0)),
        // The charge's limit one higher, or looked for in the low bits, or forgotten.
        65 => right || charge == 17 && in_order(&cut(desk, 16)),
        66 => right || in_order(&cut(desk, charge % (1 << 32))),
        67 => right || in_order(&cut(desk, 0)),
        _ => right,
    }
}

/// The refusal by a library with this fault, which would go on to another.
fn misjudged(fault: u32, desk: &State, right: u32, other: u32) -> u32 {
    match (counts_as_in_order(fault, desk), right) {
        (false, _) => NOT_IN_ORDER,
        (true, NOT_IN_ORDER) => other,
        _ => right,
    }
}

#[test]
fn each_wrong_charge_is_found() {
    assert!(calls::compare(&Mischarging(0), 6, 0, 2_000).is_ok());
    let faults = (1..=14).chain(20..=25).chain(30..=32).chain(40..=44);
    for fault in faults.chain(50..=54).chain(60..=67) {
        assert!(
            calls::compare(&Mischarging(fault), 6, 0, 40_000).is_err(),
            "fault {fault} went by"
        );
    }
}
