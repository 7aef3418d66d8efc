//! What deadlines before the next release change: the opening, line 10, the choice,
//! what fits, the reasons, when a piece gives way, and a state in order; and libraries
//! that are wrong in it.

use super::*;
use crate::invent::shortest_lead;

fn opened(list: &[u32], start: Instant) -> Desk {
    open(list, start, 0).unwrap()
}

fn refusal(list: &[u32], charge: u32) -> Option<Refusal> {
    open(list, 0, charge).err()
}

fn stepped(mut desk: Desk, ticks: u32) -> Desk {
    for _ in 0..ticks {
        desk = desk.step().unwrap().0;
    }
    desk
}

fn feed(period: u64, work: u64, offset: u64, lead: u64, owes: u64) -> Feed {
    Feed {
        period,
        work,
        offset,
        lead,
        owes,
    }
}

// ---------------------------------------------------------------- openings

#[test]
fn four_numbers_a_feed() {
    for length in 0..=72 {
        let list: Vec<u32> = [20, 1, 0, 20].into_iter().cycle().take(length).collect();
        let expected = match length {
            _ if length % 4 != 0 => Some(12),
            68.. => Some(8),
            _ => None,
        };
        assert_eq!(refusal(&list, 0), expected, "{length} numbers");
    }
    let desk = opened(&[9, 2, 5, 4, 8, 3, 0, 7], 0);
    assert_eq!(desk.feeds, [feed(9, 2, 5, 4, 0), feed(8, 3, 0, 7, 3)]);
}

#[test]
fn a_deadline_length_within_its_limits() {
    for lead in 1..=4 {
        assert_eq!(refusal(&[4, 1, 0, lead], 0), None);
    }
    for lead in [0, 5, 6, 40_320, 65_536, 1 << 31, u32::MAX] {
        assert_eq!(refusal(&[4, 1, 0, lead], 0), Some(2), "{lead}");
        assert_eq!(refusal(&[4, 1, 0, 4, 4, 1, 0, lead], 0), Some(2), "{lead}");
    }
    assert_eq!(refusal(&[40_320, 1, 0, 40_320], 0), None);
    assert_eq!(refusal(&[40_320, 1, 0, 40_321], 0), Some(2));
    assert_eq!(refusal(&[1, 1, 0, 1], 0), None);
    // Before 9 and 10, after 3 and 18.
    assert_eq!(refusal(&[40_319, 1, 0, 0, 2, 1, 0, 2], 0), Some(2));
    assert_eq!(refusal(&[4, 5, 0, 5], 0), Some(2));
    assert_eq!(refusal(&[4, 1, 0, 0], 17), Some(18));
    assert_eq!(open(&[4, 1, 0, 0], LAST_INSTANT + 1, 0).err(), Some(3));
}

#[test]
fn the_fourth_number_in_a_script() {
    assert_eq!(said("feed 4 1 0\ngo 0 0\n"), "line 1 bad\n");
    assert_eq!(said("feed 4 1 0 4 4\ngo 0 0\n"), "line 1 bad\n");
    assert_eq!(said("feed 4 1 0 0\ngo 0 0\n"), "go no 2\n");
    assert_eq!(said("feed 4 1 0 5\ngo 0 0\n"), "go no 2\n");
    assert_eq!(said("feed 4 1 0 4294967295\ngo 0 0\n"), "go no 2\n");
    assert_eq!(said("feed 4 2 0 2\nfeed 4 2 2 2\ngo 0 0\n"), "go no 10\n");
    let input = "feed 6 2 1 3\ngo 0 0\nask 1 2 5\nrun 3\nrest 1\nrun 1\nrest 1\nask 2 5 5\n\
                 ask 2 4 5\nrun 6\n";
    let output = "go ok\nask 1 yes\n0 job 1\n1 feed 1\n2 feed 1\nrest no 7\n3 job 1\nrest no 7\n\
                  ask 2 no 6\nask 2 yes\n4 job 2\n5 job 2\n6 job 2\n7 job 2\n8 feed 1\n9 feed 1\n";
    assert_eq!(said(input), output);
}

// ---------------------------------------------------------------- line 10

#[test]
fn line_10_by_some_stretch() {
    assert_eq!(refusal(&[4, 2, 0, 2], 0), None);
    assert_eq!(refusal(&[4, 2, 0, 1], 0), Some(10));
    assert_eq!(refusal(&[40_320, 40_319, 0, 40_319], 0), None);
    assert_eq!(refusal(&[40_320, 40_320, 0, 40_319], 0), Some(10));
    // Offsets do not help.
    assert_eq!(refusal(&[4, 2, 0, 2, 4, 2, 2, 2], 0), Some(10));
    assert_eq!(refusal(&[4, 2, 0, 2, 4, 2, 2, 3], 0), Some(10));
    assert_eq!(refusal(&[4, 2, 0, 2, 4, 2, 2, 4], 0), None);
    // By 6 the first wants 4, so that the second's 3 leave nothing over by 7.
    assert_eq!(refusal(&[4, 2, 0, 2, 12, 3, 0, 7], 0), None);
    assert_eq!(refusal(&[4, 2, 0, 2, 12, 3, 0, 6], 0), Some(10));
    // A stretch shorter than a deadline length wants nothing of it.
    assert_eq!(refusal(&[8, 1, 0, 1, 8, 7, 0, 8], 0), None);
}

#[test]
fn line_10_by_the_charge_alone() {
    assert_eq!(refusal(&[4, 2, 0, 3], 1), None);
    assert_eq!(refusal(&[4, 2, 0, 3], 2), Some(10));
    assert_eq!(refusal(&[4, 2, 0, 4], 2), None);
    assert_eq!(refusal(&[20, 1, 0, 2, 20, 1, 7, 4], 1), None);
    assert_eq!(refusal(&[20, 1, 0, 2, 20, 1, 7, 3], 1), Some(10));
    assert_eq!(refusal(&[20, 1, 0, 2, 20, 1, 7, 3], 0), None);
    assert_eq!(refusal(&[40_320, 1, 0, 17], 16), None);
    assert_eq!(refusal(&[40_320, 1, 0, 16], 16), Some(10));
}

/// Of feeds released together: what the pieces want that come and are due within so
/// many ticks. Each number is at least 0 before it is divided.
fn wanted(feeds: &[Feed], charge: Length, stretch: Length) -> Length {
    let of = |f: &Feed| (stretch + f.period - f.lead) / f.period * (f.work + charge);
    feeds.iter().map(of).sum()
}

/// The same by a division that cuts towards zero.
fn wanted_cut(feeds: &[Feed], charge: Length, stretch: Length) -> Length {
    let pieces = |f: &Feed| (stretch as i64 - f.lead as i64) / f.period as i64 + 1;
    let of = |f: &Feed| pieces(f) as u64 * (f.work + charge);
    feeds.iter().map(of).sum()
}

/// Feeds that pass all lines before 10, at loads around full.
fn some_feeds(random: &mut Random, periods: &[u64]) -> Vec<Feed> {
    let many = random.between(1, 4);
    let feed = |_| {
        let period = random.pick(periods);
        let work = random.between(1, (period / many).max(1));
        let offset = random.below(period);
        let any = random.between(1, period);
        let lead = random.pick(&[period, any, any, work]);
        feed(period, work, offset, lead, 0)
    };
    (0..many).map(feed).collect()
}

/// By the sum for every stretch up to three rounds, and tick by tick for one round of the
/// step rule.
#[test]
fn line_10_agrees_with_two_other_ways() {
    let mut random = Random::of(20, 0);
    let (mut refused, mut by_a_short_one) = (0, 0);
    for _ in 0..5_000 {
        let feeds = some_feeds(&mut random, &[1, 2, 3, 4, 5, 6, 8, 12, 20]);
        let charge = random.pick(&[0, 0, 1, 2]);
        let round = round_of(&feeds).unwrap();
        let over = |stretch: &u64| wanted(&feeds, charge, *stretch) > *stretch;
        let too_much = (1..=3 * round).any(|stretch| over(&stretch));
        let said = feeds_refusal(&feeds, charge);
        assert_eq!(said == Some(10), too_much, "{feeds:?} {charge}");
        assert_eq!(is_late_tick_by_tick(&feeds, charge), too_much, "{feeds:?}");
        for stretch in 1..=round {
            let next = wanted(&feeds, charge, stretch) + wanted(&feeds, charge, round);
            assert_eq!(wanted(&feeds, charge, stretch + round), next);
        }
        refused += u32::from(too_much);
        by_a_short_one += u32::from(too_much && !over(&round));
    }
    assert!((1_000..4_200).contains(&refused), "{refused} refused");
    assert!(by_a_short_one > 500, "{by_a_short_one} by a short stretch");
}

/// Whether a piece is late in the first round of these feeds, released together.
fn is_late_tick_by_tick(feeds: &[Feed], charge: Length) -> bool {
    let together = |f: &Feed| feed(f.period, f.work, 0, f.lead, f.work + charge);
    let mut desk = Desk {
        charge,
        feeds: feeds.iter().map(together).collect(),
        ..Desk::default()
    };
    (0..round_of(feeds).unwrap()).any(|_| is_late_in_a_tick(&mut desk))
}

/// One tick, and whether it leaves a piece owing that is due at its end.
pub fn is_late_in_a_tick(desk: &mut Desk) -> bool {
    let before = desk.clone();
    let ran = desk.tick();
    (1..).zip(&before.feeds).any(|(position, feed)| {
        let finished = ran.runner == Runner::Feed(position) && ran.owes == 0;
        feed.due(before.clock) == Some(desk.clock) && feed.owes > 0 && !finished
    })
}

#[test]
fn the_shortest_deadline_length_that_passes() {
    let mut random = Random::of(21, 0);
    let mut some = 0;
    for _ in 0..500 {
        let mut feeds = some_feeds(&mut random, &[2, 3, 4, 6, 8, 12, 24]);
        let place = random.index(feeds.len());
        let period = feeds[place].period;
        let shortest = shortest_lead(&feeds, place, 1);
        let mut passes = |lead| {
            feeds[place].lead = lead;
            feeds_refusal(&feeds, 1).is_none()
        };
        let first = (1..=period).find(|lead| passes(*lead));
        assert_eq!(shortest, first);
        some += u32::from(first.is_some());
    }
    assert!(some > 50, "{some}");
}

// ---------------------------------------------------------------- what is due when

#[test]
fn due_is_the_last_release_and_the_deadline_length() {
    let feed = feed(10, 1, 7, 3, 0);
    for (instant, due, next) in [
        (0, None, 10),
        (6, None, 10),
        (7, Some(10), 10),
        (9, Some(10), 10),
        (10, Some(10), 20),
        (16, Some(10), 20),
        (17, Some(20), 20),
        (LAST_INSTANT, Some(LAST_INSTANT - 6), LAST_INSTANT + 4),
    ] {
        assert_eq!(feed.due(instant), due, "{instant}");
        assert_eq!(feed.next_due(instant), next, "{instant}");
    }
}

/// The earliest deadline, not the next release; with equal ones as before.
#[test]
fn the_choice_goes_by_the_deadline() {
    let runner = |desk: &Desk| desk.step().unwrap().1.runner;
    let desk = opened(&[4, 1, 0, 4, 10, 2, 0, 3], 0);
    assert_eq!(runner(&desk), Runner::Feed(2));
    assert_eq!(runner(&desk.ask(1, 1, 2).unwrap()), Runner::Job(1));
    assert_eq!(runner(&desk.ask(1, 1, 3).unwrap()), Runner::Job(1));
    assert_eq!(runner(&desk.ask(1, 1, 4).unwrap()), Runner::Feed(2));
    let equal = opened(&[4, 1, 0, 3, 10, 2, 0, 3], 0);
    assert_eq!(runner(&equal), Runner::Feed(1));
    assert_eq!(equal.label(&[], &[1; 16]), Place::InFeedLabels(0));
    assert_eq!(desk.label(&[], &[1; 16]), Place::InFeedLabels(8));
}

/// Nothing of it is left by its deadline, and the rest of the period is free.
#[test]
fn what_fits_before_and_after_a_deadline() {
    let soon = opened(&[10, 4, 0, 4], 0);
    let later = opened(&[10, 4, 0, 10], 0);
    assert_eq!(soon.ask(1, 1, 1).err(), Some(6));
    assert!(later.ask(1, 6, 6).is_ok());
    assert_eq!(soon.why(1, 1, 1), overbooked(4, 0, 4, 1, -1));
    assert_eq!(soon.why(1, 1, 4), overbooked(4, 0, 4, 1, -1));
    assert_eq!(soon.why(1, 1, 5), tightest(0, 4));
    assert_eq!(soon.why(1, 6, 10), tightest(0, 4));
    assert_eq!(soon.why(1, 7, 10), overbooked(10, 0, 4, 7, -1));
    // Its piece done, the next one is due 4 after it comes.
    let done = stepped(soon, 4);
    assert_eq!(done.feeds[0].owes, 0);
    assert_eq!(done.why(1, 6, 6), tightest(0, 10));
    assert_eq!(done.why(1, 6, 10), tightest(0, 14));
    assert_eq!(done.why(1, 7, 10), overbooked(14, 0, 4, 7, -1));
    assert_eq!(done.why(1, 7, 7), overbooked(14, 0, 4, 7, -1));
}

/// Below the offset no piece counts but those to come: what a piece before the first
/// would be due at may lie before the clock's beginning.
#[test]
fn before_the_first_piece() {
    let desk = opened(&[4, 1, 1, 1], 0);
    assert_eq!(desk.why(1, 1, 1), tightest(0, 1));
    assert_eq!(desk.why(1, 1, 2), tightest(0, 2));
    assert_eq!(desk.why(1, 2, 2), overbooked(2, 0, 1, 2, -1));
    assert_eq!(desk.why(1, 4, 5), tightest(0, 5));
    assert_eq!(desk.why(1, 5, 6), overbooked(6, 0, 2, 5, -1));
    assert_eq!(stepped(desk, 1).feeds[0].owes, 1);
    for clock in [0, 5] {
        let desk = opened(&[40, 1, 39, 1], clock);
        let room = 39 - clock as u32;
        assert_eq!(desk.why(1, room, room), tightest(0, 39));
        assert_eq!(desk.why(1, room, room + 1), tightest(0, 40));
        let why = desk.why(1, room + 1, room + 1);
        assert_eq!(why, overbooked(40, 0, 1, u64::from(room) + 1, -1));
        assert_eq!(desk.rest(1).err(), Some(7));
    }
    // Opened in mid-period, before and after the deadline of the piece that never was.
    for clock in [8, 9, 10, 11, 16] {
        let desk = opened(&[10, 3, 7, 3], clock);
        assert_eq!(desk.feeds[0].owes, 0);
        let room = 17 - clock as u32;
        assert_eq!(desk.why(1, room, room), tightest(0, 17));
        let why = desk.why(1, room + 1, room + 1);
        assert_eq!(why, overbooked(20, 0, 3, u64::from(room) + 1, -1));
    }
}

#[test]
fn deadlines_past_the_last_instant() {
    // 2^40 leaves 6 when divided by 10: a piece comes at 2^40 + 1, due two later.
    let desk = opened(&[10, 2, 7, 2], LAST_INSTANT - 2);
    assert_eq!(desk.why(1, 2, 2), tightest(0, LAST_INSTANT));
    let mut desk = opened(&[10, 2, 5, 8], LAST_INSTANT - 1);
    assert_eq!(desk.feeds[0].owes, 2);
    assert_eq!(desk.why(1, 1, 1), tightest(0, LAST_INSTANT));
    desk.feeds[0].lead = 2;
    let why = desk.why(1, 1, 1);
    assert_eq!(why, overbooked(LAST_INSTANT + 1, 0, 2, 1, -1));
}

// ---------------------------------------------------------------- from its deadline on

/// Between its deadline and the next release a piece owes nothing, whether it was
/// served in the last tick before it, in another, or not at all.
#[test]
fn a_late_piece_gives_way_at_its_deadline() {
    for (owed, runner, owes) in [
        (1, Runner::Feed(1), 1),
        (2, Runner::Job(9), 0),
        (5, Runner::Job(9), 3),
    ] {
        let mut desk = figured(Desk {
            feeds: vec![feed(10, 2, 0, 2, 2)],
            jobs: vec![job(9, owed, 2)],
            ..Desk::default()
        });
        assert!(desk.in_order());
        assert_eq!(desk.ask(1, 1, 65_536).err(), Some(6));
        desk.tick();
        let ran = desk.tick();
        assert_eq!(ran, Ran { runner, owes });
        assert_eq!((desk.clock, desk.feeds[0].owes), (2, 0));
        desk.jobs.clear();
        assert!(desk.in_order());
        for _ in 2..10 {
            assert_eq!(desk.rest(1).err(), Some(7));
            let (next, ran) = desk.step().unwrap();
            assert_eq!(ran.runner, Runner::Idle);
            desk = next;
        }
        assert_eq!(desk.feeds[0].owes, 2);
    }
}

#[test]
fn a_piece_due_when_the_next_comes_gives_way_to_it() {
    let desk = Desk {
        clock: 9,
        feeds: vec![feed(10, 3, 0, 10, 2)],
        ..Desk::default()
    };
    let (next, ran) = desk.step().unwrap();
    assert_eq!((ran.runner, ran.owes), (Runner::Feed(1), 1));
    assert_eq!(next.feeds[0].owes, 3);
}

#[test]
fn rest_until_the_deadline() {
    let desk = opened(&[10, 2, 0, 3], 0);
    for ticks in [0, 1] {
        let rested = stepped(desk.clone(), ticks).rest(1).unwrap();
        assert_eq!(rested.feeds[0].owes, 0);
        assert_eq!(rested.rest(1).err(), Some(7));
    }
    for ticks in 2..10 {
        assert_eq!(stepped(desk.clone(), ticks).rest(1).err(), Some(7));
    }
    assert!(stepped(desk, 10).rest(1).is_ok());
}

// ---------------------------------------------------------------- a state in order

#[test]
fn a_piece_owes_nothing_from_its_deadline_on() {
    let mut desk = opened(&[10, 2, 7, 3], 17);
    for (clock, good) in [
        (6, false),
        (7, true),
        (9, true),
        (10, false),
        (16, false),
        (17, true),
        (19, true),
        (20, false),
    ] {
        desk.clock = clock;
        for owes in [1, 2] {
            desk.feeds[0].owes = owes;
            assert_eq!(desk.in_order(), good, "owes {owes} at {clock}");
            assert_eq!(desk.step().err() == Some(13), !good);
        }
        desk.feeds[0].owes = 0;
        assert!(desk.in_order(), "owes nothing at {clock}");
    }
}

#[test]
fn the_deadline_length_of_a_state_in_order() {
    let mut desk = opened(&[10, 2, 7, 3], 8);
    for (lead, good) in [
        (0, false),
        (1, false),
        (2, true),
        (10, true),
        (11, false),
        (1 << 32, false),
        (u64::MAX, false),
    ] {
        desk.feeds[0].lead = lead;
        assert_eq!(desk.in_order(), good, "deadline length {lead}");
    }
    desk.feeds[0].lead = 2;
    desk.charge = 1;
    assert!(!desk.in_order());
    desk.feeds[0].lead = 3;
    assert!(desk.in_order());
    let unused = {
        let mut unused = write(&desk);
        unused.feeds.feeds[1].lead = 1;
        unused
    };
    assert_eq!(Own.step(unused).refusal, 13);
    assert_eq!(Own.step(write(&desk)).refusal, 0);
}

// ---------------------------------------------------------------- comparing calls

/// The state with every piece due when the next one comes.
fn to_the_next(desk: &State) -> State {
    let mut next = *desk;
    for feed in &mut next.feeds.feeds {
        feed.lead = feed.period;
    }
    next
}

/// The state with these deadline lengths again.
fn with_leads_of(mut desk: State, leads: &State) -> State {
    let places = desk.feeds.feeds.iter_mut().zip(&leads.feeds.feeds);
    places.for_each(|(feed, from)| feed.lead = from.lead);
    desk
}

/// The state with deadline lengths cut to their limits.
fn with_leads_cut(desk: &State) -> State {
    let mut cut = *desk;
    for feed in &mut cut.feeds.feeds {
        feed.lead = feed.lead.clamp(feed.period.min(1), feed.period);
    }
    cut
}

/// The state with nothing owed from a deadline on.
fn with_late_pieces_gone(desk: &State) -> State {
    let mut gone = *desk;
    for feed in &mut gone.feeds.feeds[..desk.feeds.count.min(16)] {
        if feed.period > 0 && is_over(feed, desk.clock) {
            feed.owes = 0;
        }
    }
    gone
}

/// Whether the current piece's deadline has come, and the next piece has not.
fn is_over(feed: &boundary::Feed, clock: Instant) -> bool {
    let boundary::Feed { period, offset, .. } = *feed;
    clock >= offset && (clock - offset) % period >= feed.lead
}

/// Which kinds of state came, with nothing else wrong, and of steps.
#[derive(Default)]
pub struct Seen {
    kinds: RefCell<BTreeSet<&'static str>>,
}

const STATES: [&str; 9] = [
    "deadline length 0",
    "deadline length above the period",
    "a deadline length in an unused place",
    "a piece owes at its deadline",
    "a piece owes a tick before it",
    "a short stretch is full",
    "a short stretch is too full",
    "a short stretch is too full by the charge",
    "a piece before the first would be due below 0",
];

const STEPS: [&str; 4] = [
    "an unserved piece gives way before the next comes",
    "a served piece gives way before the next comes",
    "an unserved piece gives way to the next",
    "a served piece gives way to the next",
];

impl Seen {
    pub fn note(&self, desk: &State) {
        let used = &desk.feeds.feeds[..desk.feeds.count.min(16)];
        let any = |holds: &dyn Fn(&boundary::Feed) -> bool| used.iter().any(holds);
        let owes_so_near = |ticks| {
            let since = |f: &boundary::Feed| desk.clock.checked_sub(f.offset).map(|t| t % f.period);
            any(&|f| f.owes > 0 && since(f).map_or(false, |since| since + ticks == f.lead))
        };
        let good = in_order(desk);
        let by_leads = !good && in_order(&with_leads_cut(desk));
        let by_pieces = !good && in_order(&with_late_pieces_gone(desk));
        let by_a_stretch = is_too_full_in_a_short_stretch(desk);
        let uncharged = State {
            charge: desk.charge.saturating_sub(1),
            ..*desk
        };
        let holds = [
            by_leads && any(&|f| f.lead == 0),
            by_leads && any(&|f| f.lead == f.period + 1),
            by_leads && with_leads_cut(desk).feeds.feeds[..used.len()] == *used,
            by_pieces && owes_so_near(0),
            good && owes_so_near(1),
            good && read(desk).map_or(false, |state| has_a_full_stretch(&state)),
            by_a_stretch,
            by_a_stretch && in_order(&uncharged),
            good && any(&|f| desk.clock < f.offset && f.offset + f.lead < f.period),
        ];
        self.came(&STATES, &holds);
    }

    pub fn note_step(&self, desk: &State, stepped: &Stepped) {
        let count = if stepped.refusal == 0 {
            desk.feeds.count
        } else {
            0
        };
        let left_by = |next: bool, served: bool| {
            let mut feeds = (1..).zip(&desk.feeds.feeds[..count]);
            feeds.any(|(position, feed)| {
                let is_served = (stepped.kind, stepped.number) == (2, position);
                let is_late = feed.owes > u64::from(is_served)
                    && (desk.clock - feed.offset) % feed.period + 1 == feed.lead;
                is_late && (feed.lead == feed.period) == next && is_served == served
            })
        };
        let (soon, later) = (left_by(false, false), left_by(false, true));
        let holds = [soon, later, left_by(true, false), left_by(true, true)];
        self.came(&STEPS, &holds);
    }

    fn came(&self, kinds: &[&'static str], holds: &[bool]) {
        let came = kinds.iter().zip(holds).filter(|(_, holds)| **holds);
        self.kinds.borrow_mut().extend(came.map(|(kind, _)| kind));
    }

    pub fn saw_every_kind(&self) {
        for kind in STATES.iter().chain(&STEPS) {
            assert!(self.kinds.borrow().contains(kind), "{kind} never came");
        }
    }
}

/// Out of order, and in order if every piece were due when the next one comes.
fn is_too_full_in_a_short_stretch(desk: &State) -> bool {
    let nothing_else = with_leads_cut(desk) == *desk && with_late_pieces_gone(desk) == *desk;
    nothing_else && !in_order(desk) && in_order(&to_the_next(desk))
}

fn has_a_full_stretch(state: &Desk) -> bool {
    let shortest = state.feeds.iter().map(|feed| feed.lead).min().unwrap_or(1);
    let round = round_of(&state.feeds).unwrap_or(1);
    let full = |stretch: u64| wanted(&state.feeds, state.charge, stretch) == stretch;
    (shortest..round.min(400)).any(full)
}

// ---------------------------------------------------------------- wrong libraries

/// A library that is wrong in when pieces are due, by number.
struct Mistimed(u32);

impl Library for Mistimed {
    fn open(&self, list: &[u32], start: u64, charge: u32) -> Answer {
        mistimed_opening(self.0, list, start, charge)
    }
    fn open_shared(&self, list: &[u32], start: u64, charge: u32, share: boundary::Share) -> Answer {
        Own.open_shared(list, start, charge, share)
    }
    fn ask(&self, desk: State, number: u32, work: u32, lead: u32) -> Answer {
        let answer = Own.ask(desk, number, work, lead);
        if ![0, 6].contains(&answer.refusal) {
            return answer;
        }
        let seen = mistimed_pieces(self.0, &desk);
        let refusal = Own.ask(seen, number, work, lead).refusal;
        Answer { refusal, ..answer }
    }
    fn ask_mesh(&self, desk: State, head: &[u8], size: u64, number: u32, lead: u32) -> Answer {
        Own.ask_mesh(desk, head, size, number, lead)
    }
    fn ask_undated(&self, desk: State, number: u32, work: u32) -> Answer {
        Own.ask_undated(desk, number, work)
    }
    fn why(&self, desk: State, number: u32, work: u32, lead: u32) -> boundary::Reason {
        let why = Own.why(desk, number, work, lead);
        match why.refusal {
            0 | 6 => Own.why(mistimed_pieces(self.0, &desk), number, work, lead),
            _ => why,
        }
    }
    fn step(&self, desk: State) -> Stepped {
        mistimed_step(self.0, desk)
    }
    fn end(&self, desk: State, number: u32) -> Answer {
        let mut answer = Own.end(desk, number);
        answer.refusal = misjudged(self.0, &desk, answer.refusal, 7);
        answer
    }
    fn rest(&self, desk: State, position: u32) -> Answer {
        let mut answer = Own.rest(desk, position);
        let feed = desk.feeds.feeds[(position as usize).clamp(1, 16) - 1];
        // A piece whose deadline is over is taken for one that can be rested.
        if self.0 == 50 && answer.refusal == 7 && feed.period > 0 && is_over(&feed, desk.clock) {
            answer.refusal = 0;
        }
        answer.refusal = misjudged(self.0, &desk, answer.refusal, 7);
        answer
    }
    fn list(&self, desk: State, buffer: &mut [u64]) -> Listed {
        let mut listed = Own.list(desk, buffer);
        listed.refusal = misjudged(self.0, &desk, listed.refusal, 11);
        listed
    }
    fn label(&self, desk: State, jobs: &[u8], feeds: &[u8]) -> Label {
        match self.0 {
            55 if in_order(&desk) => Own.label(to_the_next(&desk), jobs, feeds),
            _ => Own.label(desk, jobs, feeds),
        }
    }
    right_waves!();
}

/// Line 10 as a library with this fault judges it.
fn is_too_much(fault: u32, feeds: &[Feed], charge: Length) -> bool {
    let round = match round_of(feeds) {
        Some(round) => round,
        None => return true,
    };
    let longest = feeds.iter().map(|feed| feed.period).max().unwrap_or(1);
    let over = |stretch: &u64| wanted(feeds, charge, *stretch) > *stretch;
    match fault {
        // A floor that cuts towards zero.
        4 => (1..=round).any(|stretch| wanted_cut(feeds, charge, stretch) > stretch),
        // The round alone, or all but it, or no stretch longer than a period.
        5 => over(&round),
        6 => (1..round).any(|stretch| over(&stretch)),
        7 => (1..=longest).any(|stretch| over(&stretch)),
        // The charge in the round alone.
        8 => over(&round) || (1..=round).any(|stretch| wanted(feeds, 0, stretch) > stretch),
        // A full stretch counted as too full.
        9 => (1..=round).any(|stretch| wanted(feeds, charge, stretch) >= stretch),
        _ => (1..=round).any(|stretch| over(&stretch)),
    }
}

fn mistimed_opening(fault: u32, list: &[u32], start: u64, charge: u32) -> Answer {
    let mut answer = Own.open(list, start, charge);
    let with_leads = |lead: &dyn Fn(u32, u32) -> u32| {
        let numbers = |four: &[u32]| [four[0], four[1], four[2], lead(four[0], four[3])];
        let list: Vec<u32> = list.chunks_exact(4).flat_map(numbers).collect();
        Own.open(&list, start, charge).refusal
    };
    let feeds = list.chunks_exact(4).map(|four| {
        let [period, work, offset, lead] = [0, 1, 2, 3].map(|at| u64::from(four[at]));
        feed(period, work, offset, lead, 0)
    });
    match (fault, answer.refusal) {
        // Three numbers a feed, a deadline length of 0, or one above the period.
        (1, 12) if list.len() % 3 == 0 => answer.refusal = 2,
        (2, 2) => answer.refusal = with_leads(&|_, lead| lead.max(1)),
        (3, 2) => answer.refusal = with_leads(&|period, lead| lead.min(period)),
        // Line 10 by another rule.
        (4..=9, 0 | 10) => {
            let too_much = is_too_much(fault, &feeds.collect::<Vec<Feed>>(), charge.into());
            answer.refusal = if too_much { 10 } else { 0 };
        }
        // Line 10 by the offsets that are lent.
        (10, 10) if with_leads(&|period, _| period) == 0 => {
            let (feeds, charge) = (feeds.collect(), charge.into());
            answer.refusal = if is_late_as_lent(feeds, start, charge) {
                10
            } else {
                0
            };
        }
        // The deadline length not kept.
        (11, 0) => answer.desk = to_the_next(&answer.desk),
        _ => (),
    }
    answer
}

/// Whether a piece of these feeds is late in two rounds from this start.
fn is_late_as_lent(mut feeds: Vec<Feed>, start: Instant, charge: Length) -> bool {
    for feed in &mut feeds {
        feed.owes = if feed.releases_at(start) {
            feed.work + charge
        } else {
            0
        };
    }
    let round = round_of(&feeds).unwrap();
    let mut desk = Desk {
        clock: start,
        charge,
        feeds,
        ..Desk::default()
    };
    (0..2 * round).any(|_| is_late_in_a_tick(&mut desk))
}

/// What a library with this fault takes the pieces for, when it looks what fits.
fn mistimed_pieces(fault: u32, desk: &State) -> State {
    let mut seen = *desk;
    for feed in &mut seen.feeds.feeds[..desk.feeds.count] {
        match fault {
            // Due when the next one comes.
            20 => feed.lead = feed.period,
            // A deadline below 0, of a piece that never was, taken for 0, so that the
            // first piece is due a period after that.
            21 if desk.clock < feed.offset && feed.offset + feed.lead < feed.period => {
                feed.offset = feed.period - feed.lead;
            }
            _ => (),
        }
    }
    if in_order(&seen) {
        seen
    } else {
        *desk
    }
}

fn mistimed_step(fault: u32, desk: State) -> Stepped {
    let mut stepped = Own.step(desk);
    if stepped.refusal != 0 {
        return stepped;
    }
    let unaware = Own.step(to_the_next(&desk));
    let clock = stepped.desk.clock;
    // Due when the next one comes, in the choice alone.
    if fault == 40 {
        stepped = unaware;
        stepped.desk = with_leads_of(stepped.desk, &desk);
        stepped.desk = with_late_pieces_gone(&stepped.desk);
    }
    let is_served = |at: usize| (stepped.kind, stepped.number) == (2, at as u32 + 1);
    for (at, feed) in stepped.desk.feeds.feeds.iter_mut().enumerate() {
        let before = desk.feeds.feeds[at];
        let left = before.owes.saturating_sub(u64::from(is_served(at)));
        let is_due = before.owes > 0 && (desk.clock - feed.offset) % feed.period + 1 == feed.lead;
        let comes = before.period > 0 && clock % feed.period == feed.offset;
        match fault {
            // A late piece gives way only when the next comes, only where it was not
            // served, or only where it was.
            41 if is_due && !comes => feed.owes = left,
            42 if is_due && !comes && is_served(at) => feed.owes = left,
            43 if is_due && !comes && !is_served(at) => feed.owes = left,
            // What it owed is told only after it gave way.
            44 if is_due && is_served(at) => stepped.owes = 0,
            // A tick early; or the next piece with it.
            45 if !comes && left > 0 && (clock - feed.offset) % feed.period + 1 == feed.lead => {
                feed.owes = 0
            }
            46 if comes && feed.lead == feed.period => feed.owes = 0,
            _ => (),
        }
    }
    stepped
}

/// Whether a state is in order to a library with this fault.
fn counts_as_in_order(fault: u32, desk: &State) -> bool {
    let right = in_order(desk);
    let used = &desk.feeds.feeds[..desk.feeds.count.min(16)];
    let any = |holds: &dyn Fn(&boundary::Feed) -> bool| used.iter().any(holds);
    let cut = with_leads_cut(desk);
    let so_near = |f: &boundary::Feed, ticks| (desk.clock - f.offset) % f.period + ticks == f.lead;
    match fault {
        // The limits of a deadline length.
        60 => right || !any(&|f| f.lead > f.period) && in_order(&cut),
        61 => right || !any(&|f| f.lead == 0) && in_order(&cut),
        62 => right || cut.feeds.feeds[..used.len()] == *used && in_order(&cut),
        // A piece that owes at its deadline, or ever after, or not even before.
        63 => {
            let gone = with_late_pieces_gone(desk);
            let at_it =
                |f: &boundary::Feed| f.owes == 0 || so_near(f, 0) || !is_over(f, desk.clock);
            right || in_order(&gone) && used.iter().all(at_it)
        }
        64 => right || in_order(&with_late_pieces_gone(desk)),
        65 => right && !any(&|f| f.owes > 0 && so_near(f, 1)),
        // Line 10 by the round alone, or without the charge.
        66 => right || is_too_full_in_a_short_stretch(desk),
        67 => {
            let uncharged = State { charge: 0, ..*desk };
            right || is_too_full_in_a_short_stretch(desk) && in_order(&uncharged)
        }
        _ => right,
    }
}

/// The refusal by a library with this fault, which would go on to another.
fn misjudged(fault: u32, desk: &State, right: u32, other: u32) -> u32 {
    match (counts_as_in_order(fault, desk), right) {
        (false, _) => NOT_IN_ORDER,
        (true, NOT_IN_ORDER) => other,
        _ => right,
    }
}

#[test]
fn each_wrong_deadline_is_found() {
    assert!(calls::compare(&Mistimed(0), 8, 0, 2_000).is_ok());
    let faults = (1..=11).chain(20..=21).chain(40..=46);
    for fault in faults.chain([50, 55]).chain(60..=67) {
        assert!(
            calls::compare(&Mistimed(fault), 8, 0, 40_000).is_err(),
            "fault {fault} went by"
        );
    }
}
