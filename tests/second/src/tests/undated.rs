//! What exports with no date change: the opening that carries a share, the deadline that
//! the rule gives, the previous one, a state in order, and that such an ask never gets 6
//! where it should not; and libraries that are wrong in it.

use super::*;
use crate::invent::left_over;

fn share(p: u32, q: u32) -> Share {
    Share { p, q }
}

fn lent(p: u32, q: u32) -> boundary::Share {
    boundary::Share { p, q }
}

/// Opened at 0.
fn opened(list: &[u32], charge: u32, (p, q): (u32, u32)) -> Desk {
    open_shared(list, 0, charge, share(p, q)).unwrap()
}

fn stepped(desk: Desk, ticks: u32) -> Desk {
    (0..ticks).fold(desk, |desk, _| desk.step().unwrap().0)
}

/// The deadline of the job that came last.
fn due(desk: &Desk) -> Instant {
    desk.jobs.last().unwrap().deadline
}

/// The deadlines of jobs of these works, asked for one after the other.
fn dues(mut desk: Desk, works: &[u32]) -> Vec<Instant> {
    let mut dues = Vec::new();
    for (number, work) in (100..).zip(works) {
        desk = desk.ask_undated(number, *work).unwrap();
        dues.push(due(&desk));
    }
    dues
}

// ---------------------------------------------------------------- openings

#[test]
fn a_share_within_its_limits() {
    for (p, q) in [(1, 1), (1, 2), (1, 1_000), (999, 1_000), (1_000, 1_000)] {
        let desk = opened(&[], 0, (p, q));
        assert_eq!((desk.share, desk.previous), (Some(share(p, q)), None));
        let answer = Own.open_shared(&[4, 1, 0, 4], 7, 2, lent(p, q));
        assert_eq!((answer.refusal, answer.desk.previous), (0, 0));
        assert_eq!(answer.desk.share, lent(p, q));
    }
    let most = u32::MAX;
    for (p, q) in [(0, 0), (0, 1), (1, 0), (2, 1), (1, 1_001), (1_001, 1_001)] {
        assert_eq!(open_shared(&[], 0, 0, share(p, q)).err(), Some(19));
        let answer = Own.open_shared(&[4, 1, 0, 4], 7, 2, lent(p, q));
        assert_eq!((answer.refusal, answer.desk), (19, State::default()));
    }
    for (p, q) in [
        (0, most),
        (most, 0),
        (most, most),
        (1, 66_536),
        (1 << 16, 9),
    ] {
        assert_eq!(open_shared(&[], 0, 0, share(p, q)).err(), Some(19));
    }
}

#[test]
fn the_other_opening_carries_none() {
    let answer = Own.open(&[4, 1, 0, 4], 7, 2);
    assert_eq!((answer.desk.share, answer.desk.previous), (lent(0, 0), 0));
    assert_eq!(open(&[], 0, 0).unwrap().ask_undated(1, 1).err(), Some(19));
    // But for the share, one opening is the other.
    let with = Own.open_shared(&[4, 1, 0, 4], 7, 2, lent(1, 9));
    let share = lent(0, 0);
    assert_eq!(State { share, ..with.desk }, answer.desk);
}

#[test]
fn refusals_of_an_opening_with_a_share_in_order() {
    let refusal = |list: &[u32], start, charge, (p, q)| {
        let answer = Own.open_shared(list, start, charge, lent(p, q));
        assert!(answer.refusal == 0 || answer.desk == State::default());
        answer.refusal
    };
    let (late, none, some) = (LAST_INSTANT + 1, (0, 0), (1, 2));
    assert_eq!(refusal(&[0; 69], late, 17, none), 12);
    assert_eq!(refusal(&[0; 68], late, 17, none), 8);
    assert_eq!(refusal(&[0; 4], late, 17, none), 3);
    assert_eq!(refusal(&[0; 4], 0, 17, none), 18);
    // 19 comes before what is said of feeds.
    let (nine, ten) = ([40_319, 1, 0, 40_319, 2, 1, 0, 2], [4, 5, 0, 4]);
    for none in [(0, 0), (0, 1), (1, 0), (2, 1), (1, 1_001)] {
        for list in [&[0; 4][..], &nine, &ten, &[4, 1, 0, 4], &[]] {
            assert_eq!(refusal(list, 0, 16, none), 19);
        }
    }
    assert_eq!(refusal(&[0; 4], 0, 16, some), 2);
    assert_eq!(refusal(&nine, 0, 0, some), 9);
    assert_eq!(refusal(&ten, 0, 0, some), 10);
    assert_eq!(refusal(&[4, 1, 0, 4], LAST_INSTANT, 3, some), 0);
}

/// The share may be more than the feeds leave.
#[test]
fn a_share_is_not_held_against_the_feeds() {
    for (p, q) in [(1, 1_000), (1, 2), (1, 1)] {
        assert!(open_shared(&[4, 4, 0, 4], 0, 0, share(p, q)).is_ok());
        assert!(open_shared(&[2, 1, 0, 2, 4, 2, 0, 2], 0, 0, share(p, q)).is_err());
    }
}

// ---------------------------------------------------------------- the deadline

#[test]
fn a_job_is_due_after_its_time_at_the_share() {
    assert_eq!(dues(opened(&[], 0, (1, 3)), &[4, 1, 5]), [12, 15, 30]);
    assert_eq!(dues(opened(&[], 0, (1, 1)), &[4, 1, 5]), [4, 5, 10]);
    assert_eq!(dues(opened(&[], 0, (7, 7)), &[4, 1, 5]), [4, 5, 10]);
    assert_eq!(dues(opened(&[], 0, (1, 1_000)), &[4, 1]), [4_000, 5_000]);
    // Rounded up, each by itself: 1.5, 3, 4.5, 1.5.
    assert_eq!(dues(opened(&[], 0, (2, 3)), &[1, 2, 3, 1]), [2, 5, 10, 12]);
    // 998.998 and 1,000.
    assert_eq!(
        dues(opened(&[], 0, (999, 1_000)), &[998, 999]),
        [999, 1_999]
    );
}

/// The charge is divided by the share too, and with the work: 9.33 and not 4.67 and 4.67.
#[test]
fn the_charge_counts_in_the_deadline() {
    assert_eq!(dues(opened(&[], 2, (3, 7)), &[1, 2, 2]), [7, 17, 27]);
    let taken = opened(&[], 2, (3, 7)).ask_undated(1, 2).unwrap();
    assert_eq!((due(&taken), taken.jobs[0].owed), (10, 4));
    assert_eq!(dues(opened(&[], 16, (1, 4)), &[1, 4]), [68, 148]);
}

/// Begun ticks are whole ones: the least time of which the share is no less.
#[test]
fn the_time_is_the_least_that_is_enough() {
    let mut random = Random::of(30, 0);
    let (mut whole, mut begun) = (0, 0);
    for _ in 0..3_000 {
        let most = random.pick(&[3, 10, 1_000]);
        let q = random.between(1, most);
        let p = random.between(1, q);
        let (charge, work) = (random.below(17), random.between(1, 60));
        let desk = open_shared(&[], 9, charge as u32, share(p as u32, q as u32)).unwrap();
        let enough = |time: &u64| time * p >= (work + charge) * q;
        let time = (0..).find(enough).unwrap();
        match desk.ask_undated(1, work as u32) {
            Ok(taken) => assert_eq!(due(&taken), 9 + time),
            Err(refusal) => assert!(refusal == 2 && time > 65_536),
        }
        let divides = (work + charge) * q % p == 0;
        whole += u32::from(divides);
        begun += u32::from(!divides);
    }
    assert!(whole > 500 && begun > 500, "{whole} {begun}");
}

#[test]
fn from_the_previous_deadline_or_from_now() {
    let desk = opened(&[], 0, (1, 4)).ask_undated(1, 2).unwrap();
    assert_eq!((due(&desk), desk.previous), (8, Some(8)));
    let next = |ticks| due(&stepped(desk.clone(), ticks).ask_undated(2, 1).unwrap());
    for (ticks, deadline) in [(0, 12), (1, 12), (7, 12), (8, 12), (9, 13), (50, 54)] {
        assert_eq!(next(ticks), deadline, "after {ticks}");
    }
    // The first one's time is counted from when it is asked for.
    let first = opened(&[], 0, (1, 4));
    assert_eq!(due(&stepped(first, 30).ask_undated(1, 1).unwrap()), 34);
    let late = open_shared(&[], LAST_INSTANT - 4, 0, share(1, 4)).unwrap();
    assert_eq!(due(&late.ask_undated(1, 1).unwrap()), LAST_INSTANT);
}

/// What is taken is what the ordinary ask with that lead takes, to the figures.
#[test]
fn it_goes_through_the_ordinary_ask() {
    let mut random = Random::of(31, 0);
    let mut answers = BTreeSet::new();
    for _ in 0..3_000 {
        let mut desk = small_state(&mut random, &[1, 2, 3, 4, 5, 6, 8, 12, 20], 40);
        let q = random.between(1, 6);
        let p = random.between(1, q);
        desk.share = Some(share(p as u32, q as u32));
        let ahead = random.below(30);
        let previous = random.pick(&[0, 1, desk.clock + ahead]);
        desk.previous = Some(previous.min(LAST_INSTANT)).filter(|due| *due > 0);
        let (number, work) = (random.between(1, 5) as u32, random.between(1, 12));
        let time = ((work + desk.charge) * q + p - 1) / p;
        let deadline = desk.clock.max(desk.previous.unwrap_or(0)) + time;
        let asked = desk.ask(number, work as u32, (deadline - desk.clock) as u32);
        let mut expected = asked.clone();
        if let Ok(taken) = &mut expected {
            taken.previous = Some(deadline);
        }
        assert_eq!(desk.ask_undated(number, work as u32), expected, "{desk:?}");
        answers.insert(asked.err().unwrap_or(0));
    }
    assert!(answers.iter().eq(&[0, 3, 4, 6]), "{answers:?}");
}

// ---------------------------------------------------------------- refusals

#[test]
fn refusals_of_an_undated_ask_in_order() {
    let none = open(&[], LAST_INSTANT, 0).unwrap();
    let mut disordered = none.clone();
    disordered.clock += 1;
    assert_eq!(disordered.ask_undated(0, 0).err(), Some(13));
    assert_eq!(none.ask_undated(0, 0).err(), Some(1));
    for work in [0, 1, 65_536, 65_537, u32::MAX] {
        assert_eq!(none.ask_undated(1, work).err(), Some(19));
    }
    let last = open_shared(&[], LAST_INSTANT, 0, share(1, 2)).unwrap();
    assert_eq!(last.ask_undated(0, 0).err(), Some(1));
    for work in [0, 32_769, 65_537, u32::MAX] {
        assert_eq!(last.ask_undated(1, work).err(), Some(2));
    }
    assert_eq!(last.ask_undated(1, 32_768).err(), Some(3));
    assert_eq!(last.ask_undated(1, 1).err(), Some(3));
    let one = open_shared(&[], LAST_INSTANT - 10, 0, share(1, 2)).unwrap();
    let one = one.ask(7, 10, 10).unwrap();
    assert_eq!(one.ask_undated(7, 6).err(), Some(3));
    assert_eq!(one.ask_undated(7, 5).err(), Some(4));
    assert_eq!(one.ask_undated(8, 5).err(), Some(6));
    let mut full = opened(&[], 0, (1, 1));
    for number in 1..=64 {
        full = full.ask_undated(number, 1).unwrap();
    }
    assert_eq!(full.ask_undated(64, 65_472).err(), Some(4));
    assert_eq!(full.ask_undated(65, 65_472).err(), Some(5));
    assert_eq!(full.ask_undated(65, 65_473).err(), Some(2));
    // There is no room, and no place either.
    full.previous = None;
    assert_eq!(full.ask_undated(65, 1).err(), Some(5));
    assert_eq!(full.end(64).unwrap().ask_undated(65, 1).err(), Some(6));
}

#[test]
fn the_limits_of_work_and_of_the_lead() {
    let desk = opened(&[], 0, (1, 1));
    assert_eq!(desk.ask_undated(1, 0).err(), Some(2));
    assert_eq!(due(&desk.ask_undated(1, 1).unwrap()), 1);
    assert_eq!(due(&desk.ask_undated(1, 65_536).unwrap()), 65_536);
    assert_eq!(desk.ask_undated(1, 65_537).err(), Some(2));
    // With the charge the longest work is due too far ahead.
    let charged = opened(&[], 1, (1, 1));
    assert_eq!(due(&charged.ask_undated(1, 65_535).unwrap()), 65_536);
    assert_eq!(charged.ask_undated(1, 65_536).err(), Some(2));
    let third = opened(&[], 0, (1, 3));
    assert_eq!(due(&third.ask_undated(1, 21_845).unwrap()), 65_535);
    assert_eq!(third.ask_undated(1, 21_846).err(), Some(2));
    // The lead is that from now, whatever of it is the previous one's.
    let two = third.ask_undated(1, 21_844).unwrap();
    assert_eq!(due(&two), 65_532);
    assert_eq!(two.ask_undated(2, 2).err(), Some(2));
    assert_eq!(due(&two.ask_undated(2, 1).unwrap()), 65_535);
    assert_eq!(due(&stepped(two, 2).ask_undated(2, 2).unwrap()), 65_538);
    // Also where it is so long that it goes round 32 bits.
    let mut far = opened(&[], 0, (1, 1));
    for previous in [1 << 32, (1 << 32) + 1, 1 << 40, (1 << 40) - 7] {
        far.previous = Some(previous);
        assert_eq!(far.ask_undated(1, 1).err(), Some(2), "{previous}");
    }
}

#[test]
fn the_end_of_the_clock() {
    let desk = open_shared(&[], LAST_INSTANT - 9, 1, share(1, 3)).unwrap();
    assert_eq!(desk.ask_undated(1, 3).err(), Some(3));
    let taken = desk.ask_undated(1, 2).unwrap();
    assert_eq!(
        (due(&taken), taken.previous),
        (LAST_INSTANT, Some(LAST_INSTANT))
    );
    assert!(taken.in_order());
    // Nothing more comes behind it.
    assert_eq!(taken.ask_undated(2, 1).err(), Some(3));
    assert_eq!(stepped(taken, 9).ask_undated(2, 1).err(), Some(3));
    // 2 comes before 3.
    assert_eq!(desk.ask_undated(1, 21_845).err(), Some(2));
    assert_eq!(desk.ask_undated(1, 21_844).err(), Some(3));
}

// ---------------------------------------------------------------- the previous one

/// Asked for, ended, or gone by its last tick: what counts is that it was taken.
#[test]
fn the_previous_deadline_outlives_its_job() {
    let two = opened(&[], 0, (1, 4)).ask_undated(1, 1).unwrap();
    let two = two.ask_undated(2, 1).unwrap();
    assert_eq!(two.previous, Some(8));
    let ended = two.end(2).unwrap();
    assert_eq!((ended.previous, ended.jobs.len()), (Some(8), 1));
    assert_eq!(due(&ended.ask_undated(3, 1).unwrap()), 12);
    assert_eq!(two.end(1).unwrap().end(2).unwrap().previous, Some(8));
    let left = stepped(two, 2);
    assert_eq!((left.previous, left.jobs.len()), (Some(8), 0));
    assert_eq!(due(&left.ask_undated(3, 1).unwrap()), 12);
    // It stays where it is when its time has passed.
    assert_eq!(stepped(left, 20).previous, Some(8));
}

#[test]
fn no_other_call_changes_share_or_previous() {
    let feeds = [6, 1, 0, 6, 8, 1, 3, 5];
    let desk = opened(&feeds, 1, (2, 5)).ask_undated(7, 3).unwrap();
    let kept = (desk.share, desk.previous);
    assert_eq!(kept, (Some(share(2, 5)), Some(10)));
    let same = |after: &Desk| assert_eq!((after.share, after.previous), kept);
    same(&desk.ask(1, 1, 60).unwrap());
    same(&desk.ask(1, 1, 2).unwrap());
    same(&desk.ask_mesh(&front(1, 0), length_of(1), 1, 60).unwrap());
    same(&desk.end(7).unwrap());
    same(&desk.rest(1).unwrap());
    for ticks in [1, 2, 9, 10, 11, 40] {
        same(&stepped(desk.clone(), ticks));
    }
    // Nor does an undated ask that is refused.
    let lent = write(&desk);
    for (number, work, refusal) in [(0, 1, 1), (1, 0, 2), (1, 65_536, 2), (7, 1, 4)] {
        let answer = Own.ask_undated(lent, number, work);
        assert_eq!((answer.refusal, answer.desk), (refusal, lent));
    }
    let booked = write(&desk.ask(1, 5, 21).unwrap());
    let answer = Own.ask_undated(booked, 2, 4);
    assert_eq!((answer.refusal, answer.desk), (6, booked));
}

/// What is looked at and not asked for does not turn on them.
#[test]
fn other_answers_do_not_turn_on_share_or_previous() {
    let mut random = Random::of(32, 0);
    for _ in 0..300 {
        let desk = small_state(&mut random, &[2, 3, 4, 6, 8, 12, 20], 40);
        let mut other = desk.clone();
        other.share = Some(share(1, random.between(1, 1_000) as u32));
        other.previous = Some(random.between(1, LAST_INSTANT));
        let bare = |after: Result<Desk, Refusal>| {
            after.map(|after| Desk {
                share: None,
                previous: None,
                ..after
            })
        };
        let (number, work) = (random.between(1, 5) as u32, random.between(1, 9) as u32);
        let lead = random.between(1, 40) as u32;
        assert_eq!(
            bare(other.ask(number, work, lead)),
            desk.ask(number, work, lead)
        );
        assert_eq!(other.why(number, work, lead), desk.why(number, work, lead));
        assert_eq!(bare(other.end(number)), desk.end(number));
        assert_eq!(bare(other.rest(1)), desk.rest(1));
        assert_eq!(other.list(&mut [0; 16]), desk.list(&mut [0; 16]));
        let ran = |after: Result<(Desk, Ran), Refusal>| after.map(|after| after.1);
        assert_eq!(ran(other.step()), ran(desk.step()));
    }
}

// ---------------------------------------------------------------- never 6

/// The share put aside beside all that is owed, at every instant: q times what is owed by
/// it and p times the time since the later of now and the previous deadline are at most
/// q times the time until it. Between deadlines the right side grows no slower, so those
/// and the first instant tell; and from the last deadline of a job, the previous one and
/// every feed's next release on, a round adds no more to the left than to the right.
fn share_is_free(desk: &Desk) -> bool {
    let (p, q) = match desk.share {
        Some(Share { p, q }) => (i128::from(p), i128::from(q)),
        None => return false,
    };
    let from = desk.clock.max(desk.previous.unwrap_or(0));
    let round = round_of(&desk.feeds).unwrap();
    let far = ahead::far_enough(desk).max(from + 2 * round);
    let free = |owed: &Owed| {
        let (all, time) = (owed.jobs + owed.feeds, owed.at - desk.clock);
        let aside = owed.at.saturating_sub(from);
        q * i128::from(all) + p * i128::from(aside) <= q * i128::from(time)
    };
    let mut instants = Instants::after_the_clock(desk, 0, 1);
    let first = instants.next().unwrap();
    if !free(&first) {
        return false;
    }
    loop {
        let owed = instants.leap(far);
        if !free(&owed) {
            return false;
        }
        if owed.at == far {
            return true;
        }
    }
}

/// Calls on a state, each after the other, by a library; what the last of them says.
fn last_says(library: &dyn Library, desk: State, calls: &[Step]) -> u32 {
    let mut now = (0, desk);
    for call in calls {
        assert_eq!(now.0, 0, "only the last may be refused");
        now = match *call {
            Step::Undated(number, work) => {
                let answer = library.ask_undated(now.1, number, work);
                (answer.refusal, answer.desk)
            }
            Step::End(number) => {
                let answer = library.end(now.1, number);
                (answer.refusal, answer.desk)
            }
            Step::Tick => {
                let stepped = library.step(now.1);
                (stepped.refusal, stepped.desk)
            }
        };
    }
    now.0
}

#[derive(Clone, Copy)]
enum Step {
    Undated(u32, u32),
    End(u32),
    Tick,
}

/// Each gets 6 by its wrong rule, where the feeds leave the share; the right rule takes it.
#[test]
fn wrong_versions_get_6() {
    use Step::{End, Tick, Undated};
    let at = |list: &[u32], start, charge, (p, q)| {
        let desk = open_shared(list, start, charge, share(p, q)).unwrap();
        let (left, round) = left_over(&desk.feeds, desk.charge).unwrap();
        assert!(u64::from(p) * round <= left * u64::from(q), "they leave it");
        write(&desk)
    };
    let two = [Undated(1, 3), Undated(2, 3)];
    let charged = [Tick, Undated(1, 3)];
    let ended = [Undated(1, 2), Undated(2, 1), Tick, End(2), Undated(3, 5)];
    let cases = [
        (ROUNDED_DOWN, at(&[5, 1, 0, 5], 0, 0, (4, 5)), &two[..]),
        (WITHOUT_CHARGE, at(&[4, 2, 0, 4], 3, 1, (1, 4)), &charged),
        (
            FORGOTTEN_AT_ITS_END,
            at(&[3, 2, 0, 3], 3, 0, (1, 3)),
            &ended,
        ),
        (
            FORGOTTEN_AT_ANY_END,
            at(&[3, 2, 0, 3], 3, 0, (1, 3)),
            &ended,
        ),
    ];
    for (fault, desk, calls) in cases {
        assert_eq!(
            last_says(&Misdating(fault), desk, calls),
            6,
            "fault {fault}"
        );
        assert_eq!(last_says(&Own, desk, calls), 0, "instead of fault {fault}");
    }
    // A wrong rule that is later than need be gets none of these; one that is earlier
    // gets 6 here too.
    let (_, desk, calls) = cases[0];
    assert_eq!(last_says(&Misdating(A_TICK_MORE), desk, calls), 0);
    assert_eq!(last_says(&Misdating(FROM_NOW), desk, calls), 6);
}

/// Without one of them 6 may come.
#[test]
fn each_condition_is_needed() {
    let asked = |desk: &Desk, work| desk.ask_undated(9, work).err();
    // A job with a lead of its own, taken before.
    let none = opened(&[], 0, (1, 2));
    assert_eq!(asked(&none, 2), None);
    assert_eq!(asked(&none.ask(1, 3, 4).unwrap(), 2), Some(6));
    let (head, size) = (front(1, 0), length_of(1));
    assert_eq!(
        asked(&none.ask_mesh(&head, size, 1, 4).unwrap(), 1),
        Some(6)
    );
    // It matters when it has left, too: a layer waited for it.
    let half = opened(&[10, 5, 0, 10], 0, (1, 2));
    assert_eq!(asked(&stepped(half.clone(), 5), 1), None);
    let left = stepped(half.ask(1, 5, 5).unwrap(), 5);
    assert!(left.jobs.is_empty());
    assert_eq!(asked(&left, 1), Some(6));
    // A layer due before the next one comes.
    let soon = opened(&[4, 2, 0, 2], 0, (1, 2));
    assert_eq!(asked(&soon, 1), Some(6));
    assert_eq!(asked(&opened(&[4, 2, 0, 4], 0, (1, 2)), 1), None);
    // A share of a thousandth more than is left.
    let more = opened(&[4, 2, 0, 4], 0, (501, 1_000));
    assert_eq!(asked(&more, 501), Some(6));
    assert_eq!(asked(&opened(&[4, 2, 0, 4], 0, (500, 1_000)), 501), None);
    // The charge is part of what feeds want: 3 of 4 ticks here.
    assert_eq!(asked(&opened(&[4, 2, 0, 4], 1, (1, 2)), 1), Some(6));
    assert_eq!(asked(&opened(&[4, 2, 0, 4], 1, (1, 4)), 1), None);
}

/// The one that has less to do may refuse what the other takes: the deadline turns on
/// what was taken with no date before.
#[test]
fn less_load_does_not_help_an_undated_ask() {
    let fresh = opened(&[], 0, (1, 2));
    let used = fresh.ask_undated(1, 50).unwrap().end(1).unwrap();
    let (one, other) = (used.ask(2, 3, 4).unwrap(), fresh.ask(2, 3, 4).unwrap());
    assert_eq!((&one.jobs, &one.feeds), (&other.jobs, &other.feeds));
    assert_eq!(one.ask_undated(3, 2).err(), None);
    assert_eq!(other.ask_undated(3, 2).err(), Some(6));
    // With a lead of their own the two answer alike.
    for (work, lead) in [(1, 4), (2, 4), (2, 5), (40, 60)] {
        let asked = |desk: &Desk| desk.ask(3, work, lead).err();
        assert_eq!(asked(&one), asked(&other));
    }
}

/// A small opening with a share that its feeds leave it, mostly to the last tick.
fn leaving_a_share(random: &mut Random) -> Desk {
    loop {
        let charge = random.pick(&[0, 0, 1, 2]);
        let start = random.below(30);
        let mut list = Vec::new();
        for _ in 0..random.below(4) {
            let period = random.pick(&[2, 3, 4, 5, 6, 8, 10, 12]);
            let work = random.between(1, period);
            list.extend([period, work, random.below(period), period].map(|n| n as u32));
        }
        let feeds = match open(&list, start, charge) {
            Ok(desk) => desk.feeds,
            Err(_) => continue,
        };
        let (left, round) = left_over(&feeds, charge.into()).unwrap();
        if left > 0 {
            let less = random.between(1, left);
            let p = random.pick(&[left, left, left, less]);
            let share = share(p as u32, round as u32);
            return open_shared(&list, start, charge, share).unwrap();
        }
    }
}

/// One call of any kind but an ask with a lead of its own, or that too; what it says where
/// it asks with no date.
fn wander(random: &mut Random, desk: &mut Desk, dated: bool) -> Option<Result<(), Refusal>> {
    let number = random.between(1, 12) as u32;
    let answer = match random.below(12) {
        0..=4 => {
            let work = random.pick(&[1, 1, 2, 3, 5, 9]);
            let answer = desk.ask_undated(number, work);
            let said = answer.as_ref().map(|_| ()).map_err(|refusal| *refusal);
            *desk = answer.unwrap_or_else(|_| desk.clone());
            return Some(said);
        }
        5 if dated => desk.ask(number, 1, random.between(1, 20) as u32),
        5..=6 => desk.end(number),
        7 => desk.rest(random.between(1, 3) as u32),
        _ => desk.step().map(|(next, _)| next),
    };
    *desk = answer.unwrap_or_else(|_| desk.clone());
    None
}

#[test]
fn no_6_and_the_share_stays_free() {
    let mut random = Random::of(33, 0);
    let (mut taken, mut tight, mut ahead, mut gone) = (0, 0, 0, 0);
    for _ in 0..800 {
        let mut desk = leaving_a_share(&mut random);
        assert!(share_is_free(&desk), "{desk:?}");
        for _ in 0..60 {
            let before = desk.clone();
            match wander(&mut random, &mut desk, false) {
                Some(Err(refusal)) => assert!([2, 3, 4, 5].contains(&refusal), "{before:?}"),
                Some(Ok(())) => taken += 1,
                None => (),
            }
            assert!(share_is_free(&desk), "{before:?} then {desk:?}");
            let from = desk.previous.unwrap_or(0);
            ahead += u32::from(from > desk.clock);
            gone += u32::from(from > desk.clock && desk.jobs.iter().all(|j| j.deadline != from));
            // Every tick until some instant is promised.
            let mut near = Instants::after_the_clock(&desk, 0, 1).take(60);
            tight += u32::from(near.any(|owed| owed.margin == 0));
        }
    }
    for count in [taken, tight, ahead, gone] {
        assert!(count > 2_000, "{taken} {tight} {ahead} {gone}");
    }
}

/// Else the test above could not fail: with other jobs taken the share does not stay free,
/// and 6 comes.
#[test]
fn with_other_jobs_6_comes() {
    let mut random = Random::of(34, 0);
    let (mut refused, mut broken) = (0, 0);
    for _ in 0..200 {
        let mut desk = leaving_a_share(&mut random);
        for _ in 0..60 {
            let said = wander(&mut random, &mut desk, true);
            refused += u32::from(said == Some(Err(6)));
            broken += u32::from(!share_is_free(&desk));
        }
    }
    assert!(refused > 100 && broken > 500, "{refused} {broken}");
}

/// The random runs of that kind see a 6 wherever one comes, though both sides say it.
#[test]
fn runs_with_undated_jobs_alone() {
    let tally = calls::compare_undated_alone(&Own, &Own, 12, 20_000).unwrap();
    assert!(tally[&("alone", 0)] > 2_000, "{tally:?}");
    assert!(!tally.contains_key(&("alone", 6)));
    let wrong = [
        ROUNDED_DOWN,
        WITHOUT_CHARGE,
        TO_THE_NEAREST,
        FROM_NOW,
        EXCHANGED,
        WITHOUT_THE_SHARE,
        FORGOTTEN_AT_ITS_END,
        FORGOTTEN_AT_ANY_END,
        FORGOTTEN_AT_ITS_LAST_TICK,
    ];
    for fault in wrong {
        let wrong = Misdating(fault);
        match calls::compare_undated_alone(&wrong, &wrong, 12, 60_000) {
            Ok(_) => panic!("fault {fault} went by"),
            Err(told) => assert!(told.starts_with("no date, and 6"), "{told}"),
        }
    }
    // Later than need be, so that none gets 6: it is the comparing that finds it.
    let wrong = Misdating(A_TICK_MORE);
    assert!(calls::compare_undated_alone(&wrong, &wrong, 12, 5_000).is_ok());
    let told = calls::compare_undated_alone(&Own, &wrong, 12, 5_000).unwrap_err();
    assert!(told.starts_with("--- state"), "{told}");
}

// ---------------------------------------------------------------- a state in order

/// Every call says 13 and hands back the state as it was; a label is nobody's.
fn is_refused(desk: State) {
    let head = front(1, 0);
    let as_it_was = |answer: Answer| assert_eq!((answer.refusal, answer.desk), (13, desk));
    as_it_was(Own.ask(desk, 0, 0, 0));
    as_it_was(Own.ask_undated(desk, 0, 0));
    as_it_was(Own.ask_undated(desk, 9, 1));
    as_it_was(Own.ask_mesh(desk, &head[..83], 0, 0, 0));
    as_it_was(Own.end(desk, 0));
    as_it_was(Own.rest(desk, 1));
    assert_eq!(Own.why(desk, 0, 0, 0).refusal, 13);
    let stepped = Own.step(desk);
    assert_eq!((stepped.refusal, stepped.desk), (13, desk));
    assert_eq!(Own.list(desk, &mut []).refusal, 13);
    assert_eq!(Own.label(desk, &[0; 12], &[0; 128]).length, 0);
}

#[test]
fn the_share_of_a_state_in_order() {
    let good = write(&x());
    let with = |p, q| State {
        share: lent(p, q),
        ..good
    };
    for (p, q) in [(0, 0), (1, 1), (1, 2), (1, 1_000), (1_000, 1_000)] {
        assert!(in_order(&with(p, q)), "{p}/{q}");
        assert_eq!(Own.label(with(p, q), &[], &[0; 16]).length, 8);
    }
    let most = u32::MAX;
    for (p, q) in [
        (0, 1),
        (1, 0),
        (2, 1),
        (1, 1_001),
        (1_001, 1_001),
        (0, 1_000),
    ] {
        is_refused(with(p, q));
    }
    for (p, q) in [
        (most, most),
        (1, most),
        (most, 0),
        (1, 66_536),
        (1_000, 999),
    ] {
        is_refused(with(p, q));
    }
}

#[test]
fn the_previous_deadline_of_a_state_in_order() {
    for p in [0, 1] {
        let good = State {
            share: lent(p, p),
            ..write(&x())
        };
        let with = |previous| State { previous, ..good };
        for previous in [0, 1, 65_536, 65_537, 1 << 32, LAST_INSTANT] {
            assert!(in_order(&with(previous)), "{previous} beside {p}/{p}");
        }
        for previous in [LAST_INSTANT + 1, 1 << 41, 1 << 63, u64::MAX] {
            is_refused(with(previous));
        }
    }
    // At the clock, before it and after it, as no job need be there.
    let mut desk = x();
    desk.clock = 100;
    desk.share = Some(share(1, 2));
    for previous in [1, 99, 100, 101, 70_000] {
        desk.previous = Some(previous);
        assert!(desk.in_order(), "{previous}");
    }
}

#[test]
fn states_come_back_as_they_were() {
    for (p, q, previous) in [(0, 0, 0), (0, 0, 9), (1, 3, 0), (1, 3, LAST_INSTANT)] {
        let desk = State {
            share: lent(p, q),
            previous,
            ..write(&x())
        };
        assert_eq!(write(&read(&desk).unwrap()), desk);
    }
}

// ---------------------------------------------------------------- comparing calls

/// The state with no share and no previous deadline.
fn bare(desk: &State) -> State {
    State {
        share: lent(0, 0),
        previous: 0,
        ..*desk
    }
}

fn is_share(share: boundary::Share) -> bool {
    share.p >= 1 && share.p <= share.q && share.q <= 1_000
}

/// Which openings, states and asks came.
#[derive(Default)]
pub struct Seen {
    kinds: RefCell<BTreeSet<&'static str>>,
}

/// 19 and what it comes before, and what comes before it.
const REFUSED: [&str; 12] = [
    "share 0/0",
    "share 0/1",
    "share 1/0",
    "share 2/1",
    "share 1/1,001",
    "no share and 12",
    "no share and 8",
    "no share and 3",
    "no share and 18",
    "no share and 2",
    "no share and 9",
    "no share and 10",
];

const OPENED: [&str; 9] = [
    "share 1/1",
    "share 1/1,000",
    "share 1,000/1,000",
    "a share not in lowest terms",
    "with the feeds 1 in all",
    "with the feeds 1 in all, under a charge",
    "with the feeds little more than 1",
    "with the feeds little less than 1",
    "with the feeds not half",
];

/// Nothing else being wrong.
const STATES: [&str; 14] = [
    "0/1",
    "1/0",
    "2/1",
    "1/1,001",
    "1,001/1,001",
    "1,000/1,000",
    "1/1,000",
    "1/1",
    "a previous deadline at the last instant",
    "a previous deadline past the last instant",
    "a previous deadline of the highest number",
    "a previous deadline beside no share",
    "a previous deadline before the clock",
    "a previous deadline further ahead than any lead",
];

const ASKS: [&str; 26] = [
    "work 0",
    "work 1",
    "work 65,536",
    "work 65,537",
    "no share, number 0",
    "no share, a work outside",
    "no share, not in order",
    "lead 65,536",
    "lead 65,537",
    "a lead past 32 bits",
    "due at the last instant",
    "due a tick past it",
    "too far ahead and past the last instant",
    "too far ahead, the number live",
    "past the last instant, the number live",
    "taken, the first",
    "taken, the previous one over",
    "taken, the previous one due now",
    "taken behind the previous one",
    "taken behind one that has left",
    "taken, no tick begun",
    "taken, a tick begun",
    "taken, the charge rounded with the work",
    "refused by 6 behind the previous one",
    "refused by 6, the first",
    "refused by 5",
];

impl Seen {
    pub fn note_open(&self, list: &[u32], start: u64, charge: u32, share: boundary::Share) {
        let none = !is_share(share);
        let other = Own.open(list, start, charge);
        let is = |p, q| share == lent(p, q) && other.refusal == 0;
        let both = |refusal| none && other.refusal == refusal;
        let holds = [
            is(0, 0),
            is(0, 1),
            is(1, 0),
            is(2, 1),
            is(1, 1_001),
            both(12),
            both(8),
            both(3),
            both(18),
            both(2),
            both(9),
            both(10),
        ];
        self.came(&REFUSED, &holds);
        if none || other.refusal != 0 {
            return;
        }
        let state = read(&other.desk).unwrap();
        let (left, round) = left_over(&state.feeds, state.charge).unwrap();
        let (p, q) = (u64::from(share.p), u64::from(share.q));
        // In parts of one q of a round.
        let (shared, left) = (p * round, left * q);
        let whole = !state.feeds.is_empty() && shared == left;
        let holds = [
            is(1, 1),
            is(1, 1_000),
            is(1_000, 1_000),
            common_divisor(q, p) > 1,
            whole,
            whole && charge > 0,
            shared > left && shared <= left + round,
            shared < left && left <= shared + round,
            2 * shared < left,
        ];
        self.came(&OPENED, &holds);
    }

    pub fn note(&self, desk: &State) {
        if !in_order(&bare(desk)) {
            return;
        }
        let good = in_order(desk);
        let (previous, clock) = (desk.previous, desk.clock);
        let none = desk.share == lent(0, 0);
        let is = |p, q, in_order| desk.share == lent(p, q) && good == in_order;
        let by_previous = !good && (none || is_share(desk.share));
        let holds = [
            is(0, 1, false),
            is(1, 0, false),
            is(2, 1, false),
            is(1, 1_001, false),
            is(1_001, 1_001, false),
            is(1_000, 1_000, true),
            is(1, 1_000, true),
            is(1, 1, true),
            good && previous == LAST_INSTANT,
            by_previous && previous == LAST_INSTANT + 1,
            by_previous && previous == u64::MAX,
            good && none && previous > 0,
            good && previous > 0 && previous < clock,
            good && previous > clock + JOB_LENGTH_MOST,
        ];
        self.came(&STATES, &holds);
    }

    pub fn note_ask(&self, desk: &State, number: u32, work: u32, answer: &Answer) {
        let (none, good) = (desk.share == lent(0, 0), in_order(desk));
        let outside = !(1..=65_536).contains(&work);
        let refusal = answer.refusal;
        let passes = number != 0 && is_share(desk.share) && good;
        let (lead, begun) = if passes {
            let Dated { deadline, begun } = dated(desk, work.into());
            (deadline - desk.clock, begun)
        } else {
            (0, 0)
        };
        let room = LAST_INSTANT.saturating_sub(desk.clock);
        let live = live(desk).iter().any(|job| job.number == number);
        let (first, previous) = (desk.previous == 0, desk.previous);
        let taken = passes && refusal == 0;
        let left = super::live(desk).iter().all(|job| job.deadline != previous);
        let holds = [
            passes && work == 0,
            taken && work == 1,
            passes && work == 65_536,
            passes && work == 65_537,
            good && none && number == 0,
            good && none && number != 0 && outside,
            none && !good,
            taken && lead == 65_536,
            passes && !outside && lead == 65_537,
            passes && !outside && lead > u64::from(u32::MAX),
            taken && lead == room,
            refusal == 3 && lead == room + 1,
            passes && !outside && lead > JOB_LENGTH_MOST && lead > room,
            passes && !outside && lead > JOB_LENGTH_MOST && live,
            refusal == 3 && live,
            taken && first,
            taken && !first && previous < desk.clock,
            taken && previous == desk.clock && previous > 0,
            taken && previous > desk.clock,
            taken && previous > desk.clock && left,
            taken && begun == 0,
            taken && begun > 0,
            taken && desk.charge > 0 && due_if_rounded_twice(desk, work) != lead,
            refusal == 6 && previous > desk.clock,
            refusal == 6 && first,
            refusal == 5,
        ];
        self.came(&ASKS, &holds);
    }

    fn came(&self, kinds: &[&'static str], holds: &[bool]) {
        assert_eq!(kinds.len(), holds.len());
        let came = kinds.iter().zip(holds).filter(|(_, holds)| **holds);
        self.kinds.borrow_mut().extend(came.map(|(kind, _)| kind));
    }

    pub fn saw_every_kind(&self) {
        let openings = REFUSED.iter().chain(&OPENED);
        for kind in openings.chain(&STATES).chain(&ASKS) {
            assert!(self.kinds.borrow().contains(kind), "{kind} never came");
        }
    }
}

/// When a job of this work is due by the rule, and how much of its last tick is over.
struct Dated {
    deadline: Instant,
    begun: Length,
}

fn dated(desk: &State, work: Length) -> Dated {
    let (p, q) = (u64::from(desk.share.p), u64::from(desk.share.q));
    let ticks = (work + desk.charge) * q;
    Dated {
        deadline: desk.clock.max(desk.previous) + (ticks + p - 1) / p,
        begun: ticks % p,
    }
}

/// The lead if work and charge were each rounded by themselves.
fn due_if_rounded_twice(desk: &State, work: u32) -> Length {
    wrong_deadline(ROUNDED_TWICE, desk, work.into()) - desk.clock
}

// ---------------------------------------------------------------- wrong libraries

/// A library that is wrong in exports with no date, by number.
struct Misdating(u32);

const ROUNDED_DOWN: u32 = 30;
const WITHOUT_CHARGE: u32 = 31;
const ROUNDED_TWICE: u32 = 32;
const A_TICK_MORE: u32 = 33;
const TO_THE_NEAREST: u32 = 34;
const FROM_NOW: u32 = 35;
const FROM_THE_PREVIOUS: u32 = 36;
const EXCHANGED: u32 = 37;
const WITHOUT_THE_SHARE: u32 = 38;
const CHARGE_UNDIVIDED: u32 = 39;
const FORGOTTEN_AT_ITS_END: u32 = 84;
const FORGOTTEN_AT_ANY_END: u32 = 85;
const FORGOTTEN_AT_ITS_LAST_TICK: u32 = 87;

/// The deadline by a library with this fault, on a state in order that has a share.
fn wrong_deadline(fault: u32, desk: &State, work: Length) -> Instant {
    let (p, q) = (u64::from(desk.share.p), u64::from(desk.share.q));
    let (clock, charge, previous) = (desk.clock, desk.charge, desk.previous);
    let from = clock.max(previous);
    let owed = work + charge;
    let time = |ticks: Length| (ticks * q + p - 1) / p;
    match fault {
        ROUNDED_DOWN => from + owed * q / p,
        WITHOUT_CHARGE => from + time(work),
        ROUNDED_TWICE => from + time(work) + time(charge),
        A_TICK_MORE => from + owed * q / p + 1,
        TO_THE_NEAREST => from + (2 * owed * q + p) / (2 * p),
        FROM_NOW => clock + time(owed),
        // Also where that is over, so that it may be due before now.
        FROM_THE_PREVIOUS if previous > 0 => previous + time(owed),
        EXCHANGED => from + (owed * p + q - 1) / q,
        WITHOUT_THE_SHARE => from + owed,
        CHARGE_UNDIVIDED => from + time(work) + charge,
        _ => from + time(owed),
    }
}

/// As the ask with no date by the right rule, but for the deadline.
fn asked_by(fault: u32, desk: State, number: u32, work: u32) -> Answer {
    let right = Own.ask_undated(desk, number, work);
    if [13, 1, 19].contains(&right.refusal) {
        return right;
    }
    let deadline = wrong_deadline(fault, &desk, work.into());
    let lead = deadline.saturating_sub(desk.clock);
    let mut answer = Own.ask(desk, number, work, lead.min(1 << 20) as u32);
    if answer.refusal == 0 {
        answer.desk.previous = deadline;
    }
    answer
}

impl Library for Misdating {
    fn open(&self, list: &[u32], start: u64, charge: u32) -> Answer {
        let mut answer = Own.open(list, start, charge);
        match (self.0, answer.refusal) {
            // One where none was lent, or a previous deadline where none was taken.
            (24, 0) => answer.desk.previous = start,
            (25, 0) => answer.desk.share = lent(1, 1),
            _ => (),
        }
        answer
    }
    fn open_shared(&self, list: &[u32], start: u64, charge: u32, share: boundary::Share) -> Answer {
        misdated_opening(self.0, list, start, charge, share)
    }
    fn ask(&self, desk: State, number: u32, work: u32, lead: u32) -> Answer {
        if self.0 == 120 {
            return Own.ask(trusted(desk), number, work, lead);
        }
        let mut answer = Own.ask(desk, number, work, lead);
        let deadline = desk.clock.wrapping_add(lead.into());
        let previous = &mut answer.desk.previous;
        match (self.0, answer.refusal) {
            // A yes to this is remembered too, or where it is the later; or what was
            // remembered is forgotten.
            (80, 0) => *previous = deadline,
            (81, 0) => *previous = deadline.max(*previous),
            (83, 0) => *previous = 0,
            (92, 0) => answer.desk.share = lent(0, 0),
            _ => (),
        }
        answer
    }
    fn ask_mesh(&self, desk: State, head: &[u8], size: u64, number: u32, lead: u32) -> Answer {
        if self.0 == 121 {
            return Own.ask_mesh(trusted(desk), head, size, number, lead);
        }
        let mut answer = Own.ask_mesh(desk, head, size, number, lead);
        match (self.0, answer.refusal) {
            (82, 0) => answer.desk.previous = desk.clock + u64::from(lead),
            (95, 0) => answer.desk.share = lent(0, 0),
            _ => (),
        }
        answer
    }
    fn ask_undated(&self, desk: State, number: u32, work: u32) -> Answer {
        match self.0 {
            30..=39 => asked_by(self.0, desk, number, work),
            122 => Own.ask_undated(trusted(desk), number, work),
            _ => misdated_ask(self.0, desk, number, work),
        }
    }
    fn why(&self, desk: State, number: u32, work: u32, lead: u32) -> boundary::Reason {
        match self.0 {
            123 => Own.why(trusted(desk), number, work, lead),
            _ => Own.why(desk, number, work, lead),
        }
    }
    fn step(&self, desk: State) -> Stepped {
        let mut stepped = match self.0 {
            124 => Own.step(trusted(desk)),
            _ => Own.step(desk),
        };
        if stepped.refusal != 0 {
            return stepped;
        }
        let now = stepped.desk.clock;
        let due = desk.previous;
        let last_tick = stepped.kind == 1 && stepped.owes == 0;
        let served = live(&desk).first().map(|job| job.deadline);
        let next = &mut stepped.desk;
        match self.0 {
            FORGOTTEN_AT_ITS_LAST_TICK if last_tick && served == Some(due) => next.previous = 0,
            // Forgotten once it is over, or moved on with the clock.
            88 if due <= now => next.previous = 0,
            89 => next.previous = due.max(now),
            96 if due > 0 => next.previous = (due + 1).min(LAST_INSTANT),
            91 => next.share = lent(0, 0),
            _ => (),
        }
        stepped
    }
    fn end(&self, desk: State, number: u32) -> Answer {
        let mut answer = Own.end(desk, number);
        if answer.refusal == 0 {
            let ended = live(&desk).iter().find(|job| job.number == number);
            let last = live(&answer.desk).last().map_or(0, |job| job.deadline);
            let is_its = ended.map_or(false, |job| job.deadline == desk.previous);
            match self.0 {
                FORGOTTEN_AT_ITS_END if is_its => answer.desk.previous = 0,
                FORGOTTEN_AT_ANY_END => answer.desk.previous = 0,
                // As far back as the jobs that are left.
                86 => answer.desk.previous = last,
                93 => answer.desk.share = lent(0, 0),
                _ => (),
            }
        }
        answer.refusal = misjudged(self.0, &desk, answer.refusal, 7);
        answer
    }
    fn rest(&self, desk: State, position: u32) -> Answer {
        let mut answer = Own.rest(desk, position);
        match (self.0, answer.refusal) {
            (90, 0) => answer.desk.previous = 0,
            (94, 0) => answer.desk.share = lent(0, 0),
            _ => (),
        }
        answer.refusal = misjudged(self.0, &desk, answer.refusal, 7);
        answer
    }
    fn list(&self, desk: State, buffer: &mut [u64]) -> Listed {
        let mut listed = Own.list(desk, buffer);
        listed.refusal = misjudged(self.0, &desk, listed.refusal, 11);
        listed
    }
    fn label(&self, desk: State, jobs: &[u8], feeds: &[u8]) -> Label {
        match self.0 {
            125 => Own.label(trusted(desk), jobs, feeds),
            _ => Own.label(desk, jobs, feeds),
        }
    }
    right_waves!();
}

/// The state as a call takes it that does not look at share and previous deadline.
fn trusted(desk: State) -> State {
    if in_order(&desk) {
        desk
    } else {
        bare(&desk)
    }
}

fn misdated_opening(
    fault: u32,
    list: &[u32],
    start: u64,
    charge: u32,
    share: boundary::Share,
) -> Answer {
    let mut right = Own.open_shared(list, start, charge, share);
    let mut other = Own.open(list, start, charge);
    if other.refusal == 0 {
        other.desk.share = share;
    }
    let boundary::Share { p, q } = share;
    let none = !is_share(share);
    let refused = |refusal| Answer {
        desk: State::default(),
        refusal,
    };
    match (fault, right.refusal) {
        // One of the four is not looked for.
        (1, 19) if p == 0 && (1..=1_000).contains(&q) => other,
        (2, 19) if q == 0 && p > 0 => other,
        (3, 19) if p > q && q > 0 && q <= 1_000 => other,
        (4, 19) if q == 1_001 && p > 0 && p <= q => other,
        // Less than the whole, or less than 1,000.
        (5, 0 | 2 | 9 | 10) if q == 1_000 => refused(19),
        (6, 0 | 2 | 9 | 10) if p == q => refused(19),
        // 0/0 taken for none, or every share with a 0 in it.
        (7, 19) if p == 0 && q == 0 => other,
        (8, 19) if p == 0 || q == 0 => Own.open(list, start, charge),
        (9, 19) if is_share(lent(p % (1 << 16), q % (1 << 16))) => other,
        // At another place in the order.
        (10, 18) | (11, 3) | (12, 8) | (13, 12) if none => refused(19),
        (14, 19) if other.refusal == 2 => refused(2),
        (15, 19) if other.refusal == 9 => refused(9),
        (16, 19) if other.refusal == 10 => refused(10),
        // A refused opening that keeps it, one that passes and does not.
        (17, 1..) => {
            right.desk.share = share;
            right
        }
        (18, 0) => Own.open(list, start, charge),
        // Kept in lowest terms, or the other way round.
        (19, 0) => {
            let divisor = common_divisor(q.into(), p.into()) as u32;
            right.desk.share = lent(p / divisor, q / divisor);
            right
        }
        (20, 0) => {
            right.desk.share = lent(q, p);
            right
        }
        // A previous deadline where none was taken, or from a refused opening.
        (21, 0) | (26, 1..) => {
            right.desk.previous = start;
            right
        }
        // Held against what the feeds leave.
        (22, 0) if is_more_than_is_left(&right.desk) => refused(10),
        (23, 0) if is_more_than_is_left(&right.desk) => refused(19),
        _ => right,
    }
}

fn is_more_than_is_left(desk: &State) -> bool {
    let state = read(desk).unwrap();
    let (left, round) = left_over(&state.feeds, state.charge).unwrap();
    u64::from(desk.share.p) * round > left * u64::from(desk.share.q)
}

fn misdated_ask(fault: u32, desk: State, number: u32, work: u32) -> Answer {
    let mut answer = Own.ask_undated(desk, number, work);
    let refusal = answer.refusal;
    let refused = |refusal| Answer { desk, refusal };
    let none = desk.share == lent(0, 0);
    let outside = !(1..=65_536).contains(&work);
    let is_live = live(&desk).iter().any(|job| job.number == number);
    // No share, no lead: then nothing below holds but where it says so.
    let (deadline, lead) = match refusal {
        13 | 1 | 19 => (0, 0),
        _ => {
            let Dated { deadline, .. } = dated(&desk, work.into());
            (deadline, deadline - desk.clock)
        }
    };
    let too_far = refusal == 2 && !outside;
    let last = live(&desk).last().map_or(0, |job| job.deadline);
    let previous = &mut answer.desk.previous;
    match fault {
        // 19 at another place in the order, or the whole processor where there is none.
        50 if refusal == 19 && outside => return refused(2),
        51 if refusal == 1 && none => return refused(19),
        52 if refusal == 13 && none => return refused(19),
        58 if refusal == 19 => {
            let whole = State {
                share: lent(1, 1),
                ..desk
            };
            let mut answer = Own.ask_undated(whole, number, work);
            answer.desk.share = desk.share;
            return answer;
        }
        // 3, 4 or 5 before 2, or in its place.
        53 if refusal == 2 && deadline > LAST_INSTANT => return refused(3),
        54 if [2, 3].contains(&refusal) && is_live => return refused(4),
        55 if [2, 3].contains(&refusal) && desk.table.count == 64 => return refused(5),
        56 if too_far => return refused(3),
        57 if too_far => return refused(6),
        // The longest lead one higher or lower, or counted from the previous deadline.
        59 if too_far && lead == 65_537 => return refused(6),
        60 if [0, 3, 4, 5, 6].contains(&refusal) && lead == 65_536 => return refused(2),
        61 if too_far && deadline - desk.clock.max(desk.previous) <= 65_536 => return refused(6),
        // In 32 bits.
        62 if lead > u64::from(u32::MAX) => return Own.ask(desk, number, work, lead as u32),
        // Taken for what never gets 6, or for what fits only beside less.
        64 if refusal == 6 => answer.refusal = 0,
        65 if refusal == 0 && is_more_than_is_left(&desk) => return refused(6),
        // Of a yes nothing is remembered, or another instant, or a length.
        70 if refusal == 0 => *previous = desk.previous,
        71 if refusal == 0 => *previous = desk.clock,
        72 if refusal == 0 => *previous = lead,
        // Of a refusal its deadline is.
        73 if refusal == 6 => *previous = deadline,
        74 if [4, 5].contains(&refusal) => *previous = deadline,
        // The latest of all jobs.
        75 if refusal == 0 => *previous = deadline.max(last),
        // A share that is used up.
        76 if refusal == 0 => answer.desk.share = lent(0, 0),
        77 if refusal == 0 => answer.desk.share.p -= 1,
        _ => (),
    }
    answer
}

/// Whether a state is in order to a library with this fault.
fn counts_as_in_order(fault: u32, desk: &State) -> bool {
    let right = in_order(desk);
    let boundary::Share { p, q } = desk.share;
    let (previous, clock) = (desk.previous, desk.clock);
    let none = (p, q) == (0, 0);
    let others = in_order(&bare(desk));
    let (shares, recent) = (none || is_share(desk.share), previous <= LAST_INSTANT);
    match fault {
        // One of the four is not looked for in the share.
        100 => right || others && recent && p == 0 && q <= 1_000,
        101 => right || others && recent && q == 0,
        102 => right || others && recent && p > q && q > 0 && q <= 1_000,
        103 => right || others && recent && q == 1_001 && p > 0 && p <= q,
        // In order, and not to it: the highest q, the whole, no share, or any at all.
        104 => right && q != 1_000,
        105 => right && (none || p < q),
        106 => right && !none,
        107 => right && none,
        // The previous deadline's limit one higher, one lower, or none.
        108 => right || others && shares && previous == LAST_INSTANT + 1,
        109 => right && previous < LAST_INSTANT,
        110 => right || others && shares,
        // In order, and not to it: beside no share, before the clock, too far ahead, or
        // with no job that is due then.
        111 => right && (previous == 0 || !none),
        112 => right && (previous == 0 || previous >= clock),
        113 => right && previous <= clock + JOB_LENGTH_MOST,
        114 => right && (previous <= clock || live(desk).iter().any(|j| j.deadline == previous)),
        // The share not looked at, or in the low bits, or the deadline in them.
        115 => right || others && recent,
        116 => right || others && recent && is_share(lent(p % (1 << 16), q % (1 << 16))),
        117 => right || others && shares && previous % (1 << 32) <= LAST_INSTANT,
        _ => right,
    }
}

/// The refusal by a library with this fault, which would go on to another.
fn misjudged(fault: u32, desk: &State, right: u32, other: u32) -> u32 {
    match (counts_as_in_order(fault, desk), right) {
        (false, _) => NOT_IN_ORDER,
        (true, NOT_IN_ORDER) => other,
        _ => right,
    }
}

#[test]
fn each_wrong_share_of_an_opening_is_found() {
    assert!(calls::compare(&Misdating(0), 11, 0, 2_000).is_ok());
    for fault in 1..=26 {
        match calls::compare(&Misdating(fault), 11, 0, 40_000) {
            Ok(_) => panic!("fault {fault} went by"),
            Err(told) => assert!(told.contains("Open(Opening {"), "fault {fault}"),
        }
    }
}

#[test]
fn each_wrong_deadline_by_the_rule_is_found() {
    for fault in (30..=39).chain(50..=62).chain(64..=65).chain(70..=77) {
        match calls::compare(&Misdating(fault), 11, 0, 40_000) {
            Ok(_) => panic!("fault {fault} went by"),
            Err(told) => assert!(told.contains("AskUndated {"), "fault {fault}"),
        }
    }
}

#[test]
fn each_wrong_previous_deadline_is_found() {
    for fault in 80..=96 {
        match calls::compare(&Misdating(fault), 11, 0, 40_000) {
            Ok(_) => panic!("fault {fault} went by"),
            Err(told) => assert!(!told.contains("AskUndated {"), "fault {fault}"),
        }
    }
}

#[test]
fn each_wrong_share_of_a_state_is_found() {
    for fault in (100..=117).chain(120..=125) {
        assert!(
            calls::compare(&Misdating(fault), 11, 0, 40_000).is_err(),
            "fault {fault} went by"
        );
    }
}
