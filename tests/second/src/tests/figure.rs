//! What the figure changes: each job's record after every call, the list, and a state
//! in order; and libraries that are wrong in it.

use super::*;
use crate::calls::{add_up, figures_by, Rule};

fn opened(charge: u32) -> Desk {
    open(&[], 0, charge).unwrap()
}

/// The jobs as they came: number and figure.
fn shown(desk: &Desk) -> Vec<(u32, Length)> {
    desk.jobs
        .iter()
        .map(|job| (job.number, job.figure))
        .collect()
}

fn stepped(desk: &Desk) -> Desk {
    desk.step().unwrap().0
}

/// Job 1 owes 2 by 4, jobs 2 and 3 owe 3 and 1 by 9, job 4 owes 5 by 30.
fn four() -> Desk {
    let asks = [(3, 1, 9), (4, 5, 30), (1, 2, 4), (2, 3, 9)];
    asks.into_iter()
        .fold(opened(0), |desk, (number, work, lead)| {
            desk.ask(number, work, lead).unwrap()
        })
}

// ---------------------------------------------------------------- asks

#[test]
fn a_job_alone_shows_what_it_owes() {
    assert_eq!(shown(&opened(0).ask(7, 3, 6).unwrap()), [(7, 3)]);
    assert_eq!(shown(&opened(2).ask(7, 3, 6).unwrap()), [(7, 5)]);
    let most = opened(16).ask(7, 65_520, 65_536).unwrap();
    assert_eq!(shown(&most), [(7, 65_536)]);
}

#[test]
fn a_later_job_shows_the_earlier_too() {
    let first = opened(0).ask(1, 3, 4).unwrap();
    assert_eq!(shown(&first.ask(2, 5, 20).unwrap()), [(1, 3), (2, 8)]);
    assert_eq!(shown(&first.ask(2, 5, 8).unwrap()), [(1, 3), (2, 8)]);
    let second = opened(0).ask(2, 5, 20).unwrap();
    assert_eq!(shown(&second.ask(1, 3, 4).unwrap()), [(2, 8), (1, 3)]);
    // By one tick.
    let near = opened(0).ask(1, 3, 19).unwrap().ask(2, 5, 20).unwrap();
    assert_eq!(shown(&near), [(1, 3), (2, 8)]);
}

#[test]
fn jobs_due_together_show_the_same() {
    let two = opened(0).ask(1, 3, 10).unwrap().ask(2, 4, 10).unwrap();
    assert_eq!(shown(&two), [(1, 7), (2, 7)]);
    let three = two.ask(3, 1, 11).unwrap();
    assert_eq!(shown(&three), [(1, 7), (2, 7), (3, 8)]);
    let five = three.ask(9, 2, 10).unwrap().ask(8, 1, 1).unwrap();
    let expected = [(1, 10), (2, 10), (3, 11), (9, 10), (8, 1)];
    assert_eq!(shown(&five), expected);
    // Asked for at other instants.
    let later = stepped(&opened(0).ask(1, 3, 10).unwrap());
    assert_eq!(shown(&later), [(1, 2)]);
    assert_eq!(shown(&later.ask(2, 4, 9).unwrap()), [(1, 6), (2, 6)]);
}

/// Neither that nor the number: the figures go by deadlines alone.
#[test]
fn the_order_of_asks_plays_no_part() {
    let asks = [(5, 1, 9), (1, 2, 9), (3, 4, 20), (2, 8, 40)];
    let expected = [(1, 3), (2, 15), (3, 7), (5, 3)];
    for turn in 0..256 {
        let order = [turn % 4, turn / 4 % 4, turn / 16 % 4, turn / 64];
        if order.iter().collect::<BTreeSet<_>>().len() < 4 {
            continue;
        }
        let desk = order.iter().fold(opened(0), |desk, ask| {
            let (number, work, lead) = asks[*ask];
            desk.ask(number, work, lead).unwrap()
        });
        let mut figures = shown(&desk);
        figures.sort_unstable();
        assert_eq!(figures, expected, "asked in the order {order:?}");
    }
}

#[test]
fn a_mesh_is_shown_with_its_charge() {
    let (head, size) = (front(12_345, 0), length_of(12_345));
    let one = opened(3).ask(1, 10, 100).unwrap();
    let two = one.ask_mesh(&head, size, 2, 60).unwrap();
    assert_eq!(shown(&two), [(1, 13 + 19), (2, 19)]);
    let three = two.ask_mesh(&head, size, 3, 100).unwrap();
    assert_eq!(shown(&three), [(1, 51), (2, 19), (3, 51)]);
}

/// Layers are not in it, whatever becomes of them.
#[test]
fn feeds_are_not_shown() {
    let desk = open(&[4, 1, 0, 4, 6, 2, 0, 6], 0, 0).unwrap();
    let two = desk.ask(1, 1, 7).unwrap().ask(2, 1, 12).unwrap();
    let figures = [(1, 1), (2, 2)];
    assert_eq!(shown(&two), figures);
    assert_eq!(shown(&two.rest(2).unwrap()), figures);
    assert_eq!(shown(&two.rest(1).unwrap()), figures);
    let (next, ran) = two.step().unwrap();
    assert_eq!(ran.runner, Runner::Feed(1));
    assert_eq!(shown(&next), figures);
    // A piece that comes, one that gives way, an idle tick.
    let mut desk = open(&[4, 1, 1, 1], 0, 0).unwrap().ask(1, 1, 9).unwrap();
    assert_eq!(stepped(&desk).feeds[0].owes, 1);
    desk = figured(Desk {
        jobs: vec![job(1, 2, 2), job(2, 1, 9)],
        ..stepped(&desk)
    });
    let (next, ran) = desk.step().unwrap();
    assert_eq!((ran.runner, next.feeds[0].owes), (Runner::Job(1), 0));
    assert_eq!(shown(&next), [(1, 1), (2, 2)]);
}

// ---------------------------------------------------------------- steps and ends

#[test]
fn a_tick_takes_one_from_every_job_due_no_earlier() {
    let mut desk = four();
    assert_eq!(shown(&desk), [(3, 6), (4, 11), (1, 2), (2, 6)]);
    let expected = [
        vec![(3, 5), (4, 10), (1, 1), (2, 5)],
        // Job 1 leaves with its last tick.
        vec![(3, 4), (4, 9), (2, 4)],
        vec![(3, 3), (4, 8), (2, 3)],
        vec![(3, 2), (4, 7), (2, 2)],
        // Job 2 leaves, job 3 is due together with it.
        vec![(3, 1), (4, 6)],
        vec![(4, 5)],
        vec![(4, 4)],
    ];
    for figures in expected {
        desk = stepped(&desk);
        assert_eq!(shown(&desk), figures, "at {}", desk.clock);
        assert!(desk.in_order());
    }
}

#[test]
fn an_end_takes_away_all_that_was_owed() {
    let desk = four();
    for (number, figures) in [
        (1, [(3, 4), (4, 9), (2, 4)]),
        (2, [(3, 3), (4, 8), (1, 2)]),
        (3, [(4, 10), (1, 2), (2, 5)]),
        (4, [(3, 6), (1, 2), (2, 6)]),
    ] {
        let ended = desk.end(number).unwrap();
        assert_eq!(shown(&ended), figures, "without {number}");
        assert!(ended.in_order());
    }
    // What it still owed, not what it was taken with.
    let later = stepped(&desk);
    let ended = later.end(1).unwrap();
    assert_eq!(shown(&ended), [(3, 4), (4, 9), (2, 4)]);
    let again = ended.ask(1, 2, 8).unwrap();
    assert_eq!(shown(&again), [(3, 6), (4, 11), (2, 6), (1, 6)]);
}

/// A job that is late counts for all due no earlier as long as it is there.
#[test]
fn a_late_job_stays_in_the_figures() {
    let mut desk = figured(Desk {
        jobs: vec![job(3, 4, 5), job(1, 3, 2), job(2, 2, 2), job(4, 1, 5)],
        ..Desk::default()
    });
    assert_eq!(shown(&desk), [(3, 10), (1, 5), (2, 5), (4, 10)]);
    assert!(desk.in_order());
    desk = stepped(&desk);
    assert_eq!(shown(&desk), [(3, 9), (1, 4), (2, 4), (4, 9)]);
    desk = stepped(&desk);
    let late = [(3, 8), (1, 3), (2, 3), (4, 8)];
    assert_eq!((desk.clock, shown(&desk)), (2, late.to_vec()));
    // Late is all that is wrong with it.
    assert_eq!(desk.step().err(), Some(13));
    desk.clock = 1;
    assert!(desk.in_order());
    // Not served, and late all the same.
    let desk = figured(Desk {
        jobs: vec![job(2, 1, 1), job(1, 1, 1), job(3, 1, 9)],
        ..Desk::default()
    });
    let late = stepped(&desk);
    assert_eq!(shown(&late), [(2, 1), (3, 2)]);
    assert!(!late.in_order());
}

#[test]
fn a_refused_call_changes_no_figure() {
    let desk = write(&four());
    let refused = |answer: Answer, refusal: u32| {
        assert_eq!((answer.refusal, answer.desk), (refusal, desk));
    };
    refused(Own.ask(desk, 0, 1, 5), 1);
    refused(Own.ask(desk, 9, 0, 5), 2);
    refused(Own.ask(desk, 4, 1, 5), 4);
    refused(Own.ask(desk, 9, 5, 5), 6);
    refused(Own.ask(desk, 9, 20, 30), 6);
    refused(Own.end(desk, 9), 7);
    refused(Own.rest(desk, 1), 7);
    let mut wrong = desk;
    wrong.table.jobs[2].figure += 1;
    assert_eq!(Own.end(wrong, 4).desk, wrong);
    assert_eq!(Own.step(wrong).desk, wrong);
}

#[test]
fn the_highest_figure() {
    let all = |clock, owed, deadline| {
        figured(Desk {
            clock,
            charge: 16,
            jobs: (1..=64).map(|number| job(number, owed, deadline)).collect(),
            ..Desk::default()
        })
    };
    let desk = all(LAST_INSTANT - 1, 65_552, LAST_INSTANT);
    assert!(desk.jobs.iter().all(|job| job.figure == 4_195_328));
    assert!(desk.in_order());
    let desk = all(0, 65_552, 65_536);
    let next = stepped(&desk);
    assert!(next.jobs.iter().all(|job| job.figure == 4_195_327));
    assert!(next.in_order());
    let ended = next.end(64).unwrap();
    assert!(ended.jobs.iter().all(|job| job.figure == 63 * 65_552 - 1));
}

// ---------------------------------------------------------------- the list

#[test]
fn four_numbers_a_job() {
    let desk = four();
    let jobs = [1, 2, 4, 2, 2, 3, 9, 6, 3, 1, 9, 6, 4, 5, 30, 11];
    for length in 0..20 {
        let mut buffer = vec![77; length];
        let listed = desk.list(&mut buffer);
        if length < 16 {
            assert_eq!((listed, buffer), (Err(11), vec![77; length]));
        } else {
            assert_eq!(listed, Ok(4));
            assert_eq!(buffer[..16], jobs);
            assert_eq!(buffer[16..], vec![77; length - 16]);
        }
    }
    assert_eq!(opened(0).list(&mut []), Ok(0));
    let mut full = opened(0);
    for number in 1..=64 {
        full = full.ask(number, 1, 64).unwrap();
    }
    assert_eq!(full.list(&mut [0; 3 * 64]), Err(11));
    assert_eq!(full.list(&mut [0; 4 * 64 - 1]), Err(11));
    let mut buffer = [0; 4 * 64];
    assert_eq!(full.list(&mut buffer), Ok(64));
    assert!(buffer.chunks(4).all(|four| four[1..] == [1, 64, 64]));
}

/// 13 comes before 11.
#[test]
fn a_list_of_wrong_figures() {
    let mut desk = four();
    desk.jobs[3].figure -= 1;
    for length in [0, 12, 15, 16, 20] {
        assert_eq!(desk.list(&mut vec![0; length]), Err(13));
    }
}

// ---------------------------------------------------------------- a state in order

#[test]
fn a_figure_that_does_not_agree() {
    let good = four();
    assert!(good.in_order());
    let head = front(1, 0);
    for place in 0..4 {
        let right = good.jobs[place].figure;
        let others = [0, 1, 2, 5, 6, 11, right - 1, right + 1, right + (1 << 32)];
        let far = [right + (1 << 63), 1 << 63, u64::MAX, u64::MAX - 1];
        for figure in others.into_iter().chain(far) {
            let mut desk = good.clone();
            desk.jobs[place].figure = figure;
            assert_eq!(desk.in_order(), figure == right, "{figure} at {place}");
            if figure == right {
                continue;
            }
            assert_eq!(desk.ask(0, 0, 0).err(), Some(13));
            assert_eq!(desk.ask_mesh(&head, 134, 0, 0).err(), Some(13));
            assert_eq!(desk.why(0, 0, 0).refusal, 13);
            assert_eq!(desk.step().err(), Some(13));
            assert_eq!(desk.end(1).err(), Some(13));
            assert_eq!(desk.rest(1).err(), Some(13));
            assert_eq!(desk.list(&mut [0; 16]), Err(13));
            assert_eq!(desk.label(&[0, 0, 0, 1].repeat(3), &[]), Place::Empty);
        }
    }
    assert_ne!(good.label(&[0, 0, 0, 1].repeat(3), &[]), Place::Empty);
}

/// Each by itself: those that are due together show more than a sum that runs on.
#[test]
fn figures_by_another_rule() {
    let right = write(&four());
    let jobs = right.table.jobs[..4].to_vec();
    let rules = [
        (Rule::DueNoLater, [2, 6, 6, 11], true),
        (Rule::UpToItsPlace, [2, 5, 6, 11], false),
        (Rule::DueEarlier, [2, 5, 3, 11], false),
        (Rule::DueNoEarlier, [11, 9, 9, 5], false),
        (Rule::WithoutItself, [0, 3, 5, 6], false),
        (Rule::ItselfAlone, [2, 3, 1, 5], false),
        (Rule::All, [11, 11, 11, 11], false),
    ];
    for (rule, figures, good) in rules {
        assert_eq!(figures_by(rule, &jobs), figures, "{rule:?}");
        let mut desk = right;
        for (job, figure) in desk.table.jobs.iter_mut().zip(figures) {
            job.figure = figure;
        }
        assert_eq!(in_order(&desk), good, "{rule:?}");
    }
}

#[test]
fn wrong_figures_that_even_out() {
    let good = four();
    for (up, down) in [(0, 1), (1, 0), (2, 3), (3, 1)] {
        let mut desk = good.clone();
        desk.jobs[up].figure += 1;
        desk.jobs[down].figure -= 1;
        assert!(!desk.in_order());
    }
    // Exchanged with another's.
    let mut desk = good.clone();
    (desk.jobs[0].figure, desk.jobs[1].figure) = (11, 6);
    assert!(!desk.in_order());
    (desk.jobs[0].figure, desk.jobs[1].figure) = (6, 11);
    assert!(desk.in_order());
}

#[test]
fn a_figure_in_an_unused_place() {
    let good = write(&four());
    for place in 4..64 {
        for figure in [1, 11, 1 << 63, u64::MAX] {
            let mut desk = good;
            desk.table.jobs[place].figure = figure;
            assert_eq!(Own.step(desk).refusal, 13, "{figure} at {place}");
            assert_eq!(Own.step(desk).desk, desk);
        }
    }
    assert_eq!(Own.step(good).refusal, 0);
    // A place that is used no more is all zero.
    let ended = Own.end(good, 4).desk;
    assert_eq!(ended.table.jobs[3], boundary::Job::default());
}

/// Sums that go round the 64 bits to what is shown, or would: what each owes is bounded
/// first, and nothing is added up that is too much.
#[test]
fn what_is_owed_is_bounded_before_it_is_added_up() {
    for owed in [65_537, 1 << 32, 1 << 63, u64::MAX, u64::MAX - 2] {
        let mut desk = write(&four());
        desk.table.jobs[3].owed = owed;
        add_up(&mut desk);
        assert!(agrees(&desk) && !in_order(&desk), "{owed}");
        for job in &mut desk.table.jobs[..4] {
            job.owed = owed;
        }
        add_up(&mut desk);
        assert!(agrees(&desk) && !in_order(&desk), "{owed}");
    }
    let mut desk = write(&four());
    (desk.table.jobs[1].owed, desk.table.jobs[2].owed) = (1 << 63, (1 << 63) + 4);
    add_up(&mut desk);
    assert_eq!(desk.table.jobs[1].figure, 6);
    assert!(agrees(&desk) && !in_order(&desk));
}

// ---------------------------------------------------------------- another way to know

/// The figures as a screen would keep them, by adding and taking away alone.
#[derive(Default)]
struct Kept(Vec<(u32, Instant, Length)>);

impl Kept {
    fn taken(&mut self, number: u32, deadline: Instant, owed: Length) {
        let before = self.0.iter().filter(|other| other.1 <= deadline);
        // Of those due no later the last to be due shows all.
        let figure = before.max_by_key(|other| other.1).map_or(0, |it| it.2);
        self.0.push((number, deadline, figure));
        self.move_from(deadline, |figure| figure + owed);
    }

    fn move_from(&mut self, deadline: Instant, by: impl Fn(Length) -> Length) {
        let later = self.0.iter_mut().filter(|other| other.1 >= deadline);
        later.for_each(|other| other.2 = by(other.2));
    }

    fn given(&mut self, number: u32, ticks: Length, leaves: bool) {
        let place = self.0.iter().position(|job| job.0 == number).unwrap();
        self.move_from(self.0[place].1, |figure| figure - ticks);
        if leaves {
            self.0.remove(place);
        }
    }

    fn holds(&self, desk: &Desk) -> bool {
        let kept = self.0.iter().map(|job| (job.0, job.2));
        kept.eq(shown(desk))
    }
}

/// Any calls, the desk overbooked now and then, until a job is late or after it.
#[test]
fn figures_agree_with_adding_and_taking_away() {
    let mut random = Random::of(22, 0);
    let (mut ends, mut ticks, mut late, mut together) = (0, 0, 0, 0);
    for _ in 0..300 {
        let mut desk = open(&[6, 1, 2, 4], random.below(5), random.below(3) as u32).unwrap();
        let mut kept = Kept::default();
        let overbooks = random.chance(40);
        for number in (1..=3).cycle().zip(1..).map(|(a, b)| a * 100 + b).take(90) {
            match random.below(10) {
                0..=3 if desk.jobs.len() < 64 => {
                    let lead = random.pick(&[5, 10, 15, 20, 90]) - desk.clock % 5;
                    let work = random.between(1, 5);
                    let taken = desk.ask(number, work as u32, lead as u32);
                    let owed = work + desk.charge;
                    match taken {
                        Ok(taken) => desk = taken,
                        Err(_) if overbooks => {
                            desk.jobs.push(job(number, owed, desk.clock + lead));
                            desk.add_up();
                        }
                        Err(_) => continue,
                    }
                    kept.taken(number, desk.jobs.last().unwrap().deadline, owed);
                }
                4 if !desk.jobs.is_empty() && desk.in_order() => {
                    let Job { number, owed, .. } = desk.jobs[random.index(desk.jobs.len())];
                    desk = desk.end(number).unwrap();
                    kept.given(number, owed, true);
                    ends += 1;
                }
                5 => desk = desk.rest(1).unwrap_or(desk),
                _ => {
                    let ran = desk.tick();
                    if let Runner::Job(number) = ran.runner {
                        kept.given(number, 1, ran.owes == 0);
                        ticks += 1;
                    }
                }
            }
            assert!(kept.holds(&desk), "{desk:?}");
            let is_late = |job: &Job| job.deadline <= desk.clock;
            late += u32::from(desk.jobs.iter().any(is_late));
            let deadlines: BTreeSet<u64> = desk.jobs.iter().map(|job| job.deadline).collect();
            together += u32::from(deadlines.len() < desk.jobs.len());
        }
    }
    for count in [ends, ticks, late, together] {
        assert!(count > 500, "{ends} {ticks} {late} {together}");
    }
}

// ---------------------------------------------------------------- comparing calls

/// The state with every figure as it should be.
fn mended(desk: &State) -> State {
    let mut mended = *desk;
    let count = live(desk).len();
    mended.table.jobs[count..]
        .iter_mut()
        .for_each(|job| job.figure = 0);
    add_up(&mut mended);
    mended
}

/// The places whose figures are wrong, in a state in which nothing else is.
fn wrong_places(desk: &State) -> Vec<usize> {
    let mended = mended(desk);
    if mended == *desk || !in_order(&mended) {
        return Vec::new();
    }
    let wrong = |place: &usize| desk.table.jobs[*place] != mended.table.jobs[*place];
    (0..64).filter(wrong).collect()
}

/// Which kinds of state came and of calls on them.
#[derive(Default)]
pub struct Seen {
    kinds: RefCell<BTreeSet<&'static str>>,
}

const GOOD: [&str; 3] = [
    "two due together",
    "four due together",
    "a full table that owes all it can",
];

/// With one figure wrong, or more.
const WRONG: [&str; 14] = [
    "one too high",
    "one too low",
    "none",
    "another job's",
    "2^63",
    "the highest number",
    "right in the low half",
    "as the sum up to its place",
    "without those due together",
    "the first alone",
    "the last alone",
    "neither the first nor the last",
    "all as sums up to their places",
    "two that even out",
];

const OTHERS: [&str; 2] = ["in an unused place", "sums that went round"];

const UNDATED: [&str; 3] = [
    "a yes with no date beside one due together",
    "a yes with no date before one that is due later",
    "a yes with no date behind one that is due earlier",
];

const CALLS: [&str; 18] = [
    "a yes beside one due together",
    "a yes before one that is due later",
    "a yes behind one that is due earlier",
    "a refusal by 6 with jobs there",
    "a tick for one of two due together",
    "a tick for one with a later one",
    "a last tick with one due together",
    "a last tick with a later one",
    "a feed's tick with jobs there",
    "a job is late and served, and one is due later",
    "a job is late and not served, and one is due later",
    "an end of one of two due together",
    "an end of one with a later one",
    "an end of one with an earlier one",
    "an end before others in the table",
    "room for three numbers a job",
    "room for four numbers a job, less one",
    "room for four numbers a job",
];

impl Seen {
    pub fn note(&self, desk: &State) {
        let jobs = live(desk);
        let good = in_order(desk);
        let due = |job: &boundary::Job| jobs.iter().filter(|o| o.deadline == job.deadline).count();
        let most = 64 * (JOB_LENGTH_MOST + desk.charge.min(CHARGE_MOST));
        self.came(
            &GOOD,
            &[
                good && jobs.iter().any(|job| due(job) >= 2),
                good && jobs.iter().any(|job| due(job) >= 4),
                good && jobs.iter().any(|job| job.figure == most),
            ],
        );
        let wrong = wrong_places(desk);
        let round = |job: &boundary::Job| job.owed > 1 << 62 && job.figure < job.owed;
        let too_much = !good && agrees(desk) && jobs.iter().any(round);
        let unused = !wrong.is_empty() && wrong[0] >= jobs.len();
        self.came(&OTHERS, &[unused, too_much && only_what_is_owed(desk)]);
        if !wrong.is_empty() && !unused {
            self.note_wrong(desk, &wrong);
        }
    }

    fn note_wrong(&self, desk: &State, wrong: &[usize]) {
        let jobs = live(desk);
        let figures = |rule| figures_by(rule, jobs);
        let (place, last) = (wrong[0], jobs.len() - 1);
        let right = figures(Rule::DueNoLater);
        let (figure, alone) = (jobs[place].figure, wrong.len() == 1);
        let all: Vec<u64> = jobs.iter().map(|job| job.figure).collect();
        let sum = |figures: &[u64]| figures.iter().fold(0, |sum: u64, f| sum.wrapping_add(*f));
        let is_sum = |rule| alone && figure == figures(rule)[place] && jobs.len() > 2;
        let among = wrong.iter().all(|place| (1..last).contains(place));
        let holds = [
            alone && figure == right[place] + 1,
            alone && figure == right[place] - 1,
            alone && figure == 0,
            alone && right.contains(&figure),
            alone && figure == 1 << 63,
            alone && figure == u64::MAX,
            alone && figure as u32 == right[place] as u32,
            is_sum(Rule::UpToItsPlace),
            is_sum(Rule::DueEarlier),
            wrong == [0] && last > 0,
            wrong == [last] && last > 0,
            among,
            all == figures(Rule::UpToItsPlace),
            wrong.len() == 2 && sum(&all) == sum(&right),
        ];
        self.came(&WRONG, &holds);
    }

    pub fn note_ask(&self, desk: &State, answer: &Answer) {
        let [together, before, behind] = taken_beside(desk, answer);
        let refused = answer.refusal == 6 && !live(desk).is_empty();
        self.came(&CALLS[..4], &[together, before, behind, refused]);
    }

    pub fn note_undated(&self, desk: &State, answer: &Answer) {
        self.came(&UNDATED, &taken_beside(desk, answer));
    }

    pub fn note_step(&self, desk: &State, stepped: &Stepped) {
        if stepped.refusal != 0 {
            return;
        }
        let (before, after) = (live(desk), live(&stepped.desk));
        let served = |job: &&boundary::Job| stepped.kind == 1 && job.number == stepped.number;
        let runner = before.iter().find(served);
        let beside = |holds: &dyn Fn(u64, u64) -> bool| {
            runner.map_or(false, |job| {
                let mut others = before.iter().filter(|other| other.number != job.number);
                others.any(|other| holds(other.deadline, job.deadline))
            })
        };
        let (together, later) = (beside(&|o, own| o == own), beside(&|o, own| o > own));
        let last = runner.is_some() && stepped.owes == 0;
        let late = |is_served: bool| {
            let due = |job: &boundary::Job| job.deadline == stepped.desk.clock;
            let mut left = after.iter().filter(|job| due(job));
            let any = left.any(|job| served(&job) == is_served);
            any && after.iter().any(|job| job.deadline > stepped.desk.clock)
        };
        let holds = [
            together,
            later,
            together && last,
            later && last,
            stepped.kind == 2 && !before.is_empty(),
            late(true),
            late(false),
        ];
        self.came(&CALLS[4..11], &holds);
    }

    pub fn note_end(&self, desk: &State, number: u32, answer: &Answer) {
        let jobs = live(desk);
        let ended = jobs.iter().position(|job| job.number == number);
        let place = match ended.filter(|_| answer.refusal == 0) {
            Some(place) => place,
            None => return,
        };
        let own = jobs[place].deadline;
        let mut others = jobs.to_vec();
        others.remove(place);
        let holds = [
            others.iter().any(|other| other.deadline == own),
            others.iter().any(|other| other.deadline > own),
            others.iter().any(|other| other.deadline < own),
            place + 1 < jobs.len(),
        ];
        self.came(&CALLS[11..15], &holds);
    }

    pub fn note_list(&self, desk: &State, room: usize) {
        let jobs = live(desk).len();
        let some = in_order(desk) && jobs > 1;
        let holds = [
            some && (3 * jobs..4 * jobs - 1).contains(&room),
            some && room == 4 * jobs - 1,
            some && room == 4 * jobs,
        ];
        self.came(&CALLS[15..], &holds);
    }

    fn came(&self, kinds: &[&'static str], holds: &[bool]) {
        assert_eq!(kinds.len(), holds.len());
        let came = kinds.iter().zip(holds).filter(|(_, holds)| **holds);
        self.kinds.borrow_mut().extend(came.map(|(kind, _)| kind));
    }

    pub fn saw_every_kind(&self) {
        let kinds = GOOD.iter().chain(&WRONG).chain(&OTHERS).chain(&CALLS);
        for kind in kinds.chain(&UNDATED) {
            assert!(self.kinds.borrow().contains(kind), "{kind} never came");
        }
    }
}

/// Whether a job was taken with one there that is due with it, later or earlier.
fn taken_beside(desk: &State, answer: &Answer) -> [bool; 3] {
    let taken = order::taken(desk, &answer.desk).map(|at| live(&answer.desk)[at].deadline);
    let any = |holds: &dyn Fn(u64, u64) -> bool| {
        let mut due = live(desk).iter().map(|job| job.deadline);
        taken.map_or(false, |own| due.any(|other| holds(other, own)))
    };
    [
        any(&|other, own| other == own),
        any(&|other, own| other > own),
        any(&|other, own| other < own),
    ]
}

/// Whether a state would be in order if each job owed no more than it may.
fn only_what_is_owed(desk: &State) -> bool {
    let mut cut = *desk;
    for job in &mut cut.table.jobs {
        job.owed = job.owed.min(JOB_LENGTH_MOST);
    }
    add_up(&mut cut);
    in_order(&cut)
}

// ---------------------------------------------------------------- wrong libraries

/// A library that is wrong in the figures, by number.
struct Misfiguring(u32);

impl Library for Misfiguring {
    fn open(&self, list: &[u32], start: u64, charge: u32) -> Answer {
        Own.open(list, start, charge)
    }
    fn open_shared(&self, list: &[u32], start: u64, charge: u32, share: boundary::Share) -> Answer {
        Own.open_shared(list, start, charge, share)
    }
    fn ask(&self, desk: State, number: u32, work: u32, lead: u32) -> Answer {
        let mut answer = Own.ask(desk, number, work, lead);
        match answer.refusal {
            0 => misfigured_yes(self.0, &desk, &mut answer.desk),
            6 if self.0 == 14 => {
                // What was tried stays in those that were there.
                let deadline = desk.clock + u64::from(lead);
                for job in &mut answer.desk.table.jobs[..desk.table.count] {
                    if job.deadline >= deadline {
                        job.figure += u64::from(work) + desk.charge;
                    }
                }
            }
            _ => (),
        }
        answer
    }
    fn ask_mesh(&self, desk: State, head: &[u8], size: u64, number: u32, lead: u32) -> Answer {
        let mut answer = Own.ask_mesh(desk, head, size, number, lead);
        // As the ask for a job, where that is wrong in this.
        if let (0, 15..=17) = (answer.refusal, self.0) {
            misfigured_yes(self.0 - 14, &desk, &mut answer.desk);
        }
        answer
    }
    fn ask_undated(&self, desk: State, number: u32, work: u32) -> Answer {
        let mut answer = Own.ask_undated(desk, number, work);
        // As the ask for a job with a date, where that is wrong in this.
        if let (0, 85..=87) = (answer.refusal, self.0) {
            misfigured_yes(self.0 - 84, &desk, &mut answer.desk);
        }
        answer
    }
    fn why(&self, desk: State, number: u32, work: u32, lead: u32) -> boundary::Reason {
        Own.why(desk, number, work, lead)
    }
    fn step(&self, desk: State) -> Stepped {
        let mut stepped = Own.step(desk);
        if self.0 == 80 && stepped.refusal == 13 && in_order(&mended(&desk)) {
            return Own.step(mended(&desk));
        }
        if stepped.refusal == 0 {
            let named = (stepped.kind, stepped.number);
            misfigured_step(self.0, &desk, named, &mut stepped.desk);
        }
        stepped
    }
    fn end(&self, desk: State, number: u32) -> Answer {
        let mut answer = Own.end(desk, number);
        if answer.refusal == 0 {
            misfigured_end(self.0, &desk, number, &mut answer.desk);
        }
        answer.refusal = misjudged(self.0, &desk, answer.refusal, 7);
        answer
    }
    fn rest(&self, desk: State, position: u32) -> Answer {
        let mut answer = Own.rest(desk, position);
        if self.0 == 45 && answer.refusal == 0 {
            let owed = desk.feeds.feeds[position as usize - 1].owes;
            for job in &mut answer.desk.table.jobs {
                job.figure = job.figure.saturating_sub(owed);
            }
        }
        answer.refusal = misjudged(self.0, &desk, answer.refusal, 7);
        answer
    }
    fn list(&self, desk: State, buffer: &mut [u64]) -> Listed {
        misfigured_list(self.0, desk, buffer)
    }
    fn label(&self, desk: State, jobs: &[u8], feeds: &[u8]) -> Label {
        match self.0 {
            81 if !in_order(&desk) => Own.label(mended(&desk), jobs, feeds),
            _ => Own.label(desk, jobs, feeds),
        }
    }
    right_waves!();
}

/// The figures of jobs that were there before go back to what they were, if this holds
/// of them as they are now and as they were.
fn keep(before: &State, after: &mut State, holds: impl Fn(&boundary::Job, &boundary::Job) -> bool) {
    for job in &mut after.table.jobs {
        let was = live(before).iter().find(|was| was.number == job.number);
        if let Some(was) = was.filter(|was| job.number != 0 && holds(job, was)) {
            job.figure = was.figure;
        }
    }
}

fn set_figures(desk: &mut State, figures: &[u64]) {
    for (job, figure) in desk.table.jobs.iter_mut().zip(figures) {
        job.figure = *figure;
    }
}

/// A job was taken, and stands in its place.
fn misfigured_yes(fault: u32, before: &State, after: &mut State) {
    let at = order::taken(before, after).expect("it was taken");
    let taken = after.table.jobs[at];
    let by = |rule| figures_by(rule, live(after));
    let others = |after: &mut State, change: &dyn Fn(&mut boundary::Job)| {
        let jobs = after.table.jobs[..before.table.count + 1].iter_mut();
        let others = jobs.filter(|job| job.number != taken.number);
        others.for_each(change);
    };
    match fault {
        // Those that are there do not show it, or not where they are due with it, or
        // also where they are due earlier.
        1 => keep(before, after, |_, _| true),
        2 => keep(before, after, |job, _| job.deadline == taken.deadline),
        // Its own figure is missing.
        3 => after.table.jobs[at].figure = 0,
        4 => others(after, &|job| {
            if job.deadline < taken.deadline {
                job.figure += taken.owed;
            }
        }),
        // It shows itself alone, or all, or not those that are due with it, or not
        // itself, or those due later.
        5 => after.table.jobs[at].figure = by(Rule::ItselfAlone)[at],
        6 => after.table.jobs[at].figure = by(Rule::All)[at],
        7 => after.table.jobs[at].figure = by(Rule::DueEarlier)[at],
        8 => after.table.jobs[at].figure = by(Rule::WithoutItself)[at],
        9 => after.table.jobs[at].figure = by(Rule::DueNoEarlier)[at],
        // A sum that runs on through the table, in all figures or in its own.
        10 => set_figures(after, &figures_by(Rule::UpToItsPlace, live(after))),
        11 => after.table.jobs[at].figure = by(Rule::UpToItsPlace)[at],
        // Without the charge, in its own figure or in those of others.
        12 => after.table.jobs[at].figure -= before.charge,
        13 => others(after, &|job| {
            if job.deadline >= taken.deadline {
                job.figure -= before.charge;
            }
        }),
        // Those behind it in the table show it, and none before it that is due with it.
        18 => keep(before, after, |job, _| {
            job.deadline == taken.deadline && job.number < taken.number
        }),
        // Figures that stay in their places when jobs move up.
        19 => {
            let figures: Vec<u64> = live(before).iter().map(|job| job.figure).collect();
            set_figures(after, &figures);
        }
        _ => (),
    }
}

/// A tick was given to this one.
fn misfigured_step(fault: u32, before: &State, (kind, number): (u32, u32), after: &mut State) {
    let runner = live(before).iter().find(|job| job.number == number);
    let left = after.table.count < before.table.count;
    let clock = after.clock;
    let late = |job: &boundary::Job| job.number != 0 && job.deadline <= clock;
    let some_late = live(after).iter().any(late);
    match (fault, runner.filter(|_| kind == 1)) {
        // Nothing is taken away, or from the runner alone, or not from those due with
        // it, or from those alone.
        (20, Some(_)) => keep(before, after, |_, _| true),
        (21, Some(_)) => keep(before, after, |job, _| job.number != number),
        (22, Some(runner)) => keep(before, after, |job, _| {
            job.deadline == runner.deadline && job.number != number
        }),
        (23, Some(runner)) => keep(before, after, |job, _| job.deadline > runner.deadline),
        // Nothing with the last tick, or figures that stay in their places then, or
        // one in the place that is free.
        (24, Some(_)) if left => keep(before, after, |_, _| true),
        (25, Some(_)) if left => {
            let figures: Vec<u64> = live(before).iter().map(|job| job.figure - 1).collect();
            set_figures(after, &figures[..after.table.count]);
        }
        (26, Some(_)) if left => after.table.jobs[after.table.count].figure = 1,
        // All that the runner owed, at once.
        (27, Some(runner)) => {
            for job in &mut after.table.jobs[..] {
                if job.deadline > runner.deadline {
                    job.figure = job.figure.saturating_sub(runner.owed - 1);
                }
            }
        }
        // A late job counted no more, or nothing done where a job is late.
        (28, _) if some_late => {
            let owed: u64 = live(after)
                .iter()
                .filter(|job| late(job))
                .map(|job| job.owed)
                .sum();
            for job in &mut after.table.jobs {
                if !late(job) && job.number != 0 {
                    job.figure -= owed;
                }
            }
        }
        (29, Some(_)) if some_late => keep(before, after, |_, _| true),
        (30, Some(_)) if some_late => keep(before, after, |job, _| late(job)),
        // A tick of a feed is taken away too, or an idle one.
        (31, None) if kind == 2 => {
            for job in &mut after.table.jobs {
                job.figure = job.figure.saturating_sub(1);
            }
        }
        (32, Some(_)) => set_figures(after, &figures_by(Rule::UpToItsPlace, live(after))),
        _ => (),
    }
}

/// The job of this number was ended.
fn misfigured_end(fault: u32, before: &State, number: u32, after: &mut State) {
    let ended = live(before).iter().find(|job| job.number == number);
    let (owed, deadline) = match ended {
        Some(ended) => (ended.owed, ended.deadline),
        None => return,
    };
    let others = &mut after.table.jobs[..before.table.count - 1];
    match fault {
        // Nothing is taken away, or a tick alone, or not from those due with it, or not
        // from those due later, or from those due earlier too.
        35 => keep(before, after, |_, _| true),
        36 => {
            let later = others.iter_mut().filter(|job| job.deadline >= deadline);
            later.for_each(|job| job.figure += owed - 1);
        }
        37 => keep(before, after, |job, _| job.deadline == deadline),
        38 => keep(before, after, |job, _| job.deadline > deadline),
        39 => {
            let earlier = others.iter_mut().filter(|job| job.deadline < deadline);
            earlier.for_each(|job| job.figure = job.figure.saturating_sub(owed));
        }
        // The figures stay in their places, or one in the place that is free.
        40 => {
            let figures: Vec<u64> = live(before).iter().map(|job| job.figure).collect();
            set_figures(after, &figures[..after.table.count]);
        }
        41 => after.table.jobs[after.table.count].figure = owed,
        // Only those behind it in the table.
        42 => {
            let place = live(before).iter().position(|job| job.number == number);
            let first = &live(before)[..place.unwrap_or(0)];
            let numbers: Vec<u32> = first.iter().map(|job| job.number).collect();
            keep(before, after, |job, _| numbers.contains(&job.number));
        }
        _ => (),
    }
}

fn misfigured_list(fault: u32, desk: State, buffer: &mut [u64]) -> Listed {
    let untouched = buffer.to_vec();
    let mut listed = Own.list(desk, buffer);
    let count = desk.table.count;
    let jobs = listed.count as usize;
    match (fault, listed.refusal) {
        // Three numbers a job; or three looked for.
        (50, 0) => {
            for place in 0..jobs {
                let three = [
                    buffer[4 * place],
                    buffer[4 * place + 1],
                    buffer[4 * place + 2],
                ];
                buffer[3 * place..3 * place + 3].copy_from_slice(&three);
            }
            buffer[3 * jobs..4 * jobs].copy_from_slice(&untouched[3 * jobs..4 * jobs]);
        }
        (51, 11) if buffer.len() >= 3 * count => {
            listed = Listed {
                refusal: 0,
                count: count as u32,
            }
        }
        // The figure before the deadline, or none.
        (52, 0) => buffer[..4 * jobs]
            .chunks_mut(4)
            .for_each(|four| four.swap(2, 3)),
        (53, 0) => buffer[..4 * jobs]
            .chunks_mut(4)
            .for_each(|four| four[3] = 0),
        // More room than is needed.
        (54, 0) if buffer.len() == 4 * jobs && jobs > 0 => listed.refusal = 11,
        // A sum that runs on.
        (55, 0) => {
            let mut sum = 0;
            for four in buffer[..4 * jobs].chunks_mut(4) {
                sum += four[1];
                four[3] = sum;
            }
        }
        // As much as there is room for.
        (56, 11) => {
            for (four, job) in buffer.chunks_exact_mut(4).zip(live(&desk)) {
                four.copy_from_slice(&[job.number.into(), job.owed, job.deadline, job.figure]);
            }
        }
        _ => (),
    }
    listed.refusal = misjudged(fault, &desk, listed.refusal, 11);
    listed
}

/// Whether a state is in order to a library with this fault.
fn counts_as_in_order(fault: u32, desk: &State) -> bool {
    let (jobs, wrong) = (live(desk), wrong_places(desk));
    let right = in_order(desk);
    if wrong.is_empty() {
        // Too much owed, that goes round to what is shown.
        return right || fault == 74 && agrees(desk) && only_what_is_owed(desk);
    }
    let figures = figures_by(Rule::DueNoLater, jobs);
    let each = |holds: &dyn Fn(u64, u64) -> bool| {
        let places = wrong.iter().filter(|place| **place < jobs.len());
        let mut pairs = places.map(|place| (jobs[*place].figure, figures[*place]));
        wrong[wrong.len() - 1] < jobs.len() && pairs.all(|(figure, right)| holds(figure, right))
    };
    let all: Vec<u64> = jobs.iter().map(|job| job.figure).collect();
    let sum = |figures: &[u64]| figures.iter().fold(0, |sum: u64, f| sum.wrapping_add(*f));
    match fault {
        // The first alone, the last alone, the first two, or none.
        60 => !wrong.contains(&0),
        61 => !jobs.is_empty() && !wrong.contains(&(jobs.len() - 1)),
        62 => wrong[0] > 1,
        63 => true,
        // No lower than it is, no higher, or not by more than a tick.
        64 => each(&|figure, right| figure > right),
        65 => each(&|figure, right| figure < right),
        66 => each(&|figure, right| figure == right + 1),
        67 => each(&|figure, right| figure == right - 1),
        // All together, or one of another's, or none at all, or in 32 bits.
        68 => sum(&all) == sum(&figures) && each(&|_, _| true),
        69 => each(&|figure, _| figures.contains(&figure)),
        70 => each(&|figure, _| figure == 0),
        71 => each(&|figure, right| figure as u32 == right as u32),
        // Unused places.
        72 => wrong[0] >= jobs.len(),
        // Figures by another rule.
        73 => all == figures_by(Rule::UpToItsPlace, jobs),
        75 => all == figures_by(Rule::DueEarlier, jobs),
        76 => all == figures_by(Rule::All, jobs),
        77 => all == figures_by(Rule::ItselfAlone, jobs),
        // One pass through the table that takes those due together to show the same, and
        // looks at the last of them no further.
        78 => wrong.iter().all(|place| {
            let due = |job: &&boundary::Job| job.deadline == jobs[*place].deadline;
            *place < jobs.len() && jobs.iter().filter(due).count() > 1
        }),
        _ => false,
    }
}

/// The refusal by a library with this fault, which would go on to another.
fn misjudged(fault: u32, desk: &State, right: u32, other: u32) -> u32 {
    match (counts_as_in_order(fault, desk), right) {
        (false, _) => NOT_IN_ORDER,
        (true, NOT_IN_ORDER) => other,
        _ => right,
    }
}

#[test]
fn each_wrong_figure_is_found() {
    assert!(calls::compare(&Misfiguring(0), 9, 0, 2_000).is_ok());
    let faults = (1..=32).chain(35..=42).chain([45]);
    let faults = faults.chain(50..=56).chain(60..=78).chain(80..=81);
    for fault in faults.chain(85..=87) {
        assert!(
            calls::compare(&Misfiguring(fault), 9, 0, 40_000).is_err(),
            "fault {fault} went by"
        );
    }
}
