//! What the order of the table changes: the places of jobs after every call, and a state
//! in order; and libraries that are wrong in it. The model itself keeps its jobs as they
//! came, so that no answer of its own can come from a place.

use super::*;
use crate::calls::settle;
use crate::invent::shuffle;
use crate::own::rank;
use std::cmp::Reverse;

/// The jobs as they stand in the table, by number.
fn places(desk: &Desk) -> Vec<u32> {
    live(&write(desk)).iter().map(|job| job.number).collect()
}

fn as_they_came(desk: &Desk) -> Vec<u32> {
    desk.jobs.iter().map(|job| job.number).collect()
}

/// Taken one after the other, each number with a tick to do and a lead.
fn asked(asks: &[(u32, u32)]) -> Desk {
    let ask = |desk: Desk, (number, lead): &(u32, u32)| desk.ask(*number, 1, *lead).unwrap();
    asks.iter().fold(open(&[], 0, 0).unwrap(), ask)
}

/// Job 9 by 4, jobs 2, 5 and 7 by 20, job 1 by 30.
fn five() -> Desk {
    asked(&[(5, 20), (1, 30), (7, 20), (9, 4), (2, 20)])
}

/// Where in the table the job stands that was not there before, if there is one.
pub fn taken(before: &State, after: &State) -> Option<usize> {
    let known = |job: &boundary::Job| live(before).iter().any(|was| was.number == job.number);
    live(after).iter().position(|job| !known(job))
}

// ---------------------------------------------------------------- asks

#[test]
fn the_earlier_deadline_stands_first() {
    assert_eq!(places(&asked(&[(1, 8), (2, 9)])), [1, 2]);
    assert_eq!(places(&asked(&[(1, 9), (2, 8)])), [2, 1]);
    assert_eq!(places(&asked(&[(1, 40), (2, 9), (3, 20)])), [2, 3, 1]);
    assert_eq!(
        places(&asked(&[(4, 40), (3, 30), (2, 20), (1, 10)])),
        [1, 2, 3, 4]
    );
    // Asked for at another instant: it is the deadlines that count and not the leads.
    let (later, _) = asked(&[(1, 9), (2, 9)]).step().unwrap();
    assert_eq!(places(&later.ask(1, 1, 9).unwrap()), [2, 1]);
    assert_eq!(places(&later.ask(1, 1, 8).unwrap()), [1, 2]);
}

#[test]
fn the_lower_number_stands_first_on_equal_deadlines() {
    let most = u32::MAX;
    assert_eq!(places(&asked(&[(1, 9), (2, 9)])), [1, 2]);
    assert_eq!(places(&asked(&[(2, 9), (1, 9)])), [1, 2]);
    assert_eq!(places(&asked(&[(most, 9), (1, 9)])), [1, most]);
    // Not by their signs, and not by their last digits.
    let far = [1 << 31, most, 1, 65_536, 10].map(|number| (number, 9));
    assert_eq!(places(&asked(&far)), [1, 10, 65_536, 1 << 31, most]);
    // The number plays no part where the deadlines differ.
    assert_eq!(places(&asked(&[(1, 9), (most, 8)])), [most, 1]);
    assert_eq!(places(&five()), [9, 2, 5, 7, 1]);
    assert_eq!(as_they_came(&five()), [5, 1, 7, 9, 2]);
}

/// Whatever the order of asks, the table is the same, to the figures.
#[test]
fn one_table_for_any_order_of_asks() {
    let mut asks = [(5, 20), (1, 30), (7, 20), (9, 4), (2, 20)];
    let table = write(&asked(&asks)).table;
    let mut random = Random::of(24, 0);
    let mut orders = BTreeSet::new();
    while orders.len() < 120 {
        shuffle(&mut random, &mut asks);
        let desk = asked(&asks);
        assert_eq!(write(&desk).table, table, "asked for as {asks:?}");
        orders.insert(as_they_came(&desk));
    }
}

#[test]
fn a_mesh_stands_in_its_place() {
    let (head, size) = (front(1, 0), length_of(1));
    let mesh = |number, lead| places(&five().ask_mesh(&head, size, number, lead).unwrap());
    assert_eq!(mesh(6, 20), [9, 2, 5, 6, 7, 1]);
    assert_eq!(mesh(1_000, 20), [9, 2, 5, 7, 1_000, 1]);
    assert_eq!(mesh(6, 19), [9, 6, 2, 5, 7, 1]);
    assert_eq!(mesh(6, 29), [9, 2, 5, 7, 6, 1]);
    assert_eq!(mesh(6, 31), [9, 2, 5, 7, 1, 6]);
    let desk = five().end(9).unwrap();
    let first = desk.ask_mesh(&head, size, 6, 5).unwrap();
    assert_eq!(places(&first), [6, 2, 5, 7, 1]);
}

#[test]
fn a_full_table() {
    let down: Vec<(u32, u32)> = (0..64).map(|job| (100 - job, 1_000 - job / 2)).collect();
    let desk = asked(&down);
    let mut expected = down;
    expected.sort_unstable_by_key(|(number, lead)| (*lead, *number));
    let numbers: Vec<u32> = expected.into_iter().map(|job| job.0).collect();
    assert_eq!(places(&desk), numbers);
    assert_eq!(desk.ask(1, 1, 1).err(), Some(5));
    let free = desk.end(numbers[63]).unwrap();
    let (first, last) = (free.ask(1, 1, 1).unwrap(), free.ask(1, 1, 2_000).unwrap());
    assert_eq!(places(&first)[..2], [1, numbers[0]]);
    assert_eq!(places(&last)[62..], [numbers[62], 1]);
}

#[test]
fn a_refused_call_moves_no_job() {
    let desk = write(&five());
    let refused = |answer: Answer, refusal: u32| {
        assert_eq!((answer.refusal, answer.desk), (refusal, desk));
    };
    refused(Own.ask(desk, 0, 1, 1), 1);
    refused(Own.ask(desk, 3, 0, 1), 2);
    refused(Own.ask(desk, 9, 1, 1), 4);
    refused(Own.ask(desk, 3, 9, 8), 6);
    refused(Own.end(desk, 3), 7);
    refused(Own.rest(desk, 1), 7);
    // Nor does a rest that is answered yes.
    let feed = [40, 1, 0, 40];
    let desk = open(&feed, 0, 0).unwrap().ask(5, 1, 9).unwrap();
    let desk = desk.ask(3, 1, 9).unwrap().ask(8, 1, 2).unwrap();
    assert_eq!(places(&desk.rest(1).unwrap()), [8, 3, 5]);
}

// ---------------------------------------------------------------- steps and ends

#[test]
fn a_step_serves_the_first_place() {
    let mut desk = open(&[], 0, 0).unwrap();
    for (number, work, lead) in [(5, 2, 20), (1, 1, 30), (9, 2, 4), (2, 1, 20)] {
        desk = desk.ask(number, work, lead).unwrap();
    }
    let mut expected = vec![9, 2, 5, 1];
    for owes in [1, 0, 0, 1, 0, 0] {
        assert_eq!(places(&desk), expected, "at {}", desk.clock);
        let (next, ran) = desk.step().unwrap();
        let runner = Runner::Job(expected[0]);
        assert_eq!(ran, Ran { runner, owes });
        if owes == 0 {
            expected.remove(0);
        }
        desk = next;
    }
    assert_eq!(places(&desk), []);
}

#[test]
fn an_end_closes_up() {
    let table = [9, 2, 5, 7, 1];
    for (place, number) in table.iter().enumerate() {
        let mut expected = table.to_vec();
        expected.remove(place);
        let ended = five().end(*number).unwrap();
        assert_eq!(places(&ended), expected);
        let desk = write(&ended);
        assert_eq!(desk.table.count, 4);
        assert_eq!(desk.table.jobs[4], boundary::Job::default());
        // The number is free, and goes where its new deadline says.
        let again = ended.ask(*number, 1, 100).unwrap();
        expected.push(*number);
        assert_eq!(places(&again), expected);
    }
}

/// It is late, so it is the first, and stays so.
#[test]
fn a_late_job_stays_in_its_place() {
    let desk = figured(Desk {
        jobs: vec![job(3, 1, 9), job(2, 3, 1), job(1, 2, 1)],
        ..Desk::default()
    });
    assert_eq!(places(&desk), [1, 2, 3]);
    let (late, ran) = desk.step().unwrap();
    assert_eq!(ran.runner, Runner::Job(1));
    assert_eq!(places(&late), [1, 2, 3]);
    assert!(read(&write(&late)).is_some(), "late is all that is wrong");
    assert!(!late.in_order());
}

/// The list call's order is the table's.
#[test]
fn the_list_is_the_table() {
    let mut random = Random::of(25, 0);
    for _ in 0..300 {
        let desk = crowded(&mut random);
        let mut buffer = [0; 4 * 64];
        let count = desk.list(&mut buffer).unwrap() as usize;
        let table = write(&desk);
        for (four, job) in buffer.chunks(4).zip(live(&table)) {
            let number = job.number.into();
            assert_eq!(four, [number, job.owed, job.deadline, job.figure]);
        }
        assert_eq!(count, live(&table).len());
    }
}

// ---------------------------------------------------------------- a state in order

/// The state in which these places are exchanged.
fn exchanged(desk: &State, one: usize, other: usize) -> State {
    let mut exchanged = *desk;
    exchanged.table.jobs.swap(one, other);
    exchanged
}

/// Every call says 13 and hands back the state as it was; a label is nobody's.
fn is_refused(desk: State) {
    assert!(agrees(&desk), "the order alone is wrong");
    let head = front(1, 0);
    let as_it_was = |answer: Answer| assert_eq!((answer.refusal, answer.desk), (13, desk));
    // Before any other line.
    as_it_was(Own.ask(desk, 0, 0, 0));
    as_it_was(Own.ask(desk, 77, 1, 60));
    as_it_was(Own.ask_mesh(desk, &head[..83], 0, 0, 0));
    as_it_was(Own.ask_mesh(desk, &head, 134, 77, 60));
    as_it_was(Own.end(desk, 0));
    as_it_was(Own.end(desk, desk.table.jobs[0].number));
    as_it_was(Own.rest(desk, 1));
    let why = Own.why(desk, 77, 1, 60);
    let number_alone = boundary::Reason {
        refusal: 13,
        ..boundary::Reason::default()
    };
    assert_eq!(why, number_alone);
    let stepped = Own.step(desk);
    assert_eq!((stepped.refusal, stepped.desk), (13, desk));
    assert_eq!((stepped.kind, stepped.number, stepped.owes), (0, 0, 0));
    for length in [0, 4 * desk.table.count, 256] {
        let mut buffer = vec![77; length];
        let listed = Own.list(desk, &mut buffer);
        assert_eq!((listed.refusal, listed.count), (13, 0));
        assert_eq!(buffer, vec![77; length]);
    }
    let labels: Vec<u8> = live(&desk)
        .iter()
        .flat_map(|job| [&job.number.to_be_bytes()[..], &[1; 8]].concat())
        .collect();
    assert_eq!(Own.label(desk, &labels, &[1; 128]).length, 0);
}

#[test]
fn neighbours_exchanged() {
    let good = write(&five());
    assert!(in_order(&good));
    for place in 0..4 {
        is_refused(exchanged(&good, place, place + 1));
        for other in place + 2..5 {
            is_refused(exchanged(&good, place, other));
        }
    }
    // By a tick, by one number.
    let near = write(&asked(&[(1, 8), (2, 9)]));
    is_refused(exchanged(&near, 0, 1));
    let near = write(&asked(&[(1, 9), (2, 9)]));
    is_refused(exchanged(&near, 0, 1));
    let far = write(&asked(&[(1, 9), (u32::MAX, 9)]));
    is_refused(exchanged(&far, 0, 1));
}

#[test]
fn one_out_of_its_place_or_all() {
    let good = write(&five());
    let moved = |change: &dyn Fn(&mut [boundary::Job])| {
        let mut moved = good;
        change(&mut moved.table.jobs[..5]);
        moved
    };
    is_refused(moved(&|jobs| jobs.rotate_left(1)));
    is_refused(moved(&|jobs| jobs.rotate_right(1)));
    is_refused(moved(&|jobs| jobs.reverse()));
    is_refused(moved(&|jobs| jobs.sort_by_key(|job| job.number)));
    is_refused(moved(&|jobs| jobs.sort_by_key(|job| Reverse(rank(job)))));
    let by_deadline_alone =
        |jobs: &mut [boundary::Job]| jobs.sort_by_key(|job| (job.deadline, Reverse(job.number)));
    is_refused(moved(&by_deadline_alone));
    // As they came.
    let desk = five();
    let came = |jobs: &mut [boundary::Job]| {
        let place = |job: &boundary::Job| desk.jobs.iter().position(|j| j.number == job.number);
        jobs.sort_by_key(place);
    };
    is_refused(moved(&came));
    let again = moved(&|jobs| jobs.sort_by_key(rank));
    assert_eq!(again, good);
}

/// All orders of the five: one of them is the table's.
#[test]
fn one_order_of_all() {
    let good = write(&five());
    let (mut random, mut orders) = (Random::of(26, 0), BTreeSet::new());
    while orders.len() < 120 {
        let mut desk = good;
        shuffle(&mut random, &mut desk.table.jobs[..5]);
        assert_eq!(in_order(&desk), desk == good);
        let order: Vec<u32> = live(&desk).iter().map(|job| job.number).collect();
        orders.insert(order);
    }
}

/// Two alike are out of order twice over; a number twice is by itself, whether they
/// are neighbours or not.
#[test]
fn a_number_twice_in_its_place() {
    let good = write(&five());
    for place in 0..4 {
        let mut alike = good;
        alike.table.jobs[place + 1].number = alike.table.jobs[place].number;
        alike.table.jobs[place + 1].deadline = alike.table.jobs[place].deadline;
        settle(&mut alike);
        is_refused(alike);
    }
    for (one, other) in [(0, 1), (0, 4), (3, 4), (0, 3), (1, 4)] {
        let mut twice = good;
        twice.table.jobs[one].number = twice.table.jobs[other].number;
        settle(&mut twice);
        let rising = |pair: &[boundary::Job]| rank(&pair[0]) < rank(&pair[1]);
        assert!(live(&twice).windows(2).all(rising));
        is_refused(twice);
    }
}

/// Places that no job has stand last, whatever is in them.
#[test]
fn no_gap() {
    let good = write(&five());
    for place in 0..5 {
        let mut gap = good;
        gap.table.jobs[place..6].rotate_right(1);
        assert!(!in_order(&gap), "a gap at {place}");
        gap.table.count = 6;
        assert!(!in_order(&gap), "a gap at {place} that counts");
    }
}

// ---------------------------------------------------------------- other ways to know

/// A state in order with up to 20 jobs, many of them due together.
fn crowded(random: &mut Random) -> Desk {
    let clock = random.below(50);
    let deadlines = random.between(1, 6);
    let mut desk = Desk {
        clock,
        charge: random.below(3),
        ..open(&[6, 1, 2, 4], clock, 0).unwrap()
    };
    for _ in 0..random.below(21) {
        let number = random.between(1, 40) as u32;
        if desk.jobs.iter().all(|job| job.number != number) {
            let deadline = clock + 10 * random.between(1, deadlines);
            desk.jobs.push(job(number, random.between(1, 9), deadline));
        }
    }
    desk.add_up();
    desk
}

/// The same state, its jobs having come otherwise: every call answers the same, and the
/// states that come back are the same tables.
#[test]
fn no_answer_turns_on_the_order_in_which_jobs_came() {
    let mut random = Random::of(27, 0);
    let table = |after: Result<Desk, Refusal>| after.map(|desk| write(&desk));
    for _ in 0..400 {
        let desk = crowded(&mut random);
        let mut other = desk.clone();
        shuffle(&mut random, &mut other.jobs);
        assert_eq!(write(&other), write(&desk));
        assert_eq!(read(&write(&other)), read(&write(&desk)));
        assert_eq!(other.in_order(), desk.in_order());
        let (number, work) = (random.between(1, 40) as u32, random.between(1, 4) as u32);
        let lead = 10 * random.between(1, 7) as u32;
        let asked = [&desk, &other].map(|desk| table(desk.ask(number, work, lead)));
        assert_eq!(asked[0], asked[1]);
        assert_eq!(other.why(number, work, lead), desk.why(number, work, lead));
        assert_eq!(table(other.end(number)), table(desk.end(number)));
        assert_eq!(table(other.rest(1)), table(desk.rest(1)));
        let (mut ours, mut theirs) = ([7; 90], [7; 90]);
        assert_eq!(other.list(&mut ours), desk.list(&mut theirs));
        assert_eq!(ours, theirs);
        let record = |number: u8| [&[0, 0, 0, number][..], &[1; 8]].concat();
        let labels: Vec<u8> = (1..=40).flat_map(record).collect();
        assert_eq!(other.label(&labels, &[1; 8]), desk.label(&labels, &[1; 8]));
        let (mut one, mut two) = (desk, other);
        for _ in 0..60 {
            assert_eq!(one.tick(), two.tick());
            assert_eq!(write(&one), write(&two));
        }
    }
}

/// A table that puts a job in its place, serves the first and closes up, and never sorts.
#[derive(Default)]
struct Kept(Vec<(Instant, u32, Length)>);

impl Kept {
    fn taken(&mut self, number: u32, deadline: Instant, owed: Length) {
        let new = (deadline, number);
        let before = |other: &&(Instant, u32, Length)| (other.0, other.1) < new;
        let place = self.0.iter().take_while(before).count();
        self.0.insert(place, (deadline, number, owed));
    }

    fn ended(&mut self, number: u32) {
        self.0.retain(|job| job.1 != number);
    }

    /// Who was served, and what it still owes.
    fn served(&mut self) -> (u32, Length) {
        let (_, number, owed) = &mut self.0[0];
        *owed -= 1;
        let served = (*number, *owed);
        if served.1 == 0 {
            self.0.remove(0);
        }
        served
    }

    fn holds(&self, desk: &Desk) -> bool {
        let table = write(desk);
        let job = |job: &boundary::Job| (job.deadline, job.number, job.owed);
        live(&table).iter().map(job).eq(self.0.iter().copied())
    }
}

/// Any calls from an opening, the desk overbooked now and then. The model's own jobs stay
/// as they came all the while, and once in a while come back from the table.
#[test]
fn the_table_agrees_with_one_that_is_kept_in_order() {
    let mut random = Random::of(28, 0);
    let (mut ends, mut ticks, mut first, mut among, mut otherwise) = (0, 0, 0, 0, 0);
    for _ in 0..300 {
        let mut desk = open(&[6, 1, 2, 4], random.below(5), random.below(3) as u32).unwrap();
        let mut kept = Kept::default();
        let overbooks = random.chance(40);
        for _ in 0..90 {
            match random.below(10) {
                0..=3 if desk.jobs.len() < 64 => {
                    let number = random.between(1, 90) as u32;
                    let lead = random.pick(&[5, 10, 15, 20, 90]) - desk.clock % 5;
                    let work = random.between(1, 5);
                    let owed = work + desk.charge;
                    match desk.ask(number, work as u32, lead as u32) {
                        Ok(taken) => desk = taken,
                        Err(DOES_NOT_FIT) if overbooks => {
                            desk.jobs.push(job(number, owed, desk.clock + lead));
                            desk.add_up();
                        }
                        Err(_) => continue,
                    }
                    kept.taken(number, desk.clock + lead, owed);
                    let place = kept.0.iter().position(|job| job.1 == number).unwrap();
                    first += u32::from(place == 0 && kept.0.len() > 1);
                    among += u32::from(place > 0 && place + 1 < kept.0.len());
                }
                4 if !desk.jobs.is_empty() && desk.in_order() => {
                    let Job { number, .. } = desk.jobs[random.index(desk.jobs.len())];
                    desk = desk.end(number).unwrap();
                    kept.ended(number);
                    ends += 1;
                }
                5 => desk = desk.rest(1).unwrap_or(desk),
                6 => desk = read(&write(&desk)).expect("each stands in its place"),
                _ => {
                    let ran = desk.tick();
                    if let Runner::Job(number) = ran.runner {
                        assert_eq!(kept.served(), (number, ran.owes));
                        ticks += 1;
                    }
                }
            }
            assert!(kept.holds(&desk), "{desk:?}");
            otherwise += u32::from(as_they_came(&desk) != places(&desk));
        }
    }
    for count in [ends, ticks, first, among, otherwise] {
        assert!(count > 500, "{ends} {ticks} {first} {among} {otherwise}");
    }
}

// ---------------------------------------------------------------- comparing calls

/// The same jobs, each in its place; of those with one number all but one get another.
fn sorted(desk: &State) -> State {
    let mut sorted = *desk;
    let count = live(desk).len();
    let mut numbers = BTreeSet::new();
    for place in 0..count {
        let job = &mut sorted.table.jobs[place];
        while !numbers.insert(job.number) {
            job.number = job.number.wrapping_add(1);
        }
    }
    settle(&mut sorted);
    sorted
}

/// Whether nothing is wrong with a state but places and numbers: it has two jobs at least.
fn only_by_places(desk: &State) -> bool {
    !in_order(desk) && agrees(desk) && in_order(&sorted(desk))
}

/// The places that do not stand before the next, in such a state; none in another.
fn wrong_pairs(desk: &State) -> Vec<usize> {
    let jobs = live(desk);
    if !only_by_places(desk) {
        return Vec::new();
    }
    let wrong = |place: &usize| rank(&jobs[*place]) >= rank(&jobs[*place + 1]);
    (0..jobs.len() - 1).filter(wrong).collect()
}

/// The pairs of places with one number, in such a state; none in another.
fn twice(desk: &State) -> Vec<(usize, usize)> {
    let jobs = live(desk);
    if !only_by_places(desk) {
        return Vec::new();
    }
    let later = |one| (one + 1..jobs.len()).map(move |other| (one, other));
    let pairs = (0..jobs.len()).flat_map(later);
    let one_number = |(one, other): &(usize, usize)| jobs[*one].number == jobs[*other].number;
    pairs.filter(one_number).collect()
}

/// Which kinds of state came and of calls on them.
#[derive(Default)]
pub struct Seen {
    kinds: RefCell<BTreeSet<&'static str>>,
}

const GOOD: [&str; 4] = [
    "two due together",
    "a higher number due earlier",
    "numbers that all rise",
    "a full table, some due together",
];

/// Not in order by places or numbers alone.
const WRONG: [&str; 15] = [
    "the first two exchanged",
    "two in the middle exchanged",
    "the last two exchanged",
    "the first two exchanged, due together",
    "two in the middle exchanged, due together",
    "the last two exchanged, due together",
    "the last put first",
    "the first put last",
    "the other way round",
    "deadlines in order, numbers not",
    "numbers in order, deadlines not",
    "two alike",
    "two alike, others in order",
    "a number twice, each in its place, neighbours",
    "a number twice, each in its place, far apart",
];

const ASKS: [&str; 8] = [
    "before all others",
    "behind all others",
    "between two",
    "behind one due together",
    "before one due together",
    "between two due together",
    "before a lower number that is due later",
    "behind a higher number that is due earlier",
];

const MESHES: [&str; 5] = [
    "a mesh before all others",
    "a mesh behind all others",
    "a mesh between two",
    "a mesh behind one due together",
    "a mesh before one due together",
];

const UNDATED: [&str; 5] = [
    "one with no date before all others",
    "one with no date behind all others",
    "one with no date between two",
    "one with no date behind one due together",
    "one with no date before one due together",
];

const CALLS: [&str; 10] = [
    "a last tick before two others",
    "a tick before one due together",
    "a tick before a lower number",
    "an end in the first place",
    "an end in the last place",
    "an end between two",
    "an end between two due together",
    "a list with two due together",
    "a list with a higher number first",
    "a rest with two jobs",
];

impl Seen {
    pub fn note(&self, desk: &State) {
        let jobs = live(desk);
        let good = in_order(desk) && jobs.len() > 1;
        let any = |holds: &dyn Fn(&boundary::Job, &boundary::Job) -> bool| {
            jobs.windows(2).any(|pair| holds(&pair[0], &pair[1]))
        };
        let together = any(&|one, next| one.deadline == next.deadline);
        let falling = any(&|one, next| one.number > next.number);
        let holds = [
            good && together,
            good && falling,
            good && !falling && jobs.len() > 2,
            good && together && jobs.len() == 64,
        ];
        self.came(&GOOD, &holds);
        if only_by_places(desk) {
            self.note_wrong(desk);
        }
    }

    fn note_wrong(&self, desk: &State) {
        let (jobs, right) = (live(desk), sorted(desk));
        let right = live(&right);
        let (wrong, twice) = (wrong_pairs(desk), twice(desk));
        let last = jobs.len() - 1;
        let exchanged = |place: usize, together: bool| {
            let mut exchanged = right.to_vec();
            exchanged.swap(place, place + 1);
            let due = jobs[place].deadline == jobs[place + 1].deadline;
            twice.is_empty() && last > 1 && exchanged == jobs && due == together
        };
        let in_the_middle = |together| (1..last.max(2) - 1).any(|place| exchanged(place, together));
        let rotated = |by: usize| {
            let mut rotated = right.to_vec();
            rotated.rotate_left(by);
            last > 1 && twice.is_empty() && rotated == jobs
        };
        let pairs = |holds: &dyn Fn(&boundary::Job, &boundary::Job) -> bool| {
            jobs.windows(2).all(|pair| holds(&pair[0], &pair[1]))
        };
        let alike = |place: &usize| rank(&jobs[*place]) == rank(&jobs[*place + 1]);
        let holds = [
            exchanged(0, false),
            in_the_middle(false),
            exchanged(last - 1, false),
            exchanged(0, true),
            in_the_middle(true),
            exchanged(last - 1, true),
            rotated(last),
            rotated(1),
            last > 1 && pairs(&|one, next| rank(one) > rank(next)),
            twice.is_empty() && pairs(&|one, next| one.deadline <= next.deadline),
            last > 1 && pairs(&|one, next| one.number < next.number),
            wrong.iter().any(alike),
            last > 1 && wrong.len() == 1 && alike(&wrong[0]),
            wrong.is_empty() && twice.iter().any(|(one, other)| one + 1 == *other),
            wrong.is_empty() && twice.iter().all(|(one, other)| one + 1 < *other),
        ];
        self.came(&WRONG, &holds);
    }

    pub fn note_ask(&self, desk: &State, answer: &Answer) {
        self.came(&ASKS, &place_taken(desk, answer));
    }

    pub fn note_mesh(&self, desk: &State, answer: &Answer) {
        self.came(&MESHES, &place_taken(desk, answer)[..5]);
    }

    pub fn note_undated(&self, desk: &State, answer: &Answer) {
        self.came(&UNDATED, &place_taken(desk, answer)[..5]);
    }

    pub fn note_step(&self, desk: &State, stepped: &Stepped) {
        let jobs = live(desk);
        let served = stepped.refusal == 0 && stepped.kind == 1 && jobs.len() > 1;
        let holds = [
            served && stepped.owes == 0 && jobs.len() > 2,
            served && jobs[0].deadline == jobs[1].deadline,
            served && jobs[0].number > jobs[1].number,
        ];
        self.came(&CALLS[..3], &holds);
    }

    pub fn note_end(&self, desk: &State, number: u32, answer: &Answer) {
        let jobs = live(desk);
        let ended = jobs.iter().position(|job| job.number == number);
        let place = match ended.filter(|_| answer.refusal == 0 && jobs.len() > 2) {
            Some(place) => place,
            None => return,
        };
        let between = place > 0 && place + 1 < jobs.len();
        let due = |place: usize| jobs[place].deadline;
        let holds = [
            place == 0,
            place + 1 == jobs.len(),
            between,
            between && due(place - 1) == due(place) && due(place) == due(place + 1),
        ];
        self.came(&CALLS[3..7], &holds);
    }

    pub fn note_list(&self, desk: &State, listed: &Listed) {
        let pairs = || live(desk).windows(2).filter(|_| listed.refusal == 0);
        let holds = [
            pairs().any(|pair| pair[0].deadline == pair[1].deadline),
            pairs().any(|pair| pair[0].number > pair[1].number),
        ];
        self.came(&CALLS[7..9], &holds);
    }

    pub fn note_rest(&self, desk: &State, answer: &Answer) {
        self.came(&CALLS[9..], &[answer.refusal == 0 && live(desk).len() > 1]);
    }

    fn came(&self, kinds: &[&'static str], holds: &[bool]) {
        assert_eq!(kinds.len(), holds.len());
        let came = kinds.iter().zip(holds).filter(|(_, holds)| **holds);
        self.kinds.borrow_mut().extend(came.map(|(kind, _)| kind));
    }

    pub fn saw_every_kind(&self) {
        let states = GOOD.iter().chain(&WRONG);
        let asks = ASKS.iter().chain(&MESHES).chain(&UNDATED);
        for kind in states.chain(asks).chain(&CALLS) {
            assert!(self.kinds.borrow().contains(kind), "{kind} never came");
        }
    }
}

/// How the new job stands among those that were there, where it was taken beside two or
/// more.
fn place_taken(desk: &State, answer: &Answer) -> [bool; 8] {
    let jobs = live(&answer.desk);
    let at = match taken(desk, &answer.desk).filter(|_| jobs.len() > 2) {
        Some(at) => at,
        None => return [false; 8],
    };
    let new = jobs[at];
    let (before, behind) = (&jobs[..at], &jobs[at + 1..]);
    let due = |job: &boundary::Job| job.deadline == new.deadline;
    [
        before.is_empty(),
        behind.is_empty(),
        !before.is_empty() && !behind.is_empty(),
        before.iter().any(due),
        behind.iter().any(due),
        before.iter().any(due) && behind.iter().any(due),
        behind.iter().any(|job| job.number < new.number),
        before.iter().any(|job| job.number > new.number),
    ]
}

// ---------------------------------------------------------------- wrong libraries

/// A library that is wrong in the order of the table, by number.
struct Misplacing(u32);

impl Library for Misplacing {
    fn open(&self, list: &[u32], start: u64, charge: u32) -> Answer {
        Own.open(list, start, charge)
    }
    fn open_shared(&self, list: &[u32], start: u64, charge: u32, share: boundary::Share) -> Answer {
        Own.open_shared(list, start, charge, share)
    }
    fn ask(&self, desk: State, number: u32, work: u32, lead: u32) -> Answer {
        let mut answer = Own.ask(desk, number, work, lead);
        if answer.refusal == 0 {
            misplaced_yes(self.0, &desk, &mut answer.desk);
        }
        answer.refusal = misjudged(self.0, &desk, answer.refusal, 1);
        answer
    }
    fn ask_mesh(&self, desk: State, head: &[u8], size: u64, number: u32, lead: u32) -> Answer {
        let mut answer = Own.ask_mesh(desk, head, size, number, lead);
        // As the ask for a job, where that is wrong in this.
        if let (0, 14..=19) = (answer.refusal, self.0) {
            misplaced_yes(self.0 - 13, &desk, &mut answer.desk);
        }
        answer
    }
    fn ask_undated(&self, desk: State, number: u32, work: u32) -> Answer {
        let mut answer = Own.ask_undated(desk, number, work);
        // As the ask for a job with a date, where that is wrong in this.
        if let (0, 85..=90) = (answer.refusal, self.0) {
            misplaced_yes(self.0 - 84, &desk, &mut answer.desk);
        }
        answer
    }
    fn why(&self, desk: State, number: u32, work: u32, lead: u32) -> boundary::Reason {
        Own.why(desk, number, work, lead)
    }
    fn step(&self, desk: State) -> Stepped {
        let mut stepped = Own.step(desk);
        if stepped.refusal == 0 {
            misplaced_step(self.0, &desk, &mut stepped);
        }
        match self.0 {
            // Out of order, and nothing said of it, or the foremost job served.
            80 if !wrong_pairs(&desk).is_empty() => stepped.refusal = 0,
            81 if !wrong_pairs(&desk).is_empty() => stepped = Own.step(sorted(&desk)),
            _ => (),
        }
        stepped
    }
    fn end(&self, desk: State, number: u32) -> Answer {
        let mut answer = Own.end(desk, number);
        if answer.refusal == 0 {
            misplaced_end(self.0, &desk, number, &mut answer.desk);
        }
        answer.refusal = misjudged(self.0, &desk, answer.refusal, 7);
        answer
    }
    fn rest(&self, desk: State, position: u32) -> Answer {
        let mut answer = Own.rest(desk, position);
        if self.0 == 55 && answer.refusal == 0 {
            let count = desk.table.count;
            answer.desk.table.jobs[..count].sort_by_key(|job| job.number);
        }
        answer.refusal = misjudged(self.0, &desk, answer.refusal, 7);
        answer
    }
    fn list(&self, desk: State, buffer: &mut [u64]) -> Listed {
        misplaced_list(self.0, desk, buffer)
    }
    fn label(&self, desk: State, jobs: &[u8], feeds: &[u8]) -> Label {
        match self.0 {
            // Out of order, and the foremost job's all the same.
            82 if !wrong_pairs(&desk).is_empty() => Own.label(sorted(&desk), jobs, feeds),
            _ => Own.label(desk, jobs, feeds),
        }
    }
    right_waves!();
}

/// Takes the job at one place and puts it at another, of those that are left.
fn put_elsewhere(desk: &mut State, from: usize, to: usize) {
    let mut jobs = live(desk).to_vec();
    let job = jobs.remove(from);
    jobs.insert(to.min(jobs.len()), job);
    set_jobs(desk, &jobs);
}

fn set_jobs(desk: &mut State, jobs: &[boundary::Job]) {
    desk.table.jobs[..jobs.len()].copy_from_slice(jobs);
}

/// A job was taken, and stands in its place.
fn misplaced_yes(fault: u32, before: &State, after: &mut State) {
    let at = taken(before, after).expect("it was taken");
    let (new, count) = (after.table.jobs[at], before.table.count);
    let others = || live(before).iter();
    let with = |holds: &dyn Fn(&boundary::Job) -> bool| others().filter(|job| holds(job)).count();
    let earlier = with(&|job| job.deadline < new.deadline);
    match fault {
        // Behind all, or before all.
        1 => put_elsewhere(after, at, count),
        2 => put_elsewhere(after, at, 0),
        // Behind those due with it, or before them, whatever their numbers; or the higher
        // number first.
        3 => put_elsewhere(after, at, with(&|job| job.deadline <= new.deadline)),
        4 => put_elsewhere(after, at, earlier),
        5 => {
            let together = |job: &boundary::Job| job.deadline == new.deadline;
            let higher = with(&|job| together(job) && job.number > new.number);
            put_elsewhere(after, at, earlier + higher);
        }
        // By its number alone.
        6 => put_elsewhere(after, at, with(&|job| job.number < new.number)),
        // By what it owes where they are due together.
        7 => {
            let together = |job: &boundary::Job| job.deadline == new.deadline;
            let less = with(&|job| together(job) && job.owed < new.owed);
            put_elsewhere(after, at, earlier + less);
        }
        // A place too early, or too late.
        8 => put_elsewhere(after, at, at.saturating_sub(1)),
        9 => put_elsewhere(after, at, at + 1),
        // Those behind it come round, or the first of them takes all their places.
        10 if at < count => after.table.jobs[at + 1..=count].rotate_left(1),
        11 if at < count => {
            let next = after.table.jobs[at + 1];
            after.table.jobs[at + 1..=count].fill(next);
        }
        // It takes the place of the one that stood there.
        12 if at < count => {
            after.table.jobs[at + 1..].rotate_left(1);
            after.table.jobs[63] = boundary::Job::default();
            after.table.count = count;
        }
        // All in the order of their numbers.
        13 => after.table.jobs[..=count].sort_by_key(|job| job.number),
        _ => (),
    }
}

/// The step as it would be had the job at this place of those before it been served.
fn served_at(place: usize, before: &State, stepped: &mut Stepped) {
    stepped.desk.table = before.table;
    let job = &mut stepped.desk.table.jobs[place];
    job.owed -= 1;
    (stepped.number, stepped.owes) = (job.number, job.owed);
    if job.owed == 0 {
        stepped.desk.table.jobs[place..before.table.count].rotate_left(1);
        stepped.desk.table.count -= 1;
        stepped.desk.table.jobs[before.table.count - 1] = boundary::Job::default();
    }
    settle(&mut stepped.desk);
}

/// A tick was given.
fn misplaced_step(fault: u32, before: &State, stepped: &mut Stepped) {
    let jobs = live(before);
    let count = live(&stepped.desk).len();
    if stepped.kind != 1 || jobs.len() < 2 {
        return;
    }
    let left = count < jobs.len();
    let together = jobs.iter().filter(|job| job.deadline == jobs[0].deadline);
    let last_together = together.count() - 1;
    let by = |key: &dyn Fn(&boundary::Job) -> u64| {
        let place = (0..jobs.len()).min_by_key(|place| key(&jobs[*place]));
        place.expect("there are two or more")
    };
    let table = &mut stepped.desk.table;
    match fault {
        // Another place is served: the second, the last, that of the highest number due
        // with the first, of the lowest number, or of the least that is owed.
        20 => served_at(1, before, stepped),
        21 => served_at(jobs.len() - 1, before, stepped),
        22 => served_at(last_together, before, stepped),
        23 => served_at(by(&|job| job.number.into()), before, stepped),
        24 => served_at(by(&|job| job.owed), before, stepped),
        // The first is named and another one served.
        25 => {
            let (number, owes) = (stepped.number, stepped.owes);
            served_at(1, before, stepped);
            (stepped.number, stepped.owes) = (number, owes);
        }
        // It goes behind those due with it, or behind all, as if each had its turn.
        26 if !left => table.jobs[..=last_together].rotate_left(1),
        27 if !left => table.jobs[..count].rotate_left(1),
        // With its last tick the last job goes into its place, or the table stays open
        // there, or what stood last is left behind, or the first and the last change.
        30 if left => table.jobs[..count].rotate_right(1),
        31 if left => table.jobs[..=count].rotate_right(1),
        32 if left => table.jobs[count] = table.jobs[count - 1],
        33 if left => table.jobs[..count].swap(0, count - 1),
        // A late job moves behind those that are not.
        34 if table.jobs[0].deadline <= stepped.desk.clock => table.jobs[..count].rotate_left(1),
        _ => (),
    }
}

/// The job of this number was ended.
fn misplaced_end(fault: u32, before: &State, number: u32, after: &mut State) {
    let jobs = live(before);
    let place = jobs.iter().position(|job| job.number == number);
    let place = place.expect("it was ended");
    let count = after.table.count;
    match fault {
        // The last job goes into its place, or the first, or the table stays open there.
        40 if place < count => after.table.jobs[place..count].rotate_right(1),
        41 if place > 0 => after.table.jobs[..place].rotate_left(1),
        42 => after.table.jobs[place..=count].rotate_right(1),
        // What stood last is left behind.
        43 if place < count => after.table.jobs[count] = after.table.jobs[count - 1],
        // The first of those due with it is ended in its stead, or the one behind it.
        44 => {
            let first = jobs.iter().find(|job| job.deadline == jobs[place].deadline);
            let first = first.expect("it is due with itself").number;
            *after = Own.end(*before, first).desk;
        }
        45 if place < count => *after = Own.end(*before, jobs[place + 1].number).desk,
        // The others the other way round, or in the order of their numbers.
        46 => after.table.jobs[..count].reverse(),
        47 => after.table.jobs[..count].sort_by_key(|job| job.number),
        _ => (),
    }
}

fn misplaced_list(fault: u32, desk: State, buffer: &mut [u64]) -> Listed {
    let mut listed = Own.list(desk, buffer);
    if listed.refusal == 0 {
        let mut jobs = live(&desk).to_vec();
        match fault {
            // Another order, of all or of those due together.
            50 => jobs.sort_by_key(|job| job.number),
            51 => jobs.sort_by_key(|job| (job.deadline, Reverse(job.number))),
            52 => jobs.sort_by_key(|job| (Reverse(job.deadline), job.number)),
            53 => jobs.sort_by_key(|job| (job.deadline, job.owed)),
            54 if jobs.len() > 2 => jobs[1..].reverse(),
            _ => (),
        }
        for (four, job) in buffer.chunks_mut(4).zip(&jobs) {
            four.copy_from_slice(&[job.number.into(), job.owed, job.deadline, job.figure]);
        }
    }
    listed.refusal = misjudged(fault, &desk, listed.refusal, 11);
    listed
}

/// Whether a state is in order to a library with this fault.
fn counts_as_in_order(fault: u32, desk: &State) -> bool {
    let (jobs, right) = (live(desk), in_order(desk));
    if right {
        let pairs = |holds: &dyn Fn(&boundary::Job, &boundary::Job) -> bool| {
            jobs.windows(2).all(|pair| holds(&pair[0], &pair[1]))
        };
        return match fault {
            // In order, and not to it: deadlines or numbers that have to rise, the higher
            // number first, the other way round, or a full table.
            75 => pairs(&|one, next| one.deadline < next.deadline),
            76 => pairs(&|one, next| one.number < next.number),
            77 => pairs(&|one, next| (one.deadline, next.number) < (next.deadline, one.number)),
            78 => pairs(&|one, next| rank(one) > rank(next)),
            79 => jobs.len() != 64,
            _ => true,
        };
    }
    let (wrong, twice) = (wrong_pairs(desk), twice(desk));
    if wrong.is_empty() && twice.is_empty() {
        return false;
    }
    let (some, once) = (!wrong.is_empty(), twice.is_empty());
    let last = jobs.len() - 1;
    let alike = |place: &usize| rank(&jobs[*place]) == rank(&jobs[*place + 1]);
    let due = |place: &usize| jobs[*place].deadline == jobs[*place + 1].deadline;
    match fault {
        // Not looked at, neither places nor numbers, or not places.
        60 => true,
        61 => some && once,
        // Equal neighbours pass.
        62 => wrong.iter().all(alike) && twice.iter().all(|(one, other)| one + 1 == *other) && some,
        // The deadlines alone, or the numbers alone of those due together.
        63 => some && once && wrong.iter().all(due),
        64 => some && once && !wrong.iter().any(due),
        // The first two alone, all but the first two, all but the last two, or every
        // other pair.
        65 => some && once && wrong[0] > 0,
        66 => some && once && wrong == [0] && last > 1,
        67 => some && once && wrong == [last - 1] && last > 1,
        68 => some && once && wrong.iter().all(|place| place % 2 == 1),
        // The first against all others, or the last.
        69 => some && once && jobs[1..].iter().all(|job| rank(&jobs[0]) < rank(job)),
        70 => some && once && jobs[..last].iter().all(|job| rank(job) < rank(&jobs[last])),
        // Its own order: by numbers, the other way round, or by deadline and the higher
        // number first.
        71 => some && once && jobs.windows(2).all(|pair| pair[0].number < pair[1].number),
        72 => some && once && jobs.windows(2).all(|pair| rank(&pair[0]) > rank(&pair[1])),
        73 => {
            let key = |job: &boundary::Job| (job.deadline, Reverse(job.number));
            some && once && jobs.windows(2).all(|pair| key(&pair[0]) < key(&pair[1]))
        }
        // A number twice where each stands in its place: none looked for, or only among
        // neighbours.
        74 => !some,
        83 => !some && twice.iter().all(|(one, other)| one + 1 < *other),
        _ => false,
    }
}

/// The refusal by a library with this fault, which would go on to another.
fn misjudged(fault: u32, desk: &State, right: u32, other: u32) -> u32 {
    match (counts_as_in_order(fault, desk), right) {
        (false, _) => NOT_IN_ORDER,
        (true, NOT_IN_ORDER) => other,
        _ => right,
    }
}

#[test]
fn each_wrong_order_is_found() {
    assert!(calls::compare(&Misplacing(0), 10, 0, 2_000).is_ok());
    let faults = (1..=27).chain(30..=34).chain(40..=47).chain(50..=55);
    for fault in faults.chain(60..=83).chain(85..=90) {
        assert!(
            calls::compare(&Misplacing(fault), 10, 0, 40_000).is_err(),
            "fault {fault} went by"
        );
    }
}
