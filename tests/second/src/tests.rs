//! Tests of this program itself: the document's examples, each refusal, each
//! kind of bad line, each band of a mesh, the reasons against a slower way of
//! adding up, the rehearsal ahead against two slower ways of knowing, and the
//! comparing of calls against libraries with one fault planted. What the charge
//! changes is in `charge`, what deadlines before the next release change in
//! `deadlines`, what the figure changes in `figure`, what the order of the table
//! changes in `order` and what exports with no date change in `undated`, but random
//! states here are under any charge, and with any deadlines. Waveforms are in `wave`.

/// The calls of waveforms, for a library that is wrong elsewhere.
macro_rules! right_waves {
    () => {
        fn wave_begin(&self, desk: State) -> Begun {
            Own.wave_begin(desk)
        }
        fn wave(&self, desk: State, cursor: Cursor, steps: u32, buffer: &mut [u8]) -> Waved {
            Own.wave(desk, cursor, steps, buffer)
        }
        fn wave_close(&self, cursor: Cursor, buffer: &mut [u8]) -> Closed {
            Own.wave_close(cursor, buffer)
        }
        fn wave_read(&self, text: &[u8]) -> Read {
            Own.wave_read(text)
        }
        fn wave_stretch(&self, text: &[u8], reading: Reading) -> Stretch {
            Own.wave_stretch(text, reading)
        }
    };
}

mod charge;
mod deadlines;
mod figure;
mod order;
mod undated;
mod wave;

use crate::ahead;
use crate::boundary::{self, Answer, Label, Library, Listed, Stepped};
use crate::boundary::{Begun, Closed, Cursor, Read, Reading, Stretch, Waved};
use crate::calls;
use crate::invent::{flood, least_that_fits, most_that_fits, BENCH};
use crate::mesh;
use crate::model::*;
use crate::own::{read, write, Own};
use crate::random::Random;
use crate::reason::{Instants, Owed, FAR_ENOUGH};
use crate::script::{rehearse, INPUT_MOST};
use std::cell::{Cell, RefCell};
use std::collections::BTreeSet;

fn said(input: &str) -> String {
    let mut out = Vec::new();
    rehearse(input.as_bytes(), &mut out).unwrap();
    String::from_utf8(out).unwrap()
}

fn x() -> Desk {
    open(&[4, 1, 0, 4, 6, 2, 0, 6], 0, 0).unwrap()
}

/// A job whose figure is still to be added up.
fn job(number: u32, owed: Length, deadline: Instant) -> Job {
    Job {
        number,
        owed,
        deadline,
        figure: 0,
    }
}

/// The state with figures that agree.
fn figured(mut desk: Desk) -> Desk {
    desk.add_up();
    desk
}

// ---------------------------------------------------------------- the document

#[test]
fn the_documents_rehearsal() {
    let input = "feed 4 1 0 4\nfeed 6 2 0 6\ngo 0 0\nask 1 3 6\nask 2 1 6\nrun 12\n";
    let output = "go ok\nask 1 yes\nask 2 no 6\n0 feed 1\n1 job 1\n2 job 1\n3 job 1\n4 feed 2\n\
                  5 feed 2\n6 feed 1\n7 feed 2\n8 feed 1\n9 feed 2\n10 idle\n11 idle\n";
    assert_eq!(said(input), output);
}

#[test]
fn bench_examples_on_x() {
    let refusal = |work, lead| x().ask(1, work, lead).err();
    assert_eq!(refusal(3, 6), None);
    assert_eq!(refusal(4, 6), Some(6));
    assert_eq!(refusal(4, 7), None);
    assert_eq!(refusal(5, 12), None);
    assert_eq!(refusal(6, 12), Some(6));
    assert_eq!(refusal(6, 13), None);
}

#[test]
fn bench_examples_of_full_feeds() {
    let full = open(&[2, 1, 0, 2, 4, 2, 0, 4], 0, 0).unwrap();
    assert_eq!(full.ask(1, 1, 65_536).err(), Some(6));
    let rested = full.rest(1).unwrap();
    assert_eq!(rested.ask(1, 1, 1).err(), None);
    assert_eq!(
        open(&[4, 4, 0, 4], 0, 0).unwrap().ask(1, 1, 1).err(),
        Some(6)
    );
}

#[test]
fn bench_example_of_two_jobs() {
    let one = open(&[], 0, 0).unwrap().ask(1, 3, 4).unwrap();
    assert_eq!(one.ask(2, 2, 2).err(), Some(6));
}

#[test]
fn bench_examples_of_openings() {
    assert_eq!(open(&[4, 1, 0, 6], 0, 0).err(), Some(2));
    assert_eq!(open(&[4, 1, 0], 0, 0).err(), Some(12));
    assert_eq!(
        open(&[40_319, 1, 0, 40_319, 2, 1, 0, 2], 0, 0).err(),
        Some(9)
    );
    assert_eq!(open(&[2, 1, 0, 2, 3, 2, 0, 3], 0, 0).err(), Some(10));
}

#[test]
fn bench_example_at_the_end_of_time() {
    let desk = open(&[], LAST_INSTANT - 65_536, 0).unwrap();
    assert_eq!(desk.ask(1, 1, 65_536).err(), None);
    let (later, _) = desk.step().unwrap();
    assert_eq!(later.ask(1, 1, 65_536).err(), Some(3));
}

/// The same in the program's words: the last line that is not a tick.
#[test]
fn bench_examples_as_scripts() {
    let answers = [
        "ask 2 no 6",
        "ask 1 no 6",
        "ask 1 yes",
        "ask 1 yes",
        "ask 1 no 6",
        "ask 1 yes",
        "ask 1 no 6",
        "ask 1 yes",
        "ask 1 no 6",
        "ask 2 no 6",
        "go no 9",
        "go no 10",
        "ask 1 yes",
        "ask 1 no 3",
    ];
    for (script, answer) in BENCH.iter().zip(answers) {
        let output = said(script);
        let mut lines = output
            .lines()
            .filter(|line| !line.starts_with(|c: char| c.is_ascii_digit()));
        assert_eq!(lines.next_back(), Some(answer), "{script}");
    }
}

// ---------------------------------------------------------------- refusals

#[test]
fn refusals_of_open_in_order() {
    let seventeen = [1u32; 68];
    assert_eq!(open(&[1; 69], LAST_INSTANT + 1, 0).err(), Some(12));
    assert_eq!(open(&seventeen, LAST_INSTANT + 1, 0).err(), Some(8));
    assert_eq!(open(&[0, 0, 0, 0], LAST_INSTANT + 1, 0).err(), Some(3));
    assert_eq!(
        open(&[40_319, 1, 0, 40_319, 2, 0, 0, 2], 0, 0).err(),
        Some(2)
    );
    for (list, refusal) in [
        (&[0, 0, 0][..], 12),
        (&seventeen, 8),
        (&[0, 0, 0, 0], 18),
        (&[40_319, 1, 0, 40_319, 2, 1, 0, 2], 18),
        (&[4, 5, 0, 4], 18),
        (&[], 18),
    ] {
        assert_eq!(open(list, 0, 17).err(), Some(refusal));
    }
    assert_eq!(open(&[0, 0, 0, 0], LAST_INSTANT + 1, 17).err(), Some(3));
    for outside in [
        [0, 1, 0, 1],
        [40_321, 1, 0, 1],
        [4, 0, 0, 4],
        [4, 40_321, 0, 4],
        [4, 1, 4, 4],
    ] {
        assert_eq!(open(&outside, 0, 0).err(), Some(2));
    }
    assert_eq!(
        open(&[40_319, 40_320, 0, 40_319, 2, 2, 0, 2], 0, 0).err(),
        Some(9)
    );
    assert_eq!(open(&[4, 5, 0, 4], LAST_INSTANT, 0).err(), Some(10));
    assert!(open(&[4, 4, 3, 4], LAST_INSTANT, 0).is_ok());
    assert!(open(&[20, 1, 0, 20].repeat(16), 0, 0).is_ok());
}

#[test]
fn refusals_of_ask_in_order() {
    let mut disordered = x();
    disordered.clock = LAST_INSTANT + 1;
    assert_eq!(disordered.ask(0, 0, 0).err(), Some(13));
    let last = open(&[], LAST_INSTANT, 0).unwrap();
    assert_eq!(last.ask(0, 0, 0).err(), Some(1));
    for (work, lead) in [(0, 1), (1, 0), (65_537, 1), (1, 65_537)] {
        assert_eq!(last.ask(1, work, lead).err(), Some(2));
    }
    assert_eq!(last.ask(1, 1, 1).err(), Some(3));
    let one = open(&[], LAST_INSTANT - 10, 0)
        .unwrap()
        .ask(1, 10, 10)
        .unwrap();
    assert_eq!(one.ask(1, 1, 11).err(), Some(3));
    assert_eq!(one.ask(1, 9, 1).err(), Some(4));
    assert_eq!(one.ask(2, 1, 10).err(), Some(6));
    let mut full = open(&[], 0, 0).unwrap();
    for number in 1..=64 {
        full = full.ask(number, 1, 100).unwrap();
    }
    assert_eq!(full.ask(64, 1, 100).err(), Some(4));
    assert_eq!(full.ask(65, 65_536, 1).err(), Some(5));
}

#[test]
fn refusals_elsewhere() {
    let last = open(&[4, 1, 0, 4], LAST_INSTANT, 0).unwrap();
    assert_eq!(last.step().err(), Some(3));
    assert_eq!(last.end(0).err(), Some(7));
    assert_eq!(last.rest(0).err(), Some(7));
    assert_eq!(last.rest(2).err(), Some(7));
    let rested = last.rest(1).unwrap();
    assert_eq!(rested.rest(1).err(), Some(7));
    let not_come = open(&[4, 1, 3, 4], 0, 0).unwrap();
    assert_eq!(not_come.rest(1).err(), Some(7));
    let one = x().ask(9, 1, 50).unwrap();
    assert_eq!(one.list(&mut [0; 3]).err(), Some(11));
    let mut late = one.clone();
    late.jobs[0].deadline = late.clock;
    assert_eq!(late.step().err(), Some(13));
    assert_eq!(late.end(9).err(), Some(13));
    assert_eq!(late.rest(1).err(), Some(13));
    assert_eq!(late.list(&mut []).err(), Some(13));
}

// ---------------------------------------------------------------- asking with the mesh

/// The front of a file with this many triangles, behind a header of this byte.
fn front(triangles: u32, header: u8) -> Vec<u8> {
    let mut head = vec![header; 80];
    head.extend(triangles.to_le_bytes());
    head
}

fn length_of(triangles: u32) -> u64 {
    84 + 50 * u64::from(triangles)
}

/// Each band as the request has it: from, to, ticks.
const BANDS: [(u32, u32, u32); 6] = [
    (1, 9_999, 4),
    (10_000, 99_999, 16),
    (100_000, 999_999, 120),
    (1_000_000, 9_999_999, 900),
    (10_000_000, 99_999_999, 8_000),
    (100_000_000, 4_294_967_295, 65_536),
];

#[test]
fn each_band_at_both_its_ends() {
    let desk = open(&[], 0, 0).unwrap();
    for (from, to, ticks) in BANDS {
        for triangles in [from, to] {
            let taken = desk
                .ask_mesh(&front(triangles, 0), length_of(triangles), 1, 65_536)
                .unwrap();
            assert_eq!(taken.jobs[0].owed, ticks.into(), "{triangles} triangles");
        }
    }
}

#[test]
fn the_bands_leave_no_count_out() {
    let mut random = Random::of(13, 0);
    let mut next = 1;
    for (from, to, ticks) in BANDS {
        assert_eq!(u64::from(from), next);
        next = u64::from(to) + 1;
        for _ in 0..1_000 {
            let triangles = random.between(from.into(), to.into()) as u32;
            assert_eq!(mesh::work_for(triangles), ticks, "{triangles} triangles");
        }
    }
    assert_eq!(next, 1 << 32);
}

#[test]
fn the_count_stands_behind_the_header_lowest_byte_first() {
    for (place, triangles) in (80..).zip([1, 256, 65_536, 16_777_216]) {
        let mut head = vec![0; 84];
        head[place] = 1;
        assert_eq!(head, front(triangles, 0));
        let ticks = mesh::work_for(triangles);
        assert_eq!(mesh::work(&head, length_of(triangles)), Ok(ticks));
    }
    let length = 617_334;
    assert_eq!(length, length_of(12_345));
    for header in [0, 1, b' ', 255] {
        let mut head = front(12_345, header);
        assert_eq!(head[80..], [0x39, 0x30, 0, 0]);
        for more in 0..20 {
            assert_eq!(mesh::work(&head, length), Ok(16), "{more} bytes more");
            head.push(!header);
        }
    }
}

#[test]
fn a_front_that_is_too_short() {
    let head = front(12_345, 7);
    for lent in 0..84 {
        for size in [617_334, 84, 0, u64::MAX] {
            assert_eq!(mesh::work(&head[..lent], size), Err(15), "{lent} bytes");
        }
    }
    assert_eq!(mesh::work(&head, 617_334), Ok(16));
}

#[test]
fn a_length_that_does_not_agree() {
    for (from, to, ticks) in BANDS {
        for triangles in [from, to] {
            let (head, right) = (front(triangles, 0), length_of(triangles));
            assert_eq!(mesh::work(&head, right), Ok(ticks));
            for wrong in [right - 50, right - 49, right - 1, right + 1] {
                assert_eq!(mesh::work(&head, wrong), Err(16));
            }
            // The last two agree where only 32 bits are looked at.
            for wrong in [right + 49, right + 50, right + (1 << 32), right ^ (1 << 63)] {
                assert_eq!(mesh::work(&head, wrong), Err(16));
            }
            for wrong in [0, 1, 83, 84, u64::MAX] {
                assert_eq!(mesh::work(&head, wrong), Err(16));
            }
        }
    }
    let longest = 214_748_364_834;
    assert_eq!(longest, length_of(u32::MAX));
    assert_eq!(mesh::work(&front(u32::MAX, 0), longest), Ok(65_536));
    let round_32_bits = longest % (1 << 32);
    assert_eq!(mesh::work(&front(u32::MAX, 0), round_32_bits), Err(16));
}

#[test]
fn a_mesh_without_triangles() {
    assert_eq!(mesh::work(&front(0, 9), 84), Err(17));
    for size in [0, 83, 85, 134, u64::MAX] {
        assert_eq!(mesh::work(&front(0, 9), size), Err(16));
    }
}

#[test]
fn refusals_of_a_mesh_in_order() {
    let (some, none) = (front(10, 0), front(0, 0));
    let mut disordered = x();
    disordered.clock = LAST_INSTANT + 1;
    assert_eq!(disordered.ask_mesh(&[], 0, 0, 0).err(), Some(13));
    assert_eq!(disordered.ask_mesh(&some, 585, 0, 0).err(), Some(13));
    assert_eq!(disordered.ask_mesh(&none, 84, 0, 0).err(), Some(13));
    assert_eq!(disordered.ask_mesh(&some, 584, 1, 9).err(), Some(13));
    let last = open(&[], LAST_INSTANT, 0).unwrap();
    assert_eq!(last.ask_mesh(&none[..83], 83, 0, 0).err(), Some(15));
    assert_eq!(last.ask_mesh(&none, 83, 0, 0).err(), Some(16));
    assert_eq!(last.ask_mesh(&some, 583, 0, 0).err(), Some(16));
    assert_eq!(last.ask_mesh(&none, 84, 0, 0).err(), Some(17));
    assert_eq!(last.ask_mesh(&some, 584, 0, 0).err(), Some(1));
    assert_eq!(last.ask_mesh(&some, 584, 1, 0).err(), Some(2));
    assert_eq!(last.ask_mesh(&some, 584, 1, 65_537).err(), Some(2));
    assert_eq!(last.ask_mesh(&some, 584, 1, 1).err(), Some(3));
    let one = open(&[], LAST_INSTANT - 10, 0)
        .unwrap()
        .ask(1, 7, 10)
        .unwrap();
    assert_eq!(one.ask_mesh(&none, 84, 1, 10).err(), Some(17));
    assert_eq!(one.ask_mesh(&some, 584, 1, 11).err(), Some(3));
    assert_eq!(one.ask_mesh(&some, 584, 1, 10).err(), Some(4));
    assert_eq!(one.ask_mesh(&some, 584, 2, 10).err(), Some(6));
    let mut full = open(&[], 0, 0).unwrap();
    for number in 1..=64 {
        full = full.ask_mesh(&some, 584, number, 256).unwrap();
    }
    assert_eq!(full.ask_mesh(&some, 584, 64, 1).err(), Some(4));
    assert_eq!(full.ask_mesh(&some, 584, 65, 1).err(), Some(5));
    assert_eq!(full.ask_mesh(&some, 534, 65, 1).err(), Some(16));
}

/// What passes the mesh's own lines is the ask for its work, to the state.
#[test]
fn a_mesh_that_passes_is_asked_for_as_any_job() {
    let mut random = Random::of(14, 0);
    let mut taken = 0;
    for _ in 0..500 {
        let desk = small_state(&mut random, &[2, 3, 4, 5, 6, 8, 12, 20], 40);
        let triangles = random.pick(&[1, 9_999, 12_345, 99_999]);
        let (head, size) = (front(triangles, 1), length_of(triangles));
        let (number, lead) = (random.below(6) as u32, random.below(100) as u32);
        let asked = desk.ask(number, if triangles < 10_000 { 4 } else { 16 }, lead);
        taken += u32::from(asked.is_ok());
        assert_eq!(desk.ask_mesh(&head, size, number, lead), asked);
    }
    assert!((50..450).contains(&taken), "both often: {taken} taken");
}

// ---------------------------------------------------------------- reasons

/// What stands with 6.
fn overbooked(at: Instant, jobs: u64, feeds: u64, job: u64, margin: i64) -> Reason {
    Reason {
        refusal: 6,
        at,
        jobs,
        feeds,
        job,
        margin,
    }
}

/// What stands with 0.
fn tightest(margin: i64, at: Instant) -> Reason {
    Reason {
        at,
        margin,
        ..Reason::default()
    }
}

/// By 4 the first feed owes 1, by 6 both owe 1 + 2, by 8 2 + 2, by 12 3 + 4.
#[test]
fn reasons_on_x() {
    let why = |work, lead| x().why(1, work, lead);
    assert_eq!(why(3, 6), tightest(0, 6));
    assert_eq!(why(4, 6), overbooked(6, 0, 3, 4, -1));
    assert_eq!(why(9, 6), overbooked(6, 0, 3, 9, -6));
    assert_eq!(why(4, 7), tightest(0, 7));
    assert_eq!(why(5, 12), tightest(0, 12));
    assert_eq!(why(6, 12), overbooked(12, 0, 7, 6, -1));
    assert_eq!(why(6, 13), tightest(0, 13));
    // The margin at 4, 6 and 8 is 1 or 2, and it is 1 at the first instant.
    assert_eq!(why(2, 4), tightest(1, 1));
    assert_eq!(why(3, 4), tightest(0, 4));
    // It is the feeds that would be late: by 6, and not by its own deadline.
    assert_eq!(why(4, 5), overbooked(6, 0, 3, 4, -1));
    assert_eq!(why(65_536, 1), overbooked(1, 0, 0, 65_536, -65_535));
}

#[test]
fn reasons_of_full_feeds() {
    let full = open(&[2, 1, 0, 2, 4, 2, 0, 4], 0, 0).unwrap();
    // Every fourth instant has margin 0 without it: the first of them that it is
    // owed by is overbooked.
    assert_eq!(full.why(1, 1, 65_536), overbooked(65_536, 0, 65_536, 1, -1));
    assert_eq!(full.why(1, 1, 65_533), overbooked(65_536, 0, 65_536, 1, -1));
    assert_eq!(full.why(1, 1, 1), overbooked(4, 0, 4, 1, -1));
    let rested = full.rest(1).unwrap();
    // Again 0 at every fourth instant, but the first counts.
    assert_eq!(rested.why(1, 1, 1), tightest(0, 1));
    assert_eq!(rested.why(1, 1, 65_536), tightest(0, 65_536));
    assert_eq!(rested.why(1, 1, 65_535), tightest(0, 65_536));
    assert_eq!(rested.why(1, 1, 4), tightest(0, 4));
    let whole = open(&[4, 4, 0, 4], 0, 0).unwrap();
    assert_eq!(whole.why(1, 1, 1), overbooked(4, 0, 4, 1, -1));
}

#[test]
fn reasons_of_jobs_alone() {
    let desk = open(&[], 0, 0).unwrap();
    assert_eq!(desk.why(1, 1, 65_536), tightest(1, 1));
    assert_eq!(desk.why(1, 65_535, 65_536), tightest(1, 1));
    assert_eq!(desk.why(1, 65_536, 65_536), tightest(0, 65_536));
    let later = open(&[], 1_000_000, 0).unwrap();
    assert_eq!(later.why(1, 1, 65_536), tightest(1, 1_000_001));
    assert_eq!(later.why(1, 1, 1), tightest(0, 1_000_001));
    let one = desk.ask(1, 3, 4).unwrap();
    assert_eq!(one.why(2, 2, 2), overbooked(4, 3, 0, 2, -1));
    assert_eq!(one.why(2, 2, 4), overbooked(4, 3, 0, 2, -1));
    assert_eq!(one.why(2, 3, 2), overbooked(2, 0, 0, 3, -1));
    assert_eq!(one.why(2, 2, 5), tightest(0, 5));
    assert_eq!(one.why(2, 1, 4), tightest(0, 4));
    assert_eq!(one.why(2, 1, 5), tightest(1, 1));
    // What was given counts no more, and the time is that from the clock.
    let (one, _) = one.step().unwrap();
    assert_eq!(one.why(2, 3, 2), overbooked(3, 0, 0, 3, -1));
    assert_eq!(one.why(2, 2, 2), overbooked(4, 2, 0, 2, -1));
    assert_eq!(one.why(2, 1, 3), tightest(0, 4));
}

/// What the current piece still owes, not what it came with; and no piece at all
/// before the first has come.
#[test]
fn reasons_with_pieces_that_ran_or_have_not_come() {
    let (desk, ran) = open(&[10, 4, 0, 10], 0, 0).unwrap().step().unwrap();
    assert_eq!(ran.owes, 3);
    assert_eq!(desk.why(1, 6, 9), tightest(0, 10));
    assert_eq!(desk.why(1, 7, 9), overbooked(10, 0, 3, 7, -1));
    // Both clocks are before the piece of instant 7, due at 17.
    for clock in [0, 6] {
        let desk = open(&[10, 10, 7, 10], clock, 0).unwrap();
        let room = 7 - clock as u32;
        assert_eq!(desk.why(1, room, room), tightest(0, 7));
        let why = desk.why(1, room + 1, room + 1);
        assert_eq!(why, overbooked(17, 0, 10, 8 - clock, -1));
    }
    // Opened in mid-period: the piece of instant 7 never was.
    let desk = open(&[10, 10, 7, 10], 8, 0).unwrap();
    assert_eq!(desk.why(1, 9, 9), tightest(0, 17));
    assert_eq!(desk.why(1, 10, 10), overbooked(27, 0, 10, 10, -1));
}

/// The first whole piece is due long after the last job.
#[test]
fn a_reason_long_after_the_last_job() {
    let rested = |start: u64| {
        let feed = [40_320, 40_320, (start % 40_320) as u32, 40_320];
        open(&feed, start, 0).unwrap().rest(1).unwrap()
    };
    for start in [0, 12_345, LAST_INSTANT - 65_536] {
        let (desk, at) = (rested(start), start + 80_640);
        assert_eq!(desk.why(1, 40_320, 65_536), tightest(0, at));
        let why = desk.why(1, 40_321, 65_536);
        assert_eq!(why, overbooked(at, 0, 40_320, 40_321, -1));
        // By its own deadline it owes just the time that there is.
        let why = desk.why(1, 65_536, 65_536);
        assert_eq!(why, overbooked(at, 0, 40_320, 65_536, -25_216));
        // The same margin, 1, is there at the first instant.
        assert_eq!(desk.why(1, 40_319, 65_536), tightest(1, start + 1));
    }
}

/// The last instant that can decide, by the comment in `reason`: one before M + R.
/// A piece is due one instant before the job and the next one a round later.
#[test]
fn a_reason_as_late_as_can_be() {
    for start in [0, 12_345, LAST_INSTANT - 65_536] {
        let offset = (start + 65_535) % 40_320;
        let feed = [40_320, 40_320, offset as u32, 40_320];
        let desk = open(&feed, start, 0).unwrap();
        let at = start + 65_536 + 40_320 - 1;
        assert_eq!(desk.why(1, 25_215, 65_536), tightest(0, at));
        let why = desk.why(1, 25_216, 65_536);
        assert_eq!(why, overbooked(at, 0, 80_640, 25_216, -1));
    }
}

#[test]
fn reasons_past_the_last_instant() {
    let desk = open(&[10, 10, 7, 10], LAST_INSTANT - 2, 0).unwrap();
    // 2^40 leaves 6 when divided by 10, so that pieces come at 2^40 + 1 and so on.
    assert_eq!(LAST_INSTANT % 10, 6);
    assert_eq!(desk.why(1, 1, 1), tightest(0, LAST_INSTANT - 1));
    assert_eq!(desk.why(1, 1, 2), tightest(1, LAST_INSTANT - 1));
    assert_eq!(desk.why(1, 2, 2), tightest(0, LAST_INSTANT));
    let why = desk.why(1, 3, 2);
    assert_eq!(why, overbooked(LAST_INSTANT, 0, 0, 3, -1));
    let (desk, _) = desk.ask(1, 2, 2).unwrap().step().unwrap();
    assert_eq!(desk.why(2, 1, 1), overbooked(LAST_INSTANT, 1, 0, 1, -1));
    let full = open(&[8, 8, 0, 8], LAST_INSTANT - 1, 0).unwrap();
    assert_eq!(LAST_INSTANT % 8, 0);
    assert_eq!(full.why(1, 1, 1), tightest(0, LAST_INSTANT));
    let full = open(&[8, 8, 1, 8], LAST_INSTANT - 1, 0).unwrap();
    assert_eq!(full.why(1, 1, 1), tightest(0, LAST_INSTANT));
    let mut full = open(&[8, 4, 1, 8, 8, 4, 3, 8], LAST_INSTANT - 6, 0).unwrap();
    while full.clock < LAST_INSTANT - 1 {
        full = full.step().unwrap().0;
    }
    // Opened between the first's release and the second's, whose piece has run to
    // its end: nothing is owed by 2^40 + 1 and 2^40 + 3.
    assert_eq!(full.why(1, 1, 1), tightest(0, LAST_INSTANT));
    let mut later = full.clone();
    later.feeds[0].owes = 1;
    assert_eq!(later.why(1, 1, 1), tightest(0, LAST_INSTANT));
    later.feeds[0].owes = 2;
    let why = later.why(1, 1, 1);
    assert_eq!(why, overbooked(LAST_INSTANT + 1, 0, 2, 1, -1));
    // The clock at its end takes nothing more.
    let (end, _) = full.step().unwrap();
    assert_eq!(end.why(1, 1, 1).refusal, 3);
}

#[test]
fn other_refusals_come_with_their_number_alone() {
    let alone = |refusal| Reason {
        refusal,
        ..Reason::default()
    };
    let mut disordered = x();
    disordered.clock = LAST_INSTANT + 1;
    assert_eq!(disordered.why(0, 0, 0), alone(13));
    assert_eq!(disordered.why(1, 1, 1), alone(13));
    let last = open(&[4, 4, 0, 4], LAST_INSTANT, 0).unwrap();
    assert_eq!(last.why(0, 0, 0), alone(1));
    assert_eq!(last.why(1, 0, 1), alone(2));
    assert_eq!(last.why(1, 1, 0), alone(2));
    assert_eq!(last.why(1, 65_537, 1), alone(2));
    assert_eq!(last.why(1, 1, 65_537), alone(2));
    assert_eq!(last.why(1, 1, 1), alone(3));
    let one = x().ask(1, 1, 6).unwrap();
    assert_eq!(one.why(1, 65_536, 1), alone(4));
    let mut full = open(&[], 0, 0).unwrap();
    for number in 1..=64 {
        full = full.ask(number, 1, 64).unwrap();
    }
    assert_eq!(full.why(64, 65_536, 1), alone(4));
    assert_eq!(full.why(65, 65_536, 1), alone(5));
    assert_eq!(full.why(65, 1, 65_536), alone(5));
    let unread = {
        let mut desk = write(&x());
        desk.table.jobs[7].owed = 1;
        desk
    };
    let why = Own.why(unread, 1, 4, 6);
    assert_eq!((why.refusal, why.at, why.margin), (13, 0, 0));
    assert_eq!((why.jobs, why.feeds, why.job), (0, 0, 0));
}

/// In order all the same: 6 whatever is asked for, at an instant that the new
/// job's deadline may come after, so that it owes nothing by then.
#[test]
fn reasons_on_an_overbooked_state() {
    let desk = figured(Desk {
        clock: 10,
        feeds: x().feeds,
        jobs: vec![job(5, 9, 20), job(4, 3, 12), job(6, 1, 11)],
        ..Desk::default()
    });
    assert!(desk.in_order());
    // By 12 the jobs owe 1 + 3 and both current pieces are due, 1 + 2.
    assert_eq!(desk.why(1, 7, 3), overbooked(12, 4, 3, 0, -5));
    assert_eq!(desk.why(1, 7, 2), overbooked(12, 4, 3, 7, -12));
    assert_eq!(desk.why(1, 1, 1), overbooked(11, 1, 0, 1, -1));
    assert_eq!(desk.why(1, 65_536, 65_536), overbooked(12, 4, 3, 0, -5));
    let jobs = (1..=63).map(|number| job(number, 65_536, LAST_INSTANT));
    let most = figured(Desk {
        clock: LAST_INSTANT - 1,
        jobs: jobs.collect(),
        ..Desk::default()
    });
    let (all, margin) = (63 * 65_536, 1 - 64 * 65_536);
    let why = most.why(64, 65_536, 1);
    assert_eq!(why, overbooked(LAST_INSTANT, all, 0, 65_536, margin));
}

/// All that is owed by an instant, added up afresh, piece after piece; the new job
/// owes this much.
fn owed_by(desk: &Desk, owes: u64, lead: u64, at: Instant) -> Owed {
    let live = desk.jobs.iter().filter(|job| job.deadline <= at);
    let jobs = live.map(|job| job.owed).sum();
    let mut feeds = 0;
    for feed in &desk.feeds {
        if feed.due(desk.clock).map_or(false, |due| due <= at) {
            feeds += feed.owes;
        }
        let mut release = feed.next_release(desk.clock);
        while release + feed.lead <= at {
            feeds += feed.work + desk.charge;
            release += feed.period;
        }
    }
    let job = if desk.clock + lead <= at { owes } else { 0 };
    Owed {
        at,
        jobs,
        feeds,
        job,
        margin: (at - desk.clock) as i64 - (jobs + feeds + job) as i64,
    }
}

/// On small states, where a round is 120 at most and so the claim of `reason` is
/// that the instant comes no later than 40 + 120 after the clock.
#[test]
fn reasons_agree_with_adding_up_afresh() {
    let mut random = Random::of(15, 0);
    let (mut taken, mut refused, mut not_due) = (0, 0, 0);
    for _ in 0..1_000 {
        let desk = small_state(&mut random, &[1, 2, 3, 4, 5, 6, 8, 12, 20], 40);
        let room = (LAST_INSTANT - desk.clock).clamp(1, 40);
        let lead = random.between(1, room);
        let work = random.between(1, lead / 2 + 1);
        let why = desk.why(9, work as u32, lead as u32);
        let owes = work + desk.charge;
        let all: Vec<Owed> = (1..=400)
            .map(|time| owed_by(&desk, owes, lead, desk.clock + time))
            .collect();
        let instants = Instants::after_the_clock(&desk, owes, lead);
        assert!(instants.take(400).eq(all.iter().copied()), "{desk:?}");
        let expected = match all.iter().find(|owed| owed.margin < 0) {
            Some(o) => overbooked(o.at, o.jobs, o.feeds, o.job, o.margin),
            // The first of equal ones.
            None => {
                let least = all.iter().min_by_key(|owed| owed.margin).unwrap();
                tightest(least.margin, least.at)
            }
        };
        assert_eq!(why, expected, "{desk:?}");
        assert!(why.at - desk.clock < 40 + 120);
        match why {
            Reason { refusal: 0, .. } => taken += 1,
            Reason { job: 0, .. } => not_due += 1,
            _ => refused += 1,
        }
    }
    for count in [taken, refused, not_due] {
        assert!(count > 100, "{taken} taken, {refused} refused, {not_due}");
    }
}

/// The limits that `FAR_ENOUGH` is made of.
#[test]
fn far_enough_has_a_round_to_spare() {
    assert_eq!(FAR_ENOUGH, 65_536 + 40_320 + 40_320);
}

// ---------------------------------------------------------------- steps and states

#[test]
fn equal_deadlines_go_by_rank() {
    let desk = open(&[6, 1, 0, 6, 6, 1, 0, 6], 0, 0)
        .unwrap()
        .ask(7, 1, 6)
        .unwrap()
        .ask(3, 1, 6)
        .unwrap();
    let mut names = Vec::new();
    let mut now = desk;
    for _ in 0..5 {
        let (next, ran) = now.step().unwrap();
        names.push(ran.runner);
        now = next;
    }
    let expected = [
        Runner::Job(3),
        Runner::Job(7),
        Runner::Feed(1),
        Runner::Feed(2),
        Runner::Idle,
    ];
    assert_eq!(names, expected);
}

#[test]
fn an_opening_in_mid_period_waits_for_the_next_piece() {
    let desk = open(&[10, 10, 7, 10], 8, 0).unwrap();
    assert_eq!(desk.feeds[0].owes, 0);
    assert!(desk.ask(1, 9, 9).is_ok());
    assert_eq!(desk.ask(1, 10, 10).err(), Some(6));
}

#[test]
fn a_step_tells_what_is_owed_before_a_release() {
    let (next, ran) = open(&[1, 1, 0, 1], 0, 0).unwrap().step().unwrap();
    assert_eq!(
        ran,
        Ran {
            runner: Runner::Feed(1),
            owes: 0
        }
    );
    assert_eq!(next.feeds[0].owes, 1);
}

#[test]
fn a_late_job_stays_and_a_late_piece_gives_way() {
    let feed = Feed {
        period: 2,
        work: 2,
        offset: 0,
        lead: 2,
        owes: 2,
    };
    let desk = figured(Desk {
        feeds: vec![feed],
        jobs: vec![job(5, 2, 1), job(4, 2, 1)],
        ..Desk::default()
    });
    assert!(desk.in_order());
    assert_eq!(desk.ask(1, 1, 65_536).err(), Some(6));
    let (late, ran) = desk.step().unwrap();
    assert_eq!(
        ran,
        Ran {
            runner: Runner::Job(4),
            owes: 1
        }
    );
    assert_eq!(late.jobs.len(), 2);
    assert!(!late.in_order());
    let desk = Desk {
        clock: 1,
        feeds: vec![feed],
        ..Desk::default()
    };
    let (next, ran) = desk.step().unwrap();
    assert_eq!(ran.owes, 1);
    assert_eq!(next.feeds[0].owes, 2);
}

#[test]
fn numbers_are_used_again_and_jobs_stand_as_they_came() {
    let mut desk = open(&[], 0, 0).unwrap();
    for number in [5, 4, 3] {
        desk = desk.ask(number, 2, 20).unwrap();
    }
    desk = desk.end(4).unwrap().ask(4, 1, 1).unwrap();
    let numbers: Vec<u32> = desk.jobs.iter().map(|job| job.number).collect();
    assert_eq!(numbers, [5, 3, 4]);
}

#[test]
fn listing_and_labels() {
    let desk = x()
        .ask(9, 1, 50)
        .unwrap()
        .ask(2, 1, 50)
        .unwrap()
        .ask(600, 1, 1)
        .err();
    assert_eq!(desk, None);
    let desk = x()
        .ask(9, 1, 50)
        .unwrap()
        .ask(2, 1, 50)
        .unwrap()
        .ask(258, 1, 1)
        .unwrap();
    let mut buffer = [77; 14];
    assert_eq!(desk.list(&mut buffer), Ok(3));
    let expected = [258, 1, 1, 1, 2, 1, 50, 3, 9, 1, 50, 3, 77, 77];
    assert_eq!(buffer, expected);
    let records = [
        0, 0, 2, 1, 1, 1, 1, 1, 1, 1, 1, 1, 0, 0, 1, 2, 2, 2, 2, 2, 2, 2, 2, 2,
    ];
    assert_eq!(desk.label(&records, &[]), Place::InJobLabels(16));
    assert_eq!(desk.label(&records[..23], &[]), Place::Empty);
    assert_eq!(x().label(&[], &[1; 8]), Place::InFeedLabels(0));
    assert_eq!(x().label(&[], &[1; 7]), Place::Empty);
    assert_eq!(
        open(&[4, 1, 0, 4], LAST_INSTANT, 0)
            .unwrap()
            .label(&records, &[1; 8]),
        Place::Empty
    );
    assert_eq!(
        x().rest(1).unwrap().label(&[], &[1; 16]),
        Place::InFeedLabels(8)
    );
}

/// Each way to damage a state that the document names.
const DAMAGES: [fn(&mut Desk); 22] = [
    |desk| desk.clock = LAST_INSTANT + 1,
    |desk| desk.charge = 17,
    |desk| desk.charge = 2,
    |desk| {
        desk.feeds.extend(vec![
            Feed {
                period: 40_320,
                work: 1,
                offset: 0,
                lead: 40_320,
                owes: 0
            };
            15
        ])
    },
    |desk| desk.feeds[0].period = 0,
    |desk| desk.feeds[0].period = 40_319,
    |desk| desk.feeds[0].work = 3,
    |desk| desk.feeds[0].offset = 4,
    |desk| desk.feeds[0].lead = 0,
    |desk| desk.feeds[0].lead = 5,
    |desk| desk.feeds[1].lead = 1,
    |desk| desk.feeds[1].lead = 3,
    |desk| desk.feeds[0].owes = 2,
    |desk| desk.jobs[0].number = 0,
    |desk| desk.jobs[0].number = 2,
    |desk| desk.jobs[0].owed = 0,
    |desk| desk.jobs[0].owed = 65_537,
    |desk| desk.jobs[0].deadline = 8,
    |desk| desk.jobs[0].deadline = 8 + 65_537,
    |desk| desk.jobs[0].deadline = u64::MAX,
    |desk| {
        desk.clock = 4;
        desk.jobs.clear()
    },
    |desk| desk.jobs = vec![desk.jobs[0]; 65],
];

#[test]
fn damaged_states_are_not_in_order() {
    let good = open(&[4, 1, 0, 4, 6, 2, 5, 6], 8, 0)
        .unwrap()
        .ask(1, 2, 20)
        .unwrap()
        .ask(2, 2, 30)
        .unwrap();
    assert!(good.in_order());
    for (which, damage) in DAMAGES.iter().enumerate() {
        let mut desk = good.clone();
        // Its piece came three ticks ago.
        desk.feeds[1].owes = 1;
        assert!(desk.in_order());
        damage(&mut desk);
        assert!(!figured(desk).in_order(), "damage {which}");
    }
}

#[test]
fn unused_places_must_be_zero() {
    let good = write(&x().ask(1, 1, 9).unwrap());
    assert!(read(&good).is_some());
    for place in 1..64 {
        let mut desk = good;
        desk.table.jobs[place].deadline = 1;
        assert!(read(&desk).is_none());
        desk.table.jobs[place] = boundary::Job::default();
        assert!(read(&desk).is_some());
        desk.table.jobs[place].figure = 1;
        assert!(read(&desk).is_none());
    }
    for count in [17, usize::MAX] {
        let mut desk = good;
        desk.feeds.count = count;
        assert!(read(&desk).is_none());
    }
}

// ---------------------------------------------------------------- the program

/// Bad before `go`.
const BAD_BEFORE_GO: [&str; 46] = [
    "",
    " ",
    "go",
    "go ",
    "go 0",
    "go 0 ",
    " go 0 0",
    "go  0 0",
    "go 0  0",
    "go 0 0 ",
    "go 00 0",
    "go 01 0",
    "go 0 00",
    "go 0 01",
    "go -1 0",
    "go +1 0",
    "go 0 -1",
    "go 10000000000000 0",
    "go 0 4294967296",
    "go 0 10000000000000",
    "go 0 0 0",
    "go 0 0 1 2",
    "go 0 0 1/2",
    "Go 0 0",
    "feed 4 1",
    "feed 4 1 0",
    "feed 4 1 0 ",
    "feed 4 1 0 4 4",
    "feed 4 1 0 4 ",
    "feed 04 1 0 4",
    "feed 4 1 0 04",
    "feed 4294967296 1 0 4",
    "feed 4 4294967296 0 4",
    "feed 4 1 4294967296 4",
    "feed 4 1 0 4294967296",
    "word",
    "go 0 0\r",
    "go\t0 0",
    "go 0\t0",
    "ask 1 1 1",
    "end 1",
    "rest 1",
    "run 1",
    "go 1a 0",
    "go 0 1a",
    "share 1 2",
];

/// Bad after it.
const BAD_AFTER_GO: [&str; 22] = [
    "",
    "ask 1 1",
    "ask 1 1 ",
    "ask 1 1 1 1",
    "ask 4294967296 1 1",
    "ask 1 4294967296 1",
    "ask 1 1 4294967296",
    "ask 01 1 1",
    "undated 1 1",
    "share 1 2",
    "end",
    "end 1 1",
    "end 4294967296",
    "rest",
    "rest 4294967296",
    "run",
    "run 4097",
    "run 04",
    "go 0 0",
    "feed 4 1 0 4",
    "run 1 ",
    "list",
];

#[test]
fn bad_lines() {
    for line in BAD_BEFORE_GO {
        let output = said(&format!("feed 4 1 0 4\n{line}\ngo 0 0\n"));
        assert_eq!(output, "line 2 bad\n", "{line:?}");
    }
    for line in BAD_AFTER_GO {
        let output = said(&format!("go 0 0\n{line}\nrun 1\n"));
        assert_eq!(output, "go ok\nline 2 bad\n", "{line:?}");
    }
}

#[test]
fn good_lines_at_their_limits() {
    assert_eq!(said(""), "");
    assert_eq!(
        said("feed 4294967295 4294967295 4294967295 4294967295\n"),
        ""
    );
    assert_eq!(
        said("feed 4294967295 1 0 4294967295\ngo 0 0\n\n"),
        "go no 2\n"
    );
    assert_eq!(
        said("go 1099511627776 0\nrun 0\nrun 2\nend 0\n"),
        "go ok\nrun no 3\nend no 7\n"
    );
    assert_eq!(said("go 1099511627777 0\n"), "go no 3\n");
    assert_eq!(said("go 9999999999999 0\nbad"), "go no 3\n");
    assert_eq!(
        said("go 1099511627775 0\nrun 4096\n"),
        "go ok\n1099511627775 idle\nrun no 3\n"
    );
    let high = "go 0 0\nask 4294967295 1 1\nask 0 1 1\nend 4294967295\nrest 4294967295\n";
    assert_eq!(
        said(high),
        "go ok\nask 4294967295 yes\nask 0 no 1\nend ok\nrest no 7\n"
    );
    assert_eq!(said("go 0 0\nrun 4096\n").lines().count(), 4_097);
}

#[test]
fn the_last_newline_and_the_count_of_feeds() {
    assert_eq!(said("go 0 0"), "line 1 bad\n");
    assert_eq!(said("go 0 0\nrun 1"), "go ok\nline 2 bad\n");
    let feeds = |count| "feed 20 1 0 20\n".repeat(count) + "go 0 0\n";
    assert_eq!(said(&feeds(16)), "go ok\n");
    assert_eq!(said(&feeds(17)), "go no 8\n");
    assert_eq!(said(&feeds(18)), "line 18 bad\n");
}

#[test]
fn too_long() {
    let mut input = String::from("go 0 0\n");
    while input.len() + 7 <= INPUT_MOST {
        input += "rest 0\n";
    }
    let exact = input.clone() + &"7".repeat(INPUT_MOST - input.len());
    assert_eq!(exact.len(), INPUT_MOST);
    assert!(said(&exact).starts_with("go ok\nrest no 7\n"));
    assert_eq!(said(&(exact + "\n")), "too long\n");
}

/// Else it would be answered in one line, or not to its end.
#[test]
fn the_flood_is_just_not_too_long() {
    let input = flood();
    assert_eq!(input.len(), INPUT_MOST);
    assert!(input.ends_with(b"\n"));
}

#[test]
fn reuse_ends_and_rests_in_a_script() {
    let input =
        "feed 4 2 1 4\ngo 2 0\nask 1 2 3\nask 1 1 9\nrun 2\nask 1 2 3\nrest 1\nrun 1\nrest 1\n\
                 rest 1\nend 1\nend 1\nrun 2\n";
    let output = "go ok\nask 1 yes\nask 1 no 4\n2 job 1\n3 job 1\nask 1 yes\nrest no 7\n4 job 1\n\
                  rest ok\nrest no 7\nend ok\nend no 7\n5 idle\n6 idle\n";
    assert_eq!(said(input), output);
}

// ---------------------------------------------------------------- the rehearsal ahead

/// The same question, tick after tick by the step rule itself.
fn never_late_slowly(desk: &Desk) -> bool {
    let stop = ahead::far_enough(desk);
    let mut now = desk.clone();
    while now.clock < stop {
        let late = deadlines::is_late_in_a_tick(&mut now);
        if late || now.jobs.iter().any(|job| job.deadline <= now.clock) {
            return false;
        }
    }
    true
}

/// The document's own words: for every F a choice of at most one piece of work
/// for each tick. Sought by giving units of work to ticks along changing paths.
fn choice_exists(desk: &Desk, last: Instant) -> bool {
    let ticks = (last - desk.clock) as usize;
    let mut units: Vec<(usize, usize)> = Vec::new();
    let mut add = |owed: u64, from: Instant, to: Instant| {
        if to <= last {
            let window = ((from - desk.clock) as usize, (to - desk.clock) as usize);
            units.extend(vec![window; owed as usize]);
        }
    };
    for job in &desk.jobs {
        add(job.owed, desk.clock, job.deadline);
    }
    for feed in &desk.feeds {
        if let Some(due) = feed.due(desk.clock).filter(|due| *due > desk.clock) {
            add(feed.owes, desk.clock, due);
        }
        let mut release = feed.next_release(desk.clock);
        while release < last {
            add(feed.work + desk.charge, release, release + feed.lead);
            release += feed.period;
        }
    }
    let mut given: Vec<Option<usize>> = vec![None; ticks];
    (0..units.len()).all(|unit| give(unit, &units, &mut given, &mut vec![false; ticks]))
}

fn give(
    unit: usize,
    units: &[(usize, usize)],
    given: &mut [Option<usize>],
    seen: &mut [bool],
) -> bool {
    for tick in units[unit].0..units[unit].1 {
        if seen[tick] {
            continue;
        }
        seen[tick] = true;
        if given[tick].map_or(true, |other| give(other, units, given, seen)) {
            given[tick] = Some(unit);
            return true;
        }
    }
    false
}

/// A feed whose current piece has run in part, if its deadline is still to come.
fn small_feed(random: &mut Random, periods: &[u64], clock: Instant, charge: Length) -> Feed {
    let period = random.pick(periods);
    let work = random.between(1, period);
    let any = random.between(1, period);
    let mut feed = Feed {
        period,
        work,
        offset: random.below(period),
        lead: random.pick(&[period, any]),
        owes: 0,
    };
    if feed.due(clock) > Some(clock) {
        feed.owes = random.below(work + charge + 1);
    }
    feed
}

/// Small states in order, reachable or not, with loads up to full, half of them
/// under a charge, and half of the feeds' pieces due before the next.
fn small_state(random: &mut Random, periods: &[u64], lead: u64) -> Desk {
    loop {
        let charge = random.pick(&[0, 0, 0, 1, 2, 5]);
        let clock = random.pick(&[0, 1, 3, 50, 51, LAST_INSTANT - 2 * lead]) + random.below(lead);
        let feeds = (0..random.below(4))
            .map(|_| small_feed(random, periods, clock, charge))
            .collect();
        let jobs = (1..=random.below(4) as u32).map(|number| {
            let lead = random.between(1, lead);
            let owed = random.between(1, lead / 2 + 1);
            job(number, owed, clock + lead)
        });
        let jobs = jobs.collect();
        let desk = figured(Desk {
            clock,
            charge,
            feeds,
            jobs,
            ..Desk::default()
        });
        if desk.in_order() {
            return desk;
        }
    }
}

#[test]
fn ahead_agrees_with_tick_after_tick() {
    let mut random = Random::of(11, 0);
    let mut late = 0;
    for _ in 0..4_000 {
        let desk = small_state(&mut random, &[1, 2, 3, 4, 5, 6, 8, 12, 20], 40);
        let never = ahead::never_late(&desk);
        assert_eq!(never, never_late_slowly(&desk), "{desk:?}");
        late += u32::from(!never);
    }
    assert!(
        (400..3_600).contains(&late),
        "both answers often: {late} late"
    );
}

#[test]
fn ahead_agrees_with_the_definition() {
    let mut random = Random::of(12, 0);
    let mut late = 0;
    for _ in 0..400 {
        let desk = small_state(&mut random, &[1, 2, 3, 4, 6], 10);
        let never = ahead::never_late(&desk);
        // A choice for a later F serves all earlier ones too.
        assert_eq!(
            never,
            choice_exists(&desk, ahead::far_enough(&desk)),
            "{desk:?}"
        );
        late += u32::from(!never);
    }
    assert!((40..360).contains(&late), "both answers often: {late} late");
}

/// What is invented to just fit does: a tick more work, or a tick less time, doesn't.
#[test]
fn what_just_fits() {
    let mut random = Random::of(14, 0);
    let (mut works, mut leads) = (0, 0);
    for _ in 0..2_000 {
        let desk = small_state(&mut random, &[1, 2, 3, 4, 5, 6, 8, 12, 20], 40);
        let fits = |work: u64, lead: u64| desk.ask(9, work as u32, lead as u32).is_ok();
        let lead = random.between(1, 40);
        let most = most_that_fits(&desk, 9, lead);
        assert!(most == 0 || fits(most, lead), "{desk:?}");
        assert!(!fits(most + 1, lead), "{desk:?}");
        works += u32::from(most > 0);
        let work = random.between(1, 20);
        if let Some(least) = least_that_fits(&desk, 9, work as u32) {
            assert!(fits(work, least), "{desk:?}");
            assert!(!fits(work, least - 1), "{desk:?}");
            leads += 1;
        }
    }
    assert!(works > 200 && leads > 200, "{works} works, {leads} leads");
}

/// Lateness in the very last stretch that the comment in `ahead` allows for.
#[test]
fn lateness_can_come_long_after_the_last_job() {
    let desk = open(&[2, 1, 0, 2, 40_320, 20_160, 0, 40_320], 0, 0).unwrap();
    assert_eq!(desk.ask(1, 1, 1).err(), Some(6));
    let desk = open(&[2, 1, 0, 2, 40_320, 20_159, 0, 40_320], 0, 0).unwrap();
    assert_eq!(desk.ask(1, 1, 2).err(), None);
    assert_eq!(desk.ask(1, 2, 4).err(), Some(6));
}

// ---------------------------------------------------------------- comparing calls

/// A library with one fault, by number; from 11 on it is one of the mesh, from 50
/// on one of the reasons.
struct Faulty(u32);

type State = crate::boundary::Desk;

fn in_order(desk: &State) -> bool {
    read(desk).map_or(false, |state| state.in_order())
}

fn live(desk: &State) -> &[boundary::Job] {
    &desk.table.jobs[..desk.table.count.min(64)]
}

/// Whether the figures of all live jobs agree with what is owed, be that in order or not.
fn agrees(desk: &State) -> bool {
    let mut again = *desk;
    calls::add_up(&mut again);
    again == *desk
}

impl Library for Faulty {
    fn open(&self, list: &[u32], start: u64, charge: u32) -> Answer {
        let mut answer = Own.open(list, start, charge);
        if self.0 == 1 && answer.refusal != 0 {
            answer.desk.clock = start;
        }
        answer
    }
    fn open_shared(&self, list: &[u32], start: u64, charge: u32, share: boundary::Share) -> Answer {
        Own.open_shared(list, start, charge, share)
    }
    fn ask(&self, desk: State, number: u32, work: u32, lead: u32) -> Answer {
        let mut answer = Own.ask(desk, number, work, lead);
        match self.0 {
            2 if answer.refusal == 6 => answer.refusal = 5,
            3 if answer.refusal == 13 => answer.desk = State::default(),
            _ => (),
        }
        answer
    }
    fn ask_mesh(&self, desk: State, head: &[u8], size: u64, number: u32, lead: u32) -> Answer {
        faulty_mesh(self.0, desk, head, size, number, lead)
    }
    fn ask_undated(&self, desk: State, number: u32, work: u32) -> Answer {
        Own.ask_undated(desk, number, work)
    }
    fn why(&self, desk: State, number: u32, work: u32, lead: u32) -> boundary::Reason {
        let right = Own.why(desk, number, work, lead);
        match (self.0, right.refusal) {
            (0..=49, _) => right,
            (fault, 0) => faulty_tightest(fault, desk, work, lead, right),
            (fault, 6) => faulty_overbooked(fault, desk, work, lead, right),
            (fault, _) => faulty_number_alone(fault, desk, work, right),
        }
    }
    fn step(&self, desk: State) -> Stepped {
        let mut stepped = Own.step(desk);
        let late =
            |job: &crate::boundary::Job| job.number != 0 && job.deadline <= stepped.desk.clock;
        match self.0 {
            4 if stepped.refusal == 0 && stepped.desk.table.jobs.iter().any(late) => {
                stepped.refusal = 13
            }
            5 if stepped.kind == 2 && stepped.owes == 0 => stepped.owes = 1,
            _ => (),
        }
        stepped
    }
    fn end(&self, desk: State, number: u32) -> Answer {
        let mut answer = Own.end(desk, number);
        if self.0 == 6 && answer.refusal == 0 && answer.desk.table.count > 1 {
            answer.desk.table.jobs[..answer.desk.table.count].sort_by_key(|job| job.number);
        }
        answer
    }
    fn rest(&self, desk: State, position: u32) -> Answer {
        let mut answer = Own.rest(desk, position);
        if self.0 == 7 && position == 17 && answer.refusal == 7 {
            answer.refusal = 2;
        }
        answer
    }
    fn list(&self, desk: State, buffer: &mut [u64]) -> Listed {
        let listed = Own.list(desk, buffer);
        if self.0 == 8 && listed.refusal == 0 && buffer.len() > 4 * listed.count as usize {
            buffer[4 * listed.count as usize] = 0;
        }
        listed
    }
    fn label(&self, desk: State, jobs: &[u8], feeds: &[u8]) -> Label {
        let mut label = Own.label(desk, jobs, feeds);
        match self.0 {
            9 if label.length == 0 && desk.clock == LAST_INSTANT => label.list = 2,
            10 if label.list == 1 && label.length == 8 => label.from -= 4,
            _ => (),
        }
        label
    }
    right_waves!();
}

/// The answer that is wrong by this fault, and the right one where it does not
/// show.
fn faulty_mesh(fault: u32, desk: State, head: &[u8], size: u64, number: u32, lead: u32) -> Answer {
    let mut answer = Own.ask_mesh(desk, head, size, number, lead);
    let with = |head: &[u8], size| Own.ask_mesh(desk, head, size, number, lead);
    let refused = |refusal| Answer { desk, refusal };
    let (bytes, triangles) = match head.get(80..84) {
        Some(b) => (head.to_vec(), u32::from_le_bytes([b[0], b[1], b[2], b[3]])),
        None if fault == 11 && head.len() == 83 => return with(&[head, &[0]].concat(), size),
        None if fault == 12 => return refused(15),
        None => return answer,
    };
    let right = length_of(triangles);
    match fault {
        13 if head.len() > 84 => return refused(15),
        14 if bytes.starts_with(b"solid") => return refused(16),
        15 => return with(&front(triangles.swap_bytes(), 0), size),
        16 => return with(&bytes[bytes.len() - 84..], size),
        17 if size as u32 == right as u32 => return with(head, right),
        18 if (right..right + 50).contains(&size) => return with(head, right),
        19 if right < size => return with(head, right),
        20 if triangles == 0 && answer.refusal == 16 => answer.refusal = 17,
        21 if triangles == 0 && number != 0 => return Own.ask(desk, number, 4, lead),
        22 if number == 0 && (15..=17).contains(&answer.refusal) => answer.refusal = 1,
        23 if !(1..=65_536).contains(&lead) && answer.refusal == 1 => answer.refusal = 2,
        24 if (15..=17).contains(&answer.refusal) => answer.desk = State::default(),
        25 if answer.refusal == 17 => answer.refusal = 1,
        // A band's end in the next band, its beginning in the one before.
        30..=39 if [0, 6].contains(&answer.refusal) => {
            let band = (fault - 30) as usize / 2;
            let (end, next) = (BANDS[band], BANDS[band + 1]);
            let (at, ticks) = if fault % 2 == 0 {
                (end.1, next.2)
            } else {
                (next.0, end.2)
            };
            if triangles == at {
                return Own.ask(desk, number, ticks, lead);
            }
        }
        40 if triangles > 99_999_999 => return Own.ask(desk, number, 65_535, lead),
        _ => (),
    }
    answer
}

/// The instants that a right library goes through, and what is owed by each, with
/// a new job that owes this much.
fn gone_through(desk: &State, owes: u64, lead: u32) -> impl Iterator<Item = Owed> {
    let state = read(desk).unwrap();
    Instants::after_the_clock(&state, owes, lead.into()).take(FAR_ENOUGH)
}

/// Wrong by this fault where the request would be taken.
fn faulty_tightest(
    fault: u32,
    desk: State,
    work: u32,
    lead: u32,
    right: boundary::Reason,
) -> boundary::Reason {
    let all = || gone_through(&desk, u64::from(work) + desk.charge, lead);
    let first_least = |among: &mut dyn Iterator<Item = Owed>| {
        let least = among.min_by_key(|owed| owed.margin).unwrap();
        boundary::Reason {
            at: least.at,
            margin: least.margin,
            ..right
        }
    };
    let last_deadline = desk.table.jobs.iter().map(|job| job.deadline).max();
    let own_deadline = desk.clock + u64::from(lead);
    let mut why = right;
    match fault {
        // The instant one later or earlier, or told as a length, or in 32 bits.
        50 => why.at += 1,
        51 => why.at -= 1,
        52 => why.at -= desk.clock,
        53 => why.at = why.at as u32 as u64,
        // A margin of the other sign, one off, or 0 where there is some.
        54 => why.margin = -why.margin,
        55 => why.margin -= 1,
        56 => why.margin = 0,
        // The clock itself counted as an instant.
        57 => (why.at, why.margin) = (desk.clock, 0),
        // The last of equal margins, or the one after the first.
        58 => why.at = all().filter(|o| o.margin == why.margin).last().unwrap().at,
        59 => {
            let mut equal = all().filter(|owed| owed.margin == why.margin);
            why.at = equal.nth(1).map_or(why.at, |owed| owed.at);
        }
        // Looking only at its own deadline, to its own, or to the last of a job.
        60 => return first_least(&mut all().filter(|owed| owed.at == own_deadline)),
        61 => return first_least(&mut all().take_while(|owed| owed.at <= own_deadline)),
        62 => {
            let last = last_deadline.max(Some(own_deadline));
            return first_least(&mut all().take_while(|owed| Some(owed.at) <= last));
        }
        // Looking only to the clock's last instant.
        63 => return first_least(&mut all().take_while(|owed| owed.at <= LAST_INSTANT)),
        // Looking not far enough.
        64 => return first_least(&mut all().take(105_854)),
        // Without the first instant.
        65 => return first_least(&mut all().skip(1)),
        // What the state owes without the new job.
        66 => return first_least(&mut gone_through(&desk, 0, lead)),
        // The parts too.
        67 => {
            let owed = all().find(|owed| owed.at == why.at).unwrap();
            (why.jobs, why.feeds, why.job) = (owed.jobs, owed.feeds, owed.job);
        }
        _ => (),
    }
    why
}

/// Wrong by this fault where the request does not fit.
fn faulty_overbooked(
    fault: u32,
    desk: State,
    work: u32,
    lead: u32,
    right: boundary::Reason,
) -> boundary::Reason {
    let state = read(&desk).unwrap();
    let told = |owed: Owed| boundary::Reason {
        refusal: 6,
        at: owed.at,
        jobs: owed.jobs,
        feeds: owed.feeds,
        job: owed.job,
        margin: owed.margin,
    };
    let owes = u64::from(work) + desk.charge;
    let all = gone_through(&desk, owes, lead);
    let before = || !ahead::never_late(&state);
    let mut why = right;
    match fault {
        70 => why.at += 1,
        71 => why.at -= 1,
        72 => why.at -= desk.clock,
        73 => why.at = why.at as u32 as u64,
        // A part exchanged with another.
        74 => std::mem::swap(&mut why.jobs, &mut why.feeds),
        75 => std::mem::swap(&mut why.feeds, &mut why.job),
        76 => std::mem::swap(&mut why.jobs, &mut why.job),
        // A margin of the other sign, one off, none, or without its sign in 32 bits.
        77 => why.margin = -why.margin,
        78 => why.margin += 1,
        79 => why.margin = 0,
        80 => why.margin = why.margin as u32 as i64,
        // The worst instant, or the next overbooked one.
        81 => return told(all.min_by_key(|owed| owed.margin).unwrap()),
        82 => return all.filter(|o| o.margin < 0).nth(1).map_or(why, told),
        // All that is promised, due by then or not.
        83 => why.jobs = state.jobs.iter().map(|job| job.owed).sum(),
        84 => why.job = owes,
        85 => {
            let waiting = |feed: &&Feed| feed.due(desk.clock) > Some(why.at);
            let current = state.feeds.iter().filter(waiting);
            why.feeds += current.map(|feed| feed.owes).sum::<u64>();
        }
        // Current pieces as they came.
        86 => {
            let mut state = state.clone();
            for feed in &mut state.feeds {
                if feed.due(desk.clock) > Some(desk.clock) {
                    feed.owes = feed.charged_work(desk.charge);
                }
            }
            let mut all = Instants::after_the_clock(&state, owes, lead.into());
            return told(all.find(|owed| owed.margin < 0).unwrap());
        }
        // The margin without the new job.
        87 => why.margin += why.job as i64,
        // Instants after the clock's last one told as that one, or not looked at.
        88 => why.at = why.at.min(LAST_INSTANT),
        89 if why.at > LAST_INSTANT => return boundary::Reason::default(),
        // Looking not far enough.
        90 if why.at - desk.clock > 105_854 => return boundary::Reason::default(),
        // A state that was overbooked before, told as one out of order or without
        // what it owes.
        91 if before() => {
            return boundary::Reason {
                refusal: 13,
                ..boundary::Reason::default()
            }
        }
        92 if before() => {
            return boundary::Reason {
                refusal: 6,
                ..boundary::Reason::default()
            }
        }
        _ => (),
    }
    why
}

/// Wrong by this fault where the number comes alone: with something beside it, or
/// another number.
fn faulty_number_alone(
    fault: u32,
    desk: State,
    work: u32,
    right: boundary::Reason,
) -> boundary::Reason {
    let mut why = right;
    match (fault, why.refusal) {
        (100, 13) | (101, 1..=5) => why.at = desk.clock,
        (102, 13) | (103, 1..=5) => why.margin = -1,
        (104, _) => why.job = work.into(),
        (105, 13) => why.refusal = 6,
        (106, 4) => why.refusal = 5,
        (107, 5) => why.refusal = 6,
        (108, 3) => why.refusal = 6,
        _ => (),
    }
    why
}

#[test]
fn each_planted_fault_is_found() {
    assert!(calls::compare(&Faulty(0), 5, 0, 2_000).is_ok());
    for fault in (1..=25).chain(30..=40) {
        assert!(
            calls::compare(&Faulty(fault), 5, 0, 20_000).is_err(),
            "fault {fault} went by"
        );
    }
}

#[test]
fn each_planted_fault_of_a_reason_is_found() {
    for fault in (50..=67).chain(70..=92).chain(100..=108) {
        match calls::compare(&Faulty(fault), 5, 0, 40_000) {
            Ok(_) => panic!("fault {fault} went by"),
            Err(difference) => assert!(difference.contains("Why {"), "fault {fault}"),
        }
    }
}

/// Notes what came: the lengths of fronts, the counts in them, by how much a
/// file's length was off, the works taken, and how often a state was overbooked;
/// which kinds of reason, by number; which charges and states under them; which kinds
/// of deadline; which kinds of figure; which places in the table; and which shares,
/// previous deadlines and asks with no date.
#[derive(Default)]
struct Watching {
    lent: RefCell<BTreeSet<usize>>,
    counts: RefCell<BTreeSet<u32>>,
    off: RefCell<BTreeSet<i128>>,
    taken: RefCell<BTreeSet<u64>>,
    overbooked: Cell<u32>,
    reasons: RefCell<BTreeSet<(u32, &'static str)>>,
    charges: charge::Seen,
    deadlines: deadlines::Seen,
    figures: figure::Seen,
    orders: order::Seen,
    undated: undated::Seen,
}

impl Watching {
    fn note_state(&self, desk: &State) {
        self.charges.note(desk);
        self.deadlines.note(desk);
        self.figures.note(desk);
        self.orders.note(desk);
        self.undated.note(desk);
    }

    fn note_reason(&self, state: &Desk, lead: u64, why: &boundary::Reason) {
        let at = why.at;
        let own = state.clock + lead;
        let last_job = state.jobs.iter().map(|job| job.deadline).max();
        let far = state.clock + JOB_LENGTH_MOST;
        let parts = [why.jobs, why.feeds, why.job];
        let kinds = [
            ("past the clock's last instant", at > LAST_INSTANT),
            ("at the first instant", at == state.clock + 1),
            ("before its deadline", at < own),
            ("at its deadline", at == own),
            ("after its deadline", at > own),
            (
                "at a job's",
                state.jobs.iter().any(|job| job.deadline == at),
            ),
            ("after every job", Some(at) > last_job && at > own),
            ("after the longest lead", at > far),
            ("as late as can be", at == far + ROUND_MOST - 1),
            ("margin 1", why.margin == 1),
            ("margin 0", why.margin == 0),
            ("margin -1", why.margin == -1),
            ("margin below -1", why.margin < -1),
            ("all three owe", parts.iter().all(|owed| *owed > 0)),
            ("jobs owe nothing", why.jobs == 0),
            ("feeds owe nothing", why.feeds == 0),
            ("the new job owes nothing", why.job == 0),
        ];
        let mut reasons = self.reasons.borrow_mut();
        for (kind, _) in kinds.iter().filter(|(_, holds)| *holds) {
            reasons.insert((why.refusal, *kind));
        }
    }

    fn saw_every_kind_of_mesh(&self) {
        assert!(self.lent.borrow().iter().copied().eq(0..=100));
        let counts = self.counts.borrow();
        for (from, to, _) in BANDS {
            assert!(counts.contains(&from) && counts.contains(&to), "{from}");
        }
        assert!(counts.contains(&0));
        let off = self.off.borrow();
        for by in [0, 1, -1, 50, -50, 1 << 32, 1 << 63] {
            assert!(off.contains(&by), "off by {by} never came");
        }
        let works = BANDS.iter().map(|band| u64::from(band.2));
        assert!(self.taken.borrow().iter().copied().eq(works));
        assert!(self.overbooked.get() > 10);
    }

    /// The margin of a request that would be taken is 0 or 1: at the first instant
    /// it is no more.
    fn saw_every_kind_of_reason(&self) {
        let places = [
            "past the clock's last instant",
            "at the first instant",
            "before its deadline",
            "at its deadline",
            "after its deadline",
            "at a job's",
            "after every job",
            "after the longest lead",
            "as late as can be",
        ];
        let taken = ["margin 1", "margin 0"];
        let refused = [
            "margin -1",
            "margin below -1",
            "all three owe",
            "jobs owe nothing",
            "feeds owe nothing",
            "the new job owes nothing",
        ];
        let both = [0, 6]
            .into_iter()
            .flat_map(|number| places.map(|kind| (number, kind)));
        let wanted = both
            .chain(taken.map(|kind| (0, kind)))
            .chain(refused.map(|kind| (6, kind)));
        let reasons = self.reasons.borrow();
        for (number, kind) in wanted {
            assert!(
                reasons.contains(&(number, kind)),
                "{number} {kind} never came"
            );
        }
    }
}

impl Library for Watching {
    fn open(&self, list: &[u32], start: u64, charge: u32) -> Answer {
        Own.open(list, start, charge)
    }
    fn open_shared(&self, list: &[u32], start: u64, charge: u32, share: boundary::Share) -> Answer {
        self.undated.note_open(list, start, charge, share);
        Own.open_shared(list, start, charge, share)
    }
    fn ask(&self, desk: State, number: u32, work: u32, lead: u32) -> Answer {
        let answer = Own.ask(desk, number, work, lead);
        self.figures.note_ask(&desk, &answer);
        self.orders.note_ask(&desk, &answer);
        answer
    }
    fn ask_mesh(&self, desk: State, head: &[u8], size: u64, number: u32, lead: u32) -> Answer {
        let answer = Own.ask_mesh(desk, head, size, number, lead);
        self.note_state(&desk);
        self.lent.borrow_mut().insert(head.len());
        if let Some(b) = head.get(80..84) {
            let triangles = u32::from_le_bytes([b[0], b[1], b[2], b[3]]);
            self.counts.borrow_mut().insert(triangles);
            let off = i128::from(size) - i128::from(length_of(triangles));
            self.off.borrow_mut().insert(off);
        }
        match answer.refusal {
            0 => {
                let at = order::taken(&desk, &answer.desk).expect("it was taken");
                let owed = answer.desk.table.jobs[at].owed;
                self.taken.borrow_mut().insert(owed - desk.charge);
                self.orders.note_mesh(&desk, &answer);
            }
            6 if !ahead::never_late(&read(&desk).unwrap()) => {
                self.overbooked.set(self.overbooked.get() + 1);
            }
            _ => (),
        }
        answer
    }
    fn ask_undated(&self, desk: State, number: u32, work: u32) -> Answer {
        let answer = Own.ask_undated(desk, number, work);
        self.note_state(&desk);
        self.undated.note_ask(&desk, number, work, &answer);
        self.figures.note_undated(&desk, &answer);
        self.orders.note_undated(&desk, &answer);
        answer
    }
    fn why(&self, desk: State, number: u32, work: u32, lead: u32) -> boundary::Reason {
        let why = Own.why(desk, number, work, lead);
        if [0, 6].contains(&why.refusal) {
            self.note_reason(&read(&desk).unwrap(), lead.into(), &why);
        }
        why
    }
    fn step(&self, desk: State) -> Stepped {
        self.note_state(&desk);
        let stepped = Own.step(desk);
        self.deadlines.note_step(&desk, &stepped);
        self.figures.note_step(&desk, &stepped);
        self.orders.note_step(&desk, &stepped);
        stepped
    }
    fn end(&self, desk: State, number: u32) -> Answer {
        self.note_state(&desk);
        let answer = Own.end(desk, number);
        self.figures.note_end(&desk, number, &answer);
        self.orders.note_end(&desk, number, &answer);
        answer
    }
    fn rest(&self, desk: State, position: u32) -> Answer {
        self.note_state(&desk);
        let answer = Own.rest(desk, position);
        self.orders.note_rest(&desk, &answer);
        answer
    }
    fn list(&self, desk: State, buffer: &mut [u64]) -> Listed {
        self.note_state(&desk);
        self.figures.note_list(&desk, buffer.len());
        let listed = Own.list(desk, buffer);
        self.orders.note_list(&desk, &listed);
        listed
    }
    fn label(&self, desk: State, jobs: &[u8], feeds: &[u8]) -> Label {
        self.note_state(&desk);
        Own.label(desk, jobs, feeds)
    }
    right_waves!();
}

/// A right library passes, and on the way every call gives every number it can.
#[test]
fn a_right_library_passes() {
    let watching = Watching::default();
    let tally = calls::compare(&watching, 7, 0, 50_000).unwrap();
    let refusals = [
        ("open", vec![0, 2, 3, 8, 9, 10, 12, 18]),
        ("shared", vec![0, 2, 3, 8, 9, 10, 12, 18, 19]),
        ("ask", vec![0, 1, 2, 3, 4, 5, 6, 13]),
        ("mesh", vec![0, 1, 2, 3, 4, 5, 6, 13, 15, 16, 17]),
        ("undated", vec![0, 1, 2, 3, 4, 5, 6, 13, 19]),
        ("alone", vec![0, 1, 2, 3, 4, 5]),
        ("why", vec![0, 1, 2, 3, 4, 5, 6, 13]),
        ("step", vec![0, 3, 13]),
        ("end", vec![0, 7, 13]),
        ("rest", vec![0, 7, 13]),
        ("list", vec![0, 11, 13]),
        ("label", vec![0, 101, 102]),
    ];
    for (call, numbers) in refusals {
        for number in numbers {
            assert!(
                tally.contains_key(&(call, number)),
                "{call} {number} never came"
            );
        }
    }
    watching.saw_every_kind_of_mesh();
    watching.saw_every_kind_of_reason();
    watching.charges.saw_every_kind_of_state();
    watching.deadlines.saw_every_kind();
    watching.figures.saw_every_kind();
    watching.orders.saw_every_kind();
    watching.undated.saw_every_kind();
}
