//! Waveforms: the text of a run, the writing of it in parts, the reading of it and which line
//! is wrong, the two programs; and libraries that are wrong in it.

use super::*;
use crate::judge::{self, judge, TEXT_MOST};
use crate::own::{closed as closed_as, waved};
use crate::parts;
use crate::texts;
use crate::wave::{of_script, text, Line, HEADS, LINE_MOST};

const EXAMPLE: &str = "$timescale 1 ms $end
$scope module desk $end
$var wire 32 ! job $end
$var wire 5 \" feed $end
$upscope $end
$enddefinitions $end
#0
b0 !
b1 \"
#1
b1 !
b0 \"
#4
b0 !
b10 \"
#6
";

const SCRIPT: &str = "feed 4 1 0 4\nfeed 6 2 0 6\ngo 0 0\nask 1 3 6\nrun 6\n";

/// The desk of the example, its job taken.
fn opened() -> State {
    let desk = x().ask(1, 3, 6).unwrap();
    write(&desk)
}

fn heads() -> String {
    HEADS.map(|line| format!("{line}\n")).concat()
}

/// A text behind the lines in front.
fn behind(lines: &str) -> Vec<u8> {
    (heads() + &lines.replace(' ', "\n").replace('_', " ") + "\n").into_bytes()
}

/// The line that is wrong, 0 if none is: the two ways of reading have to agree.
fn wrong_line(text: &[u8]) -> usize {
    let whole = Own.wave_read(text);
    let mut reading = Reading::default();
    let mut stretches = 0;
    let last = loop {
        let found = Own.wave_stretch(text, reading);
        if found.refusal != 0 || found.from == found.to {
            break found;
        }
        stretches += 1;
        reading = found.reading;
    };
    assert_eq!((whole.refusal, whole.line), (last.refusal, last.line));
    if whole.refusal == 0 {
        assert_eq!((whole.end, whole.stretches), (last.to, stretches));
    }
    whole.line
}

// ---------------------------------------------------------------- the text

#[test]
fn the_example() {
    let [idle, job, feed] = [Runner::Idle, Runner::Job(1), Runner::Feed(1)];
    let two = Runner::Feed(2);
    assert_eq!(
        text(0, &[feed, job, job, job, two, two]),
        EXAMPLE.as_bytes()
    );
    assert_eq!(of_script(SCRIPT.as_bytes()), EXAMPLE.as_bytes());
    assert_eq!(text(7, &[]), behind("#7"));
    assert_eq!(text(7, &[idle]), behind("#7 b0_! b0_\" #8"));
    assert_eq!(text(9, &[job; 3]), behind("#9 b1_! b0_\" #12"));
    let most = Runner::Job(u32::MAX);
    let last = text(LAST_INSTANT - 2, &[Runner::Feed(16), most]);
    let ones = "1".repeat(32);
    assert_eq!(
        last,
        behind(&format!(
            "#1099511627774 b0_! b10000_\" #1099511627775 b{ones}_! b0_\" #1099511627776"
        ))
    );
    let longest = last
        .split_inclusive(|byte| *byte == b'\n')
        .map(<[u8]>::len)
        .max();
    assert_eq!(longest, Some(LINE_MOST));
}

/// By stretches it is the same text.
#[test]
fn a_run_by_ticks_and_by_stretches() {
    let random = &mut Random::of(3, 0);
    for _ in 0..2_000 {
        let mut run = texts::run(random);
        for place in 0..run.stretches.len() {
            // Short ones, so that their ticks can be told one by one.
            let from = match place {
                0 => run.start,
                _ => run.stretches[place - 1].to,
            };
            run.stretches[place].from = from;
            run.stretches[place].to = from + random.between(1, 30);
        }
        let spread = |one: &judge::Stretch| vec![one.runner(); (one.to - one.from) as usize];
        let names: Vec<Runner> = run.stretches.iter().flat_map(spread).collect();
        let by_ticks = text(run.start, &names);
        assert_eq!(by_ticks, run.lines().concat());
        if run.end() <= LAST_INSTANT {
            assert_eq!(judge(&by_ticks), Ok(run));
        }
    }
}

// ---------------------------------------------------------------- in parts

/// One call of going on, the buffer full of a byte that no text has.
fn went_on(desk: State, cursor: Cursor, steps: u32, length: usize) -> (Waved, Vec<u8>) {
    let mut buffer = vec![0xaa; length];
    let waved = Own.wave(desk, cursor, steps, &mut buffer);
    assert!(buffer[waved.bytes..].iter().all(|byte| *byte == 0xaa));
    assert!(waved.bytes == 0 || buffer[waved.bytes - 1] == b'\n');
    (waved, buffer[..waved.bytes].to_vec())
}

fn closed(cursor: Cursor, length: usize) -> (boundary::Closed, Vec<u8>) {
    let mut buffer = vec![0xaa; length];
    let closed = Own.wave_close(cursor, &mut buffer);
    assert!(buffer[closed.bytes..].iter().all(|byte| *byte == 0xaa));
    (closed, buffer[..closed.bytes].to_vec())
}

/// All of a run of so many steps, by calls of at most so many with buffers of one size; the
/// size below which it gets 11.
fn joined(desk: State, all: u32, steps: u32, length: usize) -> Result<Vec<u8>, Vec<u8>> {
    let (mut desk, mut cursor, mut left) = (desk, Own.wave_begin(desk).cursor, all);
    let mut joined = Vec::new();
    loop {
        let (waved, bytes) = went_on(desk, cursor, steps.min(left), length);
        if waved.refusal == 11 {
            assert_eq!((waved.desk, waved.cursor, waved.steps), (desk, cursor, 0));
            return Err(joined);
        }
        assert_eq!(waved.refusal, 0);
        (desk, cursor, left) = (waved.desk, waved.cursor, left - waved.steps);
        joined.extend(bytes);
        if waved.bytes == 0 && left == 0 {
            break;
        }
    }
    loop {
        let (closed, bytes) = closed(cursor, length);
        if closed.refusal == 11 {
            assert_eq!((closed.cursor, closed.bytes), (cursor, 0));
            return Err(joined);
        }
        joined.extend(&bytes);
        cursor = closed.cursor;
        if bytes.is_empty() {
            assert_eq!(cursor, Cursor::default());
            return Ok(joined);
        }
    }
}

#[test]
fn buffers_of_every_size() {
    for length in 0..=200 {
        for steps in [1, 2, 3, 6, 100] {
            // The longest line of the example is one in front.
            match joined(opened(), 6, steps, length) {
                Ok(whole) if length >= 24 => assert_eq!(whole, EXAMPLE.as_bytes()),
                Err(part) if length < 24 => assert!(EXAMPLE.as_bytes().starts_with(&part)),
                other => panic!("{length}: {other:?}"),
            }
        }
    }
}

#[test]
fn thirty_six_bytes_are_always_enough() {
    let start = LAST_INSTANT - 9;
    let desk = open(&[4, 1, 0, 4], start, 0).unwrap();
    let desk = desk
        .ask(u32::MAX, 3, 9)
        .unwrap()
        .ask(1 << 31, 1, 9)
        .unwrap();
    let mut stepping = desk.clone();
    let names: Vec<Runner> = (0..9).map(|_| stepping.tick().runner).collect();
    let whole = text(start, &names);
    for length in LINE_MOST..=200 {
        assert_eq!(joined(write(&desk), 9, 9, length), Ok(whole.clone()));
        // The steps that would be refused at the clock's end are not taken, and that is all.
        assert!(joined_to_the_end(write(&desk), length) == whole);
    }
    assert!(joined(write(&desk), 9, 9, LINE_MOST - 1).is_err());
}

/// With more steps than the clock has.
fn joined_to_the_end(desk: State, length: usize) -> Vec<u8> {
    let (mut desk, mut cursor) = (desk, Own.wave_begin(desk).cursor);
    let mut joined = Vec::new();
    loop {
        let (waved, bytes) = went_on(desk, cursor, u32::MAX, length);
        assert_eq!(waved.refusal, 0);
        (desk, cursor) = (waved.desk, waved.cursor);
        joined.extend(&bytes);
        if bytes.is_empty() {
            break;
        }
    }
    assert_eq!(desk.clock, LAST_INSTANT);
    let (closed, bytes) = closed(cursor, length);
    joined.extend(bytes);
    assert_eq!(closed.cursor, Cursor::default());
    joined
}

#[test]
fn a_run_of_no_steps() {
    let begun = Own.wave_begin(opened());
    assert_eq!(begun.refusal, 0);
    let due = Cursor {
        mark: 1,
        ..Cursor::default()
    };
    assert_eq!(begun.cursor, due);
    let (closed, bytes) = closed(begun.cursor, 200);
    assert_eq!((closed.cursor, bytes), (Cursor::default(), behind("#0")));
    assert_eq!(joined(opened(), 0, 0, 24), Ok(behind("#0")));
}

#[test]
fn closing_in_parts() {
    let (waved, front) = went_on(opened(), Own.wave_begin(opened()).cursor, 0, 200);
    assert_eq!((front, waved.steps), (behind("#0"), 0));
    // No line is due, and none is written: with two steps the second one's lines are.
    let (waved, first) = went_on(waved.desk, waved.cursor, 2, 10);
    assert_eq!((&first[..], waved.steps), (&b"b0 !\nb1 \"\n"[..], 2));
    let mut cursor = waved.cursor;
    assert_eq!((cursor.since, cursor.clock, cursor.number), (1, 2, 1));
    assert_eq!((cursor.mark, cursor.job, cursor.feed), (1, 1, 1));
    let mut rest = Vec::new();
    for (length, bytes) in [
        (2, None),
        (3, Some(3)),
        (4, None),
        (10, Some(10)),
        (2, None),
        (3, Some(3)),
        (0, Some(0)),
    ] {
        let (closed, written) = closed(cursor, length);
        assert_eq!(closed.refusal, if bytes.is_some() { 0 } else { 11 });
        assert_eq!(closed.bytes, bytes.unwrap_or(0));
        rest.extend(written);
        cursor = closed.cursor;
    }
    assert_eq!(rest, b"#1\nb1 !\nb0 \"\n#2\n");
    assert_eq!(cursor, Cursor::default());
    assert_eq!(went_on(waved.desk, cursor, 1, 200).0.refusal, 13);
}

/// Steps that make no line due and end at one that does not fit are not taken.
#[test]
fn silent_steps_before_11_are_undone() {
    let (waved, _) = went_on(opened(), Own.wave_begin(opened()).cursor, 2, 200);
    assert_eq!((waved.steps, waved.desk.clock), (2, 2));
    let (again, bytes) = went_on(waved.desk, waved.cursor, 9, 2);
    assert_eq!((again.refusal, again.steps, bytes), (11, 0, vec![]));
    assert_eq!((again.desk, again.cursor), (waved.desk, waved.cursor));
    // Two such steps alone are.
    let (silent, bytes) = went_on(waved.desk, waved.cursor, 2, 0);
    assert_eq!((silent.refusal, silent.steps, bytes), (0, 2, vec![]));
    assert_eq!((silent.cursor.since, silent.cursor.clock), (1, 4));
    let (third, bytes) = went_on(waved.desk, waved.cursor, 9, 3);
    assert_eq!(
        (third.refusal, third.steps, &bytes[..]),
        (0, 3, &b"#4\n"[..])
    );
    assert_eq!((third.cursor.since, third.cursor.clock), (4, 5));
    assert_eq!(
        (third.cursor.mark, third.cursor.job, third.cursor.feed),
        (0, 1, 1)
    );
}

/// A job that is late gets the state out of order: the step after that is quietly not taken.
#[test]
fn an_overbooked_run_ends_at_the_late_job() {
    let mut desk = open(&[], 0, 0).unwrap();
    desk.jobs = vec![job(1, 3, 2), job(2, 1, 9)];
    let desk = write(&figured(desk));
    let (waved, bytes) = went_on(desk, Own.wave_begin(desk).cursor, 9, 400);
    assert_eq!((waved.refusal, waved.steps), (0, 2));
    assert_eq!(bytes, behind("#0 b1_! b0_\""));
    assert!(!in_order(&waved.desk));
    assert_eq!(went_on(waved.desk, waved.cursor, 9, 400).0.refusal, 13);
    assert_eq!(closed(waved.cursor, 400).1, b"#2\n");
}

/// Going on takes the very steps that the step call takes.
#[test]
fn going_on_by_steps() {
    let random = &mut Random::of(9, 0);
    for _ in 0..300 {
        let mut state = small_state(random, &[2, 3, 4, 6], 12);
        let (start, steps) = (state.clock, random.below(30) as u32);
        let run = parts::Run::begin(start);
        let gone = run.go_on(state.clone(), steps, 2_000).unwrap();
        let mut names = Vec::new();
        while names.len() < steps as usize {
            match state.step() {
                Ok((next, ran)) => {
                    state = next;
                    names.push(ran.runner);
                }
                Err(_) => break,
            }
        }
        assert_eq!((gone.desk, gone.steps as usize), (state, names.len()));
        let (left, bytes) = gone.run.close(100).unwrap();
        assert_eq!(left, None);
        assert_eq!([gone.bytes, bytes].concat(), text(start, &names));
    }
}

// ---------------------------------------------------------------- cursors

/// What makes a cursor one in order at an instant, test by test.
const TESTS: [fn(&Cursor, Instant) -> bool; 13] = [
    |cursor, clock| cursor.clock == clock,
    |cursor, _| cursor.heads <= 6,
    |cursor, _| cursor.ran != 0 || cursor.since == cursor.clock,
    |cursor, _| cursor.ran != 0 || cursor.number == 0,
    |cursor, _| cursor.ran != 0 || cursor.position == 0,
    |cursor, _| cursor.ran != 0 || (cursor.job == 0 && cursor.feed == 0),
    |cursor, _| cursor.ran != 0 || cursor.heads >= 6 || cursor.mark != 0,
    |cursor, _| cursor.ran == 0 || cursor.heads >= 6,
    |cursor, _| cursor.ran == 0 || cursor.since < cursor.clock,
    |cursor, _| cursor.ran == 0 || cursor.number == 0 || cursor.position == 0,
    |cursor, _| cursor.ran == 0 || cursor.position <= 16,
    |cursor, _| cursor.ran == 0 || cursor.mark == 0 || cursor.job != 0 || cursor.feed != 0,
    |cursor, _| {
        let due = cursor.mark != 0 || cursor.job != 0 || cursor.feed != 0;
        cursor.ran == 0 || !due || cursor.since.wrapping_add(1) == cursor.clock
    },
];

/// After a silent step, after one that made lines due, and before the first.
fn cursors() -> [Cursor; 4] {
    let begun = Own.wave_begin(opened()).cursor;
    let (waved, _) = went_on(opened(), begun, 3, 200);
    let (due, _) = went_on(opened(), begun, 2, 141);
    assert_eq!((waved.cursor.clock, due.cursor.clock), (3, 2));
    let (front, _) = went_on(opened(), begun, 0, 60);
    [begun, front.cursor, waved.cursor, due.cursor]
}

#[test]
fn cursors_in_order() {
    let values = [0, 1, 2, 3, 5, 6, 7, 16, 17, u32::MAX];
    for cursor in cursors() {
        for field in 0..9 {
            for value in values {
                let mut other = cursor;
                match field {
                    0 => other.since = value.into(),
                    1 => other.clock = value.into(),
                    2 => other.number = value,
                    3 => other.position = value,
                    4 => other.ran = value,
                    5 => other.heads = value,
                    6 => other.mark = value,
                    7 => other.job = value,
                    _ => other.feed = value,
                }
                let clock = cursor.clock;
                let in_order = TESTS.iter().all(|test| test(&other, clock));
                assert_eq!(parts::read(&other, clock).is_ok(), in_order, "{other:?}");
                let refused = closed(other, 400).0.refusal;
                let alone = TESTS.iter().all(|test| test(&other, other.clock));
                let empty = other == Cursor::default();
                assert_eq!(refused, if alone || empty { 0 } else { 13 }, "{other:?}");
            }
        }
    }
}

/// A yes may be any number but 0, and comes back as 1; refused, all comes back as it was.
#[test]
fn flags_are_any_number() {
    let [begun, _, _, mut due] = cursors();
    let (desk, _) = went_on(opened(), begun, 2, 141);
    (due.ran, due.mark, due.job, due.feed) = (7, 1 << 31, u32::MAX, 2);
    let (refused, _) = went_on(desk.desk, due, 0, 2);
    assert_eq!((refused.refusal, refused.cursor), (11, due));
    assert_eq!(closed(due, 2).0.cursor, due);
    let (waved, bytes) = went_on(desk.desk, due, 0, 5);
    assert_eq!((waved.refusal, &bytes[..]), (0, &b"#1\n"[..]));
    let Cursor {
        ran,
        mark,
        job,
        feed,
        ..
    } = waved.cursor;
    assert_eq!((ran, mark, job, feed), (1, 0, 1, 1));
}

#[test]
fn refusals_of_waveforms_in_order() {
    let mut damaged = opened();
    damaged.charge = 17;
    let begun = Own.wave_begin(damaged);
    assert_eq!((begun.refusal, begun.cursor), (13, Cursor::default()));
    // 13 before 11, for either reason.
    let cursor = Own.wave_begin(opened()).cursor;
    assert_eq!(went_on(opened(), cursor, 1, 0).0.refusal, 11);
    assert_eq!(went_on(damaged, cursor, 1, 0).0.refusal, 13);
    assert_eq!(went_on(opened(), Cursor::default(), 1, 0).0.refusal, 13);
    let stepped = Own.step(opened()).desk;
    assert_eq!(went_on(stepped, cursor, 1, 0).0.refusal, 13);
    assert_eq!(closed(cursor, 0).0.refusal, 11);
    let bad = Cursor { heads: 7, ..cursor };
    assert_eq!(closed(bad, 0).0.refusal, 13);
    let late = |clock| Cursor {
        since: clock,
        clock,
        ..cursor
    };
    assert_eq!(closed(late(LAST_INSTANT), 0).0.refusal, 11);
    assert_eq!(closed(late(LAST_INSTANT + 1), 0).0.refusal, 13);
}

// ---------------------------------------------------------------- reading

#[test]
fn the_example_is_read_back() {
    let read = Own.wave_read(EXAMPLE.as_bytes());
    assert_eq!((read.refusal, read.line), (0, 0));
    assert_eq!((read.start, read.end, read.stretches), (0, 6, 3));
    let mut reading = Reading::default();
    for (from, to, kind, number, lines) in [(0, 1, 2, 1, 10), (1, 4, 1, 1, 13), (4, 6, 2, 2, 16)] {
        let found = Own.wave_stretch(EXAMPLE.as_bytes(), reading);
        assert_eq!((found.refusal, found.line), (0, 0));
        assert_eq!(
            (found.from, found.to, found.kind, found.number),
            (from, to, kind, number)
        );
        reading = found.reading;
        assert_eq!((reading.lines, reading.at), (lines, to));
    }
    let end = Own.wave_stretch(EXAMPLE.as_bytes(), reading);
    assert_eq!((end.from, end.to, end.kind, end.number), (6, 6, 0, 0));
    assert_eq!((end.reading, reading.place), (reading, EXAMPLE.len()));
    assert_eq!((reading.job, reading.feed), (0, 2));
    let alone = behind("#7");
    let end = Own.wave_stretch(&alone, Reading::default());
    assert_eq!((end.refusal, end.from, end.to), (0, 7, 7));
    let (place, lines) = (alone.len(), 7);
    let at_the_end = Reading {
        place,
        lines,
        at: 7,
        job: 0,
        feed: 0,
    };
    assert_eq!(end.reading, at_the_end);
    assert_eq!(Own.wave_stretch(&alone, at_the_end), end);
}

/// After each of its lines, and at each of its bytes.
#[test]
fn the_example_cut() {
    let lines: Vec<&str> = EXAMPLE.split_inclusive('\n').collect();
    for count in 0..=16 {
        let ends = [7, 10, 13, 16].contains(&count);
        let whole = lines[..count].concat();
        assert_eq!(
            wrong_line(whole.as_bytes()),
            if ends { 0 } else { count + 1 }
        );
        let next = lines.get(count).unwrap_or(&"");
        for part in 1..next.len() {
            let cut = whole.clone() + &next[..part];
            assert_eq!(wrong_line(cut.as_bytes()), count + 1, "{cut}");
        }
    }
    assert_eq!(wrong_line(b""), 1);
}

/// Each line of the example, spoilt in each of these ways, is the wrong one.
#[test]
fn a_line_written_otherwise() {
    let lines: Vec<&str> = EXAMPLE.split_inclusive('\n').collect();
    for (place, line) in lines.iter().enumerate() {
        let bare = line.trim_end_matches('\n');
        let (first, rest) = bare.split_at(1);
        for other in [
            format!("{bare}\r\n"),
            format!("\n{line}"),
            format!("{bare} \n"),
            format!("\t{line}"),
            format!("{first} {rest}\n"),
            format!("{first}0{rest}\n"),
            format!("{first}+{rest}\n"),
            format!("{first}x\n"),
            format!("{first}z{rest}\n"),
            format!("{bare}\t\n"),
            format!("$comment $end\n{line}"),
            format!("$dumpvars\n{line}"),
        ] {
            let text = [
                &lines[..place].concat()[..],
                &other,
                &lines[place + 1..].concat(),
            ];
            assert_eq!(wrong_line(text.concat().as_bytes()), place + 1, "{other:?}");
        }
        for (from, to) in [(" ", "  "), (" ", "\t"), ("b", "B"), ("$", "£")] {
            let other = line.replacen(from, to, 1);
            let text = [
                &lines[..place].concat()[..],
                &other,
                &lines[place + 1..].concat(),
            ];
            let wrong = if other == **line { 0 } else { place + 1 };
            assert_eq!(wrong_line(text.concat().as_bytes()), wrong, "{other:?}");
        }
    }
}

/// Behind the lines in front: what follows, and the line that is wrong, 0 for none.
const JUDGED: [(&str, usize); 60] = [
    ("#0", 0),
    ("#1099511627776", 0),
    ("#1099511627777", 7),
    ("#18446744073709551616", 7),
    ("#18446744073709551617 b0_! b0_\" #2", 7),
    ("#00", 7),
    ("#01", 7),
    ("#-1", 7),
    ("#", 7),
    ("b0_!", 7),
    ("#0 #0", 8),
    ("#0 #5", 8),
    ("#0 b0_\"", 8),
    ("#0 b0_\" b0_!", 8),
    ("#0 b0_\" b0_! #5", 8),
    ("#0 b0_!", 9),
    ("#0 b0_! #5", 9),
    ("#0 b0_! b0_!", 9),
    ("#0 b1_! b1_\"", 9),
    ("#0 b0_! b10001_\" #5", 9),
    ("#0 b0_! b10000_\" #5", 0),
    ("#0 b0_! b100000000000000000000000000000001_\" #5", 9),
    ("#0 b0_! b0_\"", 10),
    ("#0 b0_! b0_\" b1_!", 10),
    ("#0 b0_! b0_\" #0", 10),
    ("#5 b0_! b0_\" #4", 10),
    ("#5 b0_! b0_\" #6", 0),
    ("#5 b0_! b0_\" #1099511627776", 0),
    ("#5 b0_! b0_\" #1099511627777", 10),
    ("#5 b0_! b0_\" #18446744073709551617", 10),
    ("#1099511627776 b0_!", 8),
    ("#1099511627776 b0_! b0_\" #1099511627777", 8),
    ("#1099511627775 b0_! b0_\" #1099511627776", 0),
    ("#1099511627775 b0_! b0_\" #1099511627776 b1_!", 11),
    ("#1099511627775 b0_! b0_\" #1099511627776 b1_\"", 11),
    ("#0 b11111111111111111111111111111111_! b0_\" #1", 0),
    ("#0 b100000000000000000000000000000000_! b0_\" #1", 8),
    ("#0 b100000000000000000000000000000001_! b0_\" #1", 8),
    ("#0 b2_! b0_\" #1", 8),
    ("#0 b0_! b0_\" #1 #2", 11),
    ("#0 b0_! b0_\" #1 b0_!", 11),
    ("#0 b0_! b0_\" #1 b0_\"", 11),
    ("#0 b0_! b0_\" #1 b1_!", 12),
    ("#0 b0_! b0_\" #1 b1_! #2", 0),
    ("#0 b0_! b0_\" #1 b1_! #1", 12),
    ("#0 b0_! b0_\" #1 b1_! b0_\"", 12),
    ("#0 b0_! b0_\" #1 b1_! b1_\"", 12),
    ("#0 b0_! b0_\" #1 b1_! b10_!", 12),
    ("#0 b0_! b0_\" #1 b1_\" b1_!", 12),
    ("#0 b0_! b0_\" #1 b10001_\"", 11),
    ("#0 b1_! b0_\" #1 b1_\"", 11),
    ("#0 b1_! b0_\" #1 b1_! b1_\"", 11),
    ("#0 b1_! b0_\" #1 b0_! b1_\" #2", 0),
    ("#0 b0_! b1_\" #1 b1_! #2", 12),
    ("#0 b0_! b1_\" #1 b1_! b10_\" #2", 12),
    ("#0 b0_! b1_\" #1 b1_! b0_\" #2", 0),
    ("#0 b0_! b1_\" #1 b0_\" b1_! #2", 12),
    ("#0 b0_! b1_\" #1 b0_\" #2", 0),
    ("#0 b0_! b1_\" #1 b10_\" #2 $end", 13),
    ("#0 b0_! b0_\" #1 b1_! #3 b0_! #2", 14),
];

#[test]
fn the_line_that_is_wrong() {
    for (lines, line) in JUDGED {
        assert_eq!(wrong_line(&behind(lines)), line, "{lines}");
    }
}

/// By the sentence itself, over all runs of few ticks: the least number such that no text of
/// theirs begins with that many lines.
#[test]
fn the_wrong_line_by_trying_every_run() {
    let (first, last) = (3, 7);
    let wholes = all_texts(first, last);
    let ends = |whole: &[u8]| -> Vec<usize> {
        let places = 0..whole.len();
        places.filter(|place| whole[*place] == b'\n').collect()
    };
    let all_beginnings = |whole: &Vec<u8>| -> Vec<Vec<u8>> {
        let ends = ends(whole).into_iter();
        ends.map(|end| whole[..=end].to_vec()).collect()
    };
    let beginnings: BTreeSet<Vec<u8>> = wholes.iter().flat_map(all_beginnings).collect();
    let random = &mut Random::of(4, 0);
    for _ in 0..20_000 {
        let lines = some_lines(random, first, last - 1);
        let begins = |end: &usize| beginnings.contains(&lines[..=*end]);
        let good = ends(&lines).into_iter().take_while(begins).count();
        let line = match wholes.contains(&lines) {
            true => 0,
            false => good + 1,
        };
        let told = String::from_utf8_lossy(&lines);
        assert_eq!(wrong_line(&lines), line, "{told}");
    }
}

/// Of every run between these instants, of a few who may be named.
fn all_texts(first: Instant, last: Instant) -> BTreeSet<Vec<u8>> {
    let (one, two) = (Runner::Job(1), Runner::Job(2));
    let named = [Runner::Idle, one, two, Runner::Feed(1)];
    let longer = |names: &Vec<Runner>| named.map(|name| [&names[..], &[name]].concat());
    let mut wholes = BTreeSet::new();
    for start in first..=last {
        let mut runs = vec![Vec::new()];
        for _ in start..=last {
            wholes.extend(runs.iter().map(|names| text(start, names)));
            runs = runs.iter().flat_map(longer).collect();
        }
    }
    wholes
}

/// Lines of the same few in any order, now and then one that is written otherwise; the marks
/// lie before the last instant.
fn some_lines(random: &mut Random, first: Instant, last: Instant) -> Vec<u8> {
    let values = [
        "b0 !", "b1 !", "b10 !", "b0 \"", "b1 \"", "b01 !", "b1!", "#",
    ];
    let mut lines = format!("{}#{first}\n", heads());
    let mut at = first;
    for _ in 0..random.below(9) {
        let among = random.pick(&[5, 5, 5, 8]);
        let value = random.pick(&values[..among]).to_string();
        let rise = random.pick(&[1, 1, 1, 2, 0]);
        if random.chance(35) && at + rise <= last {
            at += rise;
            lines += &format!("#{at}\n");
        } else {
            lines += &(value + "\n");
        }
    }
    lines.into_bytes()
}

/// A reading goes by what it says, from any place on.
#[test]
fn readings_made_by_hand() {
    let text = behind("#0 b0_! b1_\" #1 b1_! b0_\" #4");
    let place = text.len() - b"b1 !\nb0 \"\n#4\n".len();
    let from = |at, job, feed| {
        let reading = reading(place, 10, (at, job, feed));
        let found = Own.wave_stretch(&text, reading);
        assert!(found.refusal == 0 || found.reading == reading);
        let Stretch { from, to, .. } = found;
        (found.refusal, found.line, from, to, found.number)
    };
    assert_eq!(from(1, 0, 1), (0, 0, 1, 4, 1));
    assert_eq!(from(3, 7, 16), (0, 0, 3, 4, 1));
    // A feed that there is none of goes by, once it is gone.
    assert_eq!(from(1, 0, 17), (0, 0, 1, 4, 1));
    assert_eq!(from(1, 1, 0), (20, 11, 0, 0, 0));
    assert_eq!(from(1, 0, 0), (20, 12, 0, 0, 0));
    assert_eq!(from(4, 0, 1), (20, 13, 0, 0, 0));
    assert_eq!(from(LAST_INSTANT - 1, 0, 1), (20, 13, 0, 0, 0));
    assert_eq!(from(LAST_INSTANT, 0, 1), (20, 11, 0, 0, 0));
    assert_eq!(from(u64::MAX, 0, 1), (20, 11, 0, 0, 0));
}

#[test]
fn a_reading_is_taken_as_it_stands() {
    // The feed stays, where only the job's value comes.
    let text = b".b0 !\n#9\n";
    let wires = (1, 5, 17);
    let found = Own.wave_stretch(text, reading(1, 0, wires));
    assert_eq!((found.refusal, found.kind, found.number), (0, 2, 17));
    // In front it does not matter what else it says.
    assert_eq!(Own.wave_stretch(text, reading(0, 0, wires)).line, 1);
    let example = EXAMPLE.as_bytes();
    let front = Own.wave_stretch(example, reading(0, 0, wires));
    assert_eq!(front, Own.wave_stretch(example, Reading::default()));
    // The end, by what the reading says of it.
    let end = reading(EXAMPLE.len(), 3, (u64::MAX, 4, 99));
    let found = Own.wave_stretch(example, end);
    assert_eq!((found.from, found.to, found.kind), (u64::MAX, u64::MAX, 0));
    assert_eq!((found.reading, found.refusal), (end, 0));
}

/// So many bytes and lines on, behind a mark and with the wires before it.
fn reading(place: usize, lines: usize, (at, job, feed): (Instant, u32, u32)) -> Reading {
    Reading {
        place,
        lines,
        at,
        job,
        feed,
    }
}

/// The answer that says no, and with which line.
fn unread(reading: Reading, refusal: Refusal, line: usize) -> Stretch {
    Stretch {
        reading,
        refusal,
        line,
        ..Stretch::default()
    }
}

#[test]
fn readings_in_order() {
    let text = EXAMPLE.as_bytes();
    let length = text.len();
    for (place, lines, in_order) in [
        (0, 0, true),
        (0, 1, false),
        (1, 1, true),
        (1, 2, false),
        (length, 0, true),
        (length, length, true),
        (length, length + 1, false),
        (length + 1, 0, false),
        (usize::MAX, usize::MAX, false),
    ] {
        let reading = reading(place, lines, (0, 0, 0));
        let found = Own.wave_stretch(text, reading);
        assert_eq!(found == unread(reading, 13, 0), !in_order, "{reading:?}");
        assert_eq!(found.refusal == 13, !in_order, "{reading:?}");
    }
}

// ---------------------------------------------------------------- the programs

fn dumped(script: &str) -> String {
    String::from_utf8(of_script(script.as_bytes())).unwrap()
}

#[test]
fn the_waveform_of_a_script() {
    assert_eq!(dumped(""), "");
    assert_eq!(dumped("feed 4 1 0 4\n"), "");
    assert_eq!(dumped("go 0 17\nrun 4\n"), "");
    assert_eq!(dumped("run 1\n"), "");
    assert_eq!(dumped("go 5 0\n").into_bytes(), behind("#5"));
    assert_eq!(dumped("go 5 0\nrun 0\n").into_bytes(), behind("#5"));
    let two = behind("#5 b0_! b0_\" #7");
    assert_eq!(dumped("go 5 0\nrun 1\nrun 1\n").into_bytes(), two);
    // It is closed at a bad line, and goes on after a run that met the clock's end.
    assert_eq!(dumped("go 5 0\nrun 2\nrun 4097\nrun 9\n").into_bytes(), two);
    assert_eq!(dumped("go 5 0\nrun 2\nrun 9").into_bytes(), two);
    let last = behind("#1099511627775 b0_! b0_\" #1099511627776");
    let script = "go 1099511627775 0\nrun 9\nrun 1\nend 1\n";
    assert_eq!(dumped(script).into_bytes(), last);
    let long = vec![b'\n'; INPUT_MOST];
    assert_eq!(of_script(&long), b"");
    assert_eq!(of_script(&[&long[..], b"\n"].concat()), b"too long\n");
}

#[test]
fn a_waveform_read_by_the_program() {
    let told = |text: &[u8]| String::from_utf8(judge::told(text)).unwrap();
    let example = "start 0\n0 1 feed 1\n1 4 job 1\n4 6 feed 2\nend 6\n";
    assert_eq!(told(EXAMPLE.as_bytes()), example);
    assert_eq!(told(&behind("#7")), "start 7\nend 7\n");
    let idle = behind("#0 b0_! b0_\" #1099511627776");
    assert_eq!(
        told(&idle),
        "start 0\n0 1099511627776 idle\nend 1099511627776\n"
    );
    assert_eq!(told(b""), "line 1\n");
    assert_eq!(told(&behind("#0 #1")), "line 8\n");
    for size in [TEXT_MOST, TEXT_MOST + 1] {
        let text = texts::sized(size);
        assert_eq!(text.len(), size);
        assert!(judge(&text).is_ok());
        assert_eq!(told(&text) == "too long\n", size > TEXT_MOST);
    }
}

// ---------------------------------------------------------------- comparing calls

/// On the way every call gives every number that it can.
#[test]
fn a_right_library_passes_with_waveforms() {
    let tally = calls::compare_waves(&Own, 7, 0, 20_000).unwrap();
    let refusals = [
        ("begin", vec![0, 13]),
        ("wave", vec![0, 11, 13]),
        ("close", vec![0, 11, 13]),
        ("read", vec![0, 20]),
        ("stretch", vec![0, 13, 20]),
        ("ask", vec![0]),
        ("end", vec![0]),
        ("rest", vec![0]),
        ("list", vec![0]),
    ];
    for (call, numbers) in refusals {
        for number in numbers {
            let came = tally.get(&(call, number)).copied().unwrap_or(0);
            assert!(came > 20, "{call} {number} came {came} times");
        }
    }
}

// ---------------------------------------------------------------- planted faults

/// A library that is wrong in one way where it writes or reads waveforms. To 29 it is what
/// going on or beginning answers, from 30 to 42 and from 51 to 62 one of the tests of a
/// cursor, from 70 on closing, from 80 on the reading of texts, and from 120 on readings.
struct Misdrawing(u32);

impl Library for Misdrawing {
    fn open(&self, list: &[u32], start: u64, charge: u32) -> Answer {
        Own.open(list, start, charge)
    }
    fn open_shared(&self, list: &[u32], start: u64, charge: u32, share: boundary::Share) -> Answer {
        Own.open_shared(list, start, charge, share)
    }
    fn ask(&self, desk: State, number: u32, work: u32, lead: u32) -> Answer {
        Own.ask(desk, number, work, lead)
    }
    fn ask_mesh(&self, desk: State, head: &[u8], size: u64, number: u32, lead: u32) -> Answer {
        Own.ask_mesh(desk, head, size, number, lead)
    }
    fn ask_undated(&self, desk: State, number: u32, work: u32) -> Answer {
        Own.ask_undated(desk, number, work)
    }
    fn why(&self, desk: State, number: u32, work: u32, lead: u32) -> boundary::Reason {
        Own.why(desk, number, work, lead)
    }
    fn step(&self, desk: State) -> Stepped {
        Own.step(desk)
    }
    fn end(&self, desk: State, number: u32) -> Answer {
        Own.end(desk, number)
    }
    fn rest(&self, desk: State, position: u32) -> Answer {
        Own.rest(desk, position)
    }
    fn list(&self, desk: State, buffer: &mut [u64]) -> Listed {
        Own.list(desk, buffer)
    }
    fn label(&self, desk: State, jobs: &[u8], feeds: &[u8]) -> Label {
        Own.label(desk, jobs, feeds)
    }
    fn wave_begin(&self, desk: State) -> Begun {
        let mut begun = Own.wave_begin(desk);
        match self.0 {
            1 if begun.refusal == 13 => {
                begun.cursor = parts::write(Some(&parts::Run::begin(desk.clock)))
            }
            2 if desk.clock == LAST_INSTANT => begun.refusal = 3,
            3 if begun.refusal == 0 => begun.cursor.mark = 0,
            _ => (),
        }
        begun
    }
    fn wave(&self, desk: State, cursor: Cursor, steps: u32, buffer: &mut [u8]) -> Waved {
        misdrawn(self.0, desk, cursor, steps, buffer)
    }
    fn wave_close(&self, cursor: Cursor, buffer: &mut [u8]) -> Closed {
        misclosed(self.0, cursor, buffer)
    }
    fn wave_read(&self, text: &[u8]) -> Read {
        Lax(self.0).read(text)
    }
    fn wave_stretch(&self, text: &[u8], reading: Reading) -> Stretch {
        misread(self.0, text, reading)
    }
}

/// Whether all tests but this one hold.
fn all_but(fault: u32, cursor: &Cursor, clock: Instant) -> bool {
    let others = (0..).zip(TESTS).filter(|(place, _)| *place != fault);
    others.into_iter().all(|(_, test)| test(cursor, clock))
}

fn is_due(cursor: &Cursor) -> bool {
    cursor.heads < 6 || cursor.mark != 0 || cursor.job != 0 || cursor.feed != 0
}

fn misdrawn(fault: u32, desk: State, cursor: Cursor, steps: u32, buffer: &mut [u8]) -> Waved {
    let odd = [cursor.ran, cursor.mark, cursor.job, cursor.feed];
    let odd = odd.iter().any(|flag| *flag > 1);
    let unreached = cursor.mark != 0 && cursor.feed == 0 && cursor.position != 0;
    let asked = match fault {
        10 => steps.saturating_add(1),
        11 if steps > 1 => steps - 1,
        12 if is_due(&cursor) => 0,
        _ => steps,
    };
    let less = buffer.len().saturating_sub(1);
    let mut drawn = match fault {
        13 => Own.wave(desk, cursor, asked, &mut buffer[..less]),
        14 if odd => waved(desk, cursor, Err(13), buffer),
        15 if unreached => waved(desk, cursor, Err(13), buffer),
        30..=42 if in_order(&desk) => drawn_but_for(fault - 30, desk, cursor, steps, buffer),
        _ => Own.wave(desk, cursor, asked, buffer),
    };
    misdrawn_answer(fault, desk, cursor, asked, &mut drawn, buffer);
    drawn
}

/// Where one of the tests of a cursor is left out.
fn drawn_but_for(test: u32, desk: State, cursor: Cursor, steps: u32, buffer: &mut [u8]) -> Waved {
    let state = read(&desk).expect("it is in order");
    let clock = state.clock;
    let gone = match all_but(test, &cursor, clock) {
        true => {
            let run = parts::as_it_says(&Cursor { clock, ..cursor });
            run.go_on(state, steps, buffer.len())
        }
        false => Err(13),
    };
    waved(desk, cursor, gone, buffer)
}

fn misdrawn_answer(
    fault: u32,
    desk: State,
    cursor: Cursor,
    steps: u32,
    drawn: &mut Waved,
    buffer: &mut [u8],
) {
    let (went, stopped) = (
        drawn.refusal == 0,
        drawn.steps < steps && !is_due(&drawn.cursor),
    );
    match fault {
        16 if drawn.refusal == 11 && !is_due(&cursor) => drawn.desk = Own.step(desk).desk,
        17 if drawn.refusal == 11 => drawn.refusal = 0,
        18 if went && drawn.bytes == 0 && buffer.is_empty() => drawn.refusal = 11,
        19 if drawn.bytes < buffer.len() => buffer[drawn.bytes] = 0,
        20 if went => {
            let mut more = vec![0; 400];
            let bytes = Own.wave(drawn.desk, drawn.cursor, 0, &mut more).bytes;
            let rest = buffer[drawn.bytes..].iter_mut();
            rest.zip(&more[..bytes])
                .for_each(|(byte, new)| *byte = *new);
        }
        21 if went && drawn.cursor.ran != 0 => drawn.cursor.ran = cursor.ran.max(1),
        22 if went && drawn.cursor.mark != 0 => drawn.cursor.mark = cursor.mark.max(1),
        23 if !went => drawn.cursor.ran = cursor.ran.min(1),
        24 if !went => drawn.cursor.job = cursor.job.min(1),
        25 if went && stopped && drawn.desk.clock == LAST_INSTANT => drawn.refusal = 3,
        26 if went && stopped && drawn.desk.clock < LAST_INSTANT => drawn.refusal = 13,
        27 if went => drawn.steps = steps,
        28 if went && drawn.steps > 0 => drawn.cursor.since = drawn.cursor.clock - 1,
        29 if drawn.refusal == 13 => drawn.desk = State::default(),
        _ => (),
    }
}

fn misclosed(fault: u32, cursor: Cursor, buffer: &mut [u8]) -> Closed {
    let empty = cursor == Cursor::default();
    let past = cursor.clock > LAST_INSTANT;
    if (51..=62).contains(&fault) && !empty {
        let left = match !past && all_but(fault - 50, &cursor, cursor.clock) {
            true => parts::as_it_says(&cursor).close(buffer.len()),
            false => Err(13),
        };
        return closed_as(cursor, left, buffer);
    }
    if fault == 71 && past && all_but(99, &cursor, cursor.clock) {
        return closed_as(
            cursor,
            parts::as_it_says(&cursor).close(buffer.len()),
            buffer,
        );
    }
    let mut closed = Own.wave_close(cursor, buffer);
    let went = closed.refusal == 0;
    match fault {
        70 if empty => closed.refusal = 13,
        72 if went && !is_due(&closed.cursor) => closed.cursor = Cursor::default(),
        73 if went && closed.bytes > 0 && closed.cursor == Cursor::default() => {
            closed.cursor.clock = cursor.clock
        }
        74 if went && closed.cursor != Cursor::default() => closed.refusal = 11,
        75 if !went => closed.cursor.ran = cursor.ran.min(1),
        76 if closed.refusal == 11 => closed.cursor = Cursor::default(),
        77 if closed.bytes < buffer.len() => buffer[closed.bytes] = b'\n',
        78 if went && empty && buffer.is_empty() => closed.refusal = 11,
        79 if cursor.ran == 0 && cursor.heads == 6 && cursor.mark == 0 => closed.cursor = cursor,
        _ => (),
    }
    closed
}

/// How far a text has come.
#[derive(Clone, Copy, PartialEq, Eq)]
enum Come {
    Heading(usize),
    Opened(Instant),
    Jobbed(Instant, u32),
    Going(Instant, u32, u32),
    Marked(Instant, u32, u32),
    Halfway(Instant, u32, u32),
    Dead,
}

/// A reader that goes line by line, and is wrong in one way, by number; 0 is right.
struct Lax(u32);

impl Lax {
    fn is(&self, fault: u32) -> bool {
        self.0 == fault
    }

    fn digits(&self, digits: &[u8], radix: u64, most: u64) -> Option<u64> {
        let zero = digits.len() > 1 && digits[0] == b'0' && !self.is(84);
        let mut number: u64 = 0;
        for byte in digits {
            let digit = u64::from(byte.checked_sub(b'0')?);
            let next = number
                .checked_mul(radix)
                .and_then(|next| next.checked_add(digit));
            number = match next.filter(|next| *next <= most && digit < radix) {
                Some(next) => next,
                None if self.is(85) && radix == 10 && digit < 10 => {
                    number.wrapping_mul(10).wrapping_add(digit)
                }
                None if self.is(86) && radix == 2 && digit < 2 => (2 * number + digit) % (1 << 32),
                None => return None,
            };
        }
        let empty = digits.is_empty() && !self.is(108);
        (!zero && !empty).then_some(number)
    }

    fn line(&self, mut line: &[u8]) -> Option<Line> {
        if self.is(80) && line.ends_with(b"\r") {
            line = &line[..line.len() - 1];
        }
        if let Some(instant) = line.strip_prefix(b"#") {
            return self.digits(instant, 10, u64::MAX).map(Line::Mark);
        }
        if let Some(value) = line.strip_prefix(b"b") {
            let space = value.len().checked_sub(2).filter(|at| value[*at] == b' ')?;
            let number = self.digits(&value[..space], 2, u32::MAX.into())? as u32;
            return match value[space + 1] {
                b'!' => Some(Line::Job(number)),
                b'"' => Some(Line::Feed(number)),
                _ => None,
            };
        }
        let head = HEADS.iter().position(|head| head.as_bytes() == line)?;
        Some(Line::Head(head))
    }

    fn may_begin(&self, at: Instant) -> bool {
        at < LAST_INSTANT || self.is(91)
    }

    fn ran(&self, at: Instant, job: u32, feed: u32) -> Come {
        let alone = job == 0 || feed == 0 || self.is(94);
        let most = if self.is(87) { 31 } else { 16 };
        match alone && feed <= most {
            true => Come::Going(at, job, feed),
            false => Come::Dead,
        }
    }

    fn goes_to(&self, from: Instant, to: Instant, job: u32, feed: u32) -> Come {
        let rises = from < to || (self.is(89) && from == to);
        let most = LAST_INSTANT + u64::from(self.is(90));
        match rises && to <= most {
            true => Come::Marked(to, job, feed),
            false => Come::Dead,
        }
    }

    fn next(&self, come: Come, line: Line) -> Come {
        match (come, line) {
            (Come::Heading(heads), Line::Head(head)) if heads == head => Come::Heading(head + 1),
            (Come::Heading(heads), Line::Head(head)) if self.is(104) && heads == head + 1 => come,
            (Come::Heading(6), Line::Mark(at)) if at <= LAST_INSTANT => Come::Opened(at),
            (Come::Heading(6), Line::Mark(at)) if self.is(103) => Come::Opened(at),
            (Come::Heading(5), Line::Mark(at)) if self.is(105) => Come::Opened(at),
            (Come::Opened(at), Line::Job(job)) if self.may_begin(at) => Come::Jobbed(at, job),
            (Come::Opened(_), Line::Mark(at)) if self.is(99) => Come::Opened(at),
            (Come::Opened(at), Line::Feed(feed)) if self.is(102) => self.ran(at, 0, feed),
            (Come::Jobbed(at, job), Line::Feed(feed)) => self.ran(at, job, feed),
            (Come::Jobbed(at, job), Line::Mark(to)) if self.is(101) => self.goes_to(at, to, job, 0),
            (Come::Going(at, job, feed), Line::Mark(to)) => self.goes_to(at, to, job, feed),
            (Come::Going(at, 0, 0), Line::Job(job)) if self.is(93) => self.ran(at, job, 0),
            (Come::Marked(at, job, feed), line) => self.after_a_mark(at, job, feed, line),
            (Come::Halfway(at, job, feed), line) => self.after_a_job(at, job, feed, line),
            _ => Come::Dead,
        }
    }

    fn is_new(&self, value: u32, before: u32) -> bool {
        value != before || self.is(92)
    }

    fn after_a_mark(&self, at: Instant, job: u32, feed: u32, line: Line) -> Come {
        match line {
            Line::Mark(to) if self.is(98) => self.goes_to(at, to, job, feed),
            _ if !self.may_begin(at) => Come::Dead,
            Line::Job(new) if self.is_new(new, job) => Come::Halfway(at, new, feed),
            Line::Feed(new) if self.is_new(new, feed) => self.ran(at, job, new),
            _ => Come::Dead,
        }
    }

    fn after_a_job(&self, at: Instant, job: u32, feed: u32, line: Line) -> Come {
        let alone = job == 0 || feed == 0 || self.is(100);
        match line {
            Line::Feed(new) if self.is_new(new, feed) => self.ran(at, job, new),
            Line::Mark(_) if self.is(126) && feed > 16 => Come::Dead,
            Line::Mark(to) if alone => self.goes_to(at, to, job, feed),
            _ => Come::Dead,
        }
    }

    fn after(&self, come: Come, line: &[u8]) -> Come {
        match self.line(line) {
            Some(line) => self.next(come, line),
            None if self.is(81) && line.is_empty() => come,
            None => Come::Dead,
        }
    }

    /// The line without its newline that begins here, and where the next one does.
    fn whole<'a>(&self, text: &'a [u8], from: usize) -> Option<(&'a [u8], usize)> {
        let rest = &text[from..];
        match rest.iter().position(|byte| *byte == b'\n') {
            Some(end) => Some((&rest[..end], from + end + 1)),
            None if self.is(82) => Some((rest, text.len())),
            None => None,
        }
    }

    fn wrong(&self, line: usize) -> Read {
        Read {
            refusal: 20,
            line,
            ..Read::default()
        }
    }

    fn read(&self, text: &[u8]) -> Read {
        let (mut come, mut from, mut lines) = (Come::Heading(0), 0, 0);
        let mut read = Read::default();
        while from < text.len() {
            let (line, next) = match self.whole(text, from) {
                Some(whole) => whole,
                None if self.is(83) => break,
                None => return self.wrong(lines + 1),
            };
            come = self.after(come, line);
            (from, lines) = (next, lines + 1);
            match come {
                Come::Dead => return self.wrong(lines),
                Come::Opened(at) => read.start = at,
                Come::Marked(..) => read.stretches += 1,
                _ => (),
            }
        }
        match come {
            Come::Opened(at) | Come::Marked(at, ..) => read.end = at,
            Come::Going(at, ..) if self.is(106) => read.end = at,
            _ if self.is(88) => return self.wrong(lines),
            _ => return self.wrong(lines + 1),
        }
        if self.is(107) && read.stretches == 0 {
            read.stretches = 1;
        }
        read
    }
}

/// One stretch by this reader.
fn misread(fault: u32, text: &[u8], given: Reading) -> Stretch {
    let Reading { place, lines, .. } = given;
    let in_order = (lines <= place || fault == 121) && place <= text.len();
    let both = given.job > 0 && given.feed > 0;
    if !in_order || (fault == 120 && place == text.len()) || (fault == 127 && both) {
        return unread(given, if fault == 122 { 20 } else { 13 }, 0);
    }
    let mut come = match place == 0 && !(fault == 123 && given.at != 0) {
        true => Come::Heading(0),
        false => Come::Marked(given.at, given.job, given.feed),
    };
    let (mut from, mut count) = (place, lines);
    while from < text.len() {
        let before = come;
        (come, from) = match Lax(fault).whole(text, from) {
            Some((line, next)) => (Lax(fault).after(come, line), next),
            None => (Come::Dead, from),
        };
        count = count.wrapping_add(1);
        match (before, come) {
            (_, Come::Dead) if fault == 128 => return unread(given, 20, count - lines),
            (_, Come::Dead) => return unread(given, 20, count),
            (Come::Going(since, ..) | Come::Halfway(since, ..), Come::Marked(at, job, feed)) => {
                return as_stretch(fault, reading(from, count, (at, job, feed)), since);
            }
            _ => (),
        }
    }
    match come {
        Come::Opened(at) => ended(fault, reading(from, count, (at, 0, 0))),
        Come::Marked(at, job, feed) => ended(fault, reading(from, count, (at, job, feed))),
        _ => unread(given, 20, count.wrapping_add(1)),
    }
}

fn as_stretch(fault: u32, reading: Reading, from: Instant) -> Stretch {
    let Reading { at, job, feed, .. } = reading;
    let (kind, number) = match (job, feed) {
        (0, 0) => (0, 0),
        (0, feed) => (2, feed),
        (job, _) => (1, job),
    };
    let number = if fault == 130 && kind == 2 {
        number - 1
    } else {
        number
    };
    let reading = match fault {
        131 => Reading {
            lines: reading.lines - 1,
            ..reading
        },
        132 => Reading {
            at: from,
            ..reading
        },
        133 if job != 0 => Reading { job: 0, ..reading },
        _ => reading,
    };
    Stretch {
        reading,
        from,
        to: at,
        kind,
        number,
        ..Stretch::default()
    }
}

fn ended(fault: u32, reading: Reading) -> Stretch {
    let at = if fault == 134 { 0 } else { reading.at };
    let reading = match fault {
        135 => Reading {
            job: 0,
            feed: 0,
            ..reading
        },
        _ => reading,
    };
    Stretch {
        reading,
        from: at,
        to: at,
        ..Stretch::default()
    }
}

#[test]
fn each_planted_fault_of_a_waveform_is_found() {
    assert!(calls::compare_waves(&Misdrawing(0), 5, 0, 20_000).is_ok());
    let going = (1..=3).chain(10..=42).chain(51..=62).chain(70..=79);
    let reading = (80..=94).chain(98..=108).chain(120..=123).chain(126..=128);
    let went_by = |fault: &u32| calls::compare_waves(&Misdrawing(*fault), 5, 1, 30_000).is_ok();
    let faults = going.chain(reading).chain(130..=135);
    assert_eq!(faults.filter(went_by).collect::<Vec<u32>>(), []);
}
