//! Times of the calls over the library, each beside a plain hand-written desk in the same run.

#[path = "../include/desk.rs"]
mod desk;
mod plain;

use desk::{Answer, Desk};
use std::hint::black_box;
use std::io::{Read, Write};
use std::process::{Command, Stdio};

#[repr(C)]
struct Time {
    seconds: i64,
    nanoseconds: i64,
}

/// Of all that the system tells of the programs that ended, the times alone are read.
#[repr(C)]
struct Usage {
    user: Time,
    system: Time,
    rest: [i64; 14],
}

extern "C" {
    fn clock_gettime(clock: i32, time: *mut Time) -> i32;
    fn getrusage(who: i32, usage: *mut Usage) -> i32;
}

/// Nanoseconds of processor time of this thread, so that other work on the machine does not count.
fn now() -> f64 {
    let mut time = Time { seconds: 0, nanoseconds: 0 };
    assert_eq!(unsafe { clock_gettime(3, &mut time) }, 0);
    time.seconds as f64 * 1e9 + time.nanoseconds as f64
}

/// Nanoseconds of processor time of the programs that were started and have ended.
fn ended() -> f64 {
    let zero = || Time { seconds: 0, nanoseconds: 0 };
    let mut usage = Usage { user: zero(), system: zero(), rest: [0; 14] };
    assert_eq!(unsafe { getrusage(-1, &mut usage) }, 0);
    // here the second number counts microseconds
    let micros = usage.user.nanoseconds + usage.system.nanoseconds;
    (usage.user.seconds + usage.system.seconds) as f64 * 1e9 + micros as f64 * 1e3
}

/// Nanoseconds a call: the best of five rounds, each of at least 20 ms.
fn time(mut call: impl FnMut()) -> f64 {
    let mut times = 1;
    let mut best = f64::INFINITY;
    let mut rounds = 0;
    while rounds < 5 {
        let began = now();
        for _ in 0..times {
            call();
        }
        let took = now() - began;
        if took < 2e7 && rounds == 0 {
            times *= 2;
            continue;
        }
        best = best.min(took / f64::from(times));
        rounds += 1;
    }
    best
}

fn row(name: &str, library: f64, plain: f64) {
    println!("| {name} | {library:.0} | {plain:.0} | {:.2} |", library / plain);
}

/// Feeds with a round of 5,040, at half load, each layer due so many percent of its period before the next one comes.
fn feeds(count: usize, early: u32) -> Vec<u32> {
    let periods = [48, 60, 80, 84, 90, 120, 126, 140, 144, 168, 180, 210, 240, 252, 280, 336];
    let work = |period: u32| period / (2 * count as u32).max(1) + u32::from(count == 16);
    periods[..count].iter().flat_map(|&period| [period, work(period), 0, period - period * early / 100]).collect()
}

/// The smallest share there is, so that a job with no date is due about as far ahead as the others that are asked for.
const SHARE: (u32, u32) = (1, desk::HIGHEST_Q);

/// A desk with so many feeds and jobs, under a charge, with a share.
fn with_jobs(feed_count: usize, jobs: u32, charge: u32, early: u32) -> Desk {
    let opened = Desk::open_shared(&feeds(feed_count, early), 0, charge, SHARE.0, SHARE.1);
    assert_eq!(opened.refusal, 0, "{feed_count} feeds, charge {charge}, early {early}");
    let mut desk = opened.desk;
    for number in 1..=jobs {
        let answer = desk.ask(number, 20, 6_000 + 200 * number);
        assert_eq!(answer.refusal, 0, "{feed_count} feeds, job {number}, charge {charge}");
        desk = answer.desk;
    }
    desk
}

/// A call that hands a state back, with the refusal that it should give.
fn answering(state: &Desk, name: &str, refusal: u32, call: impl Fn(Desk) -> Answer, plain: impl Fn(&mut Desk) -> u32) {
    let mut other = *state;
    let answer = call(*state);
    assert_eq!(answer.refusal, refusal, "{name}");
    assert_eq!(plain(&mut other), refusal, "{name}, plain");
    assert!(answer.desk == other, "{name}, the state");
    let library = time(|| {
        black_box(call(black_box(*state)));
    });
    let own = time(|| {
        let mut desk = black_box(*state);
        plain(&mut desk);
        black_box(&desk);
    });
    row(name, library, own);
}

fn asking(state: &Desk, name: &str, work: u32, lead: u32, refusal: u32) {
    answering(state, name, refusal, |desk| desk.ask(900, work, lead), |desk| plain::ask(desk, 900, work, lead));
}

fn asking_undated(state: &Desk, name: &str, work: u32, refusal: u32) {
    answering(state, name, refusal, |desk| desk.ask_undated(900, work), |desk| plain::ask_undated(desk, 900, work));
}

fn calls(feed_count: usize, jobs: u32, charge: u32, early: u32) {
    let state = with_jobs(feed_count, jobs, charge, early);
    let under = if charge > 0 { format!(", charge {charge}") } else { String::new() };
    let due = if early > 0 { format!(", due {early} % early") } else { String::new() };
    let at = |what: &str| format!("{what}, {jobs} jobs, {feed_count} feeds{under}{due}");
    asking(&state, &at("ask taken"), 10, 20_000, 0);
    asking(&state, &at("ask refused near"), 3, 2, 6);
    asking(&state, &at("ask refused far"), 30_000, 30_000 - 1, 6);
    asking_undated(&state, &at("undated ask taken"), 20, 0);
    let (step, mut other) = (state.step(), state);
    assert_eq!(plain::step(&mut other), (step.refusal, step.kind, step.number), "{}", at("step"));
    assert!(step.desk == other, "{}, the state", at("step"));
    let library = time(|| {
        black_box(black_box(state).step());
    });
    let own = time(|| {
        let mut desk = black_box(state);
        black_box(plain::step(&mut desk));
        black_box(&desk);
    });
    row(&at("step"), library, own);
    if jobs > 0 {
        let number = jobs / 2 + 1;
        answering(&state, &at("end"), 0, |desk| desk.end(number), |desk| plain::end(desk, number));
    }
    let (mut buffer, mut places) = ([0; desk::NUMBERS_A_JOB * desk::MOST_JOBS], [0; desk::NUMBERS_A_JOB * desk::MOST_JOBS]);
    let listed = state.list(&mut buffer);
    assert_eq!(plain::list(&state, &mut places), (listed.refusal, listed.count), "{}", at("list"));
    assert!(buffer == places, "{}, the numbers", at("list"));
    let library = time(|| {
        black_box(black_box(state).list(black_box(&mut buffer)));
    });
    let own = time(|| {
        black_box(plain::list(black_box(&state), black_box(&mut places)));
    });
    row(&at("list"), library, own);
}

/// 86,400 ticks with a request every 50, the answers compared; ticks a second of both.
fn day() {
    let requests = |tick: u64| (tick as u32 / 50 % 60 + 1, 10 + tick as u32 % 30, 300 + tick as u32 % 4_000);
    let mut one = Desk::open(&feeds(4, 0), 0, 0).desk;
    let mut two = one;
    let began = now();
    let mut named = Vec::new();
    for tick in 0..86_400 {
        if tick % 50 == 0 {
            let (number, work, lead) = requests(tick);
            one = one.ask(number, work, lead).desk;
        }
        let step = one.step();
        named.push((step.refusal, step.kind, step.number));
        one = step.desk;
    }
    let library = (now() - began) / 1e9;
    let began = now();
    for tick in 0..86_400 {
        if tick % 50 == 0 {
            let (number, work, lead) = requests(tick);
            plain::ask(&mut two, number, work, lead);
        }
        assert_eq!(plain::step(&mut two), named[tick as usize], "tick {tick}");
    }
    let own = (now() - began) / 1e9;
    assert!(one == two, "the state at the end of the day");
    println!("\nA day of 86,400 ticks, 4 feeds, a request every 50 ticks, each step with its check of the state:");
    println!("{:.0} ticks a second, plain {:.0}, ratio {:.2}.", 86_400.0 / library, 86_400.0 / own, library / own);
}

/// What the program answers to a script, and its processor time, the best of three.
fn rehearsed(program: &str, script: &str) -> (String, f64) {
    let mut best = (String::new(), f64::INFINITY);
    for _ in 0..3 {
        let began = ended();
        let mut child = Command::new(program).stdin(Stdio::piped()).stdout(Stdio::piped()).spawn().expect("the program");
        child.stdin.take().expect("piped").write_all(script.as_bytes()).expect("the script");
        let mut text = String::new();
        child.stdout.take().expect("piped").read_to_string(&mut text).expect("the answers");
        child.wait().expect("its end");
        let took = ended() - began;
        if took < best.1 {
            best = (text, took);
        }
    }
    best
}

const RUNS: usize = 32;

/// The ticks of long runs in the program itself, their lines with them, beside the plain desk that writes the same lines.
fn runs(program: &str, jobs: u32) {
    let mut asks = String::new();
    for feed in feeds(4, 0).chunks(desk::NUMBERS_A_FEED) {
        asks += &format!("feed {} {} {} {}\n", feed[0], feed[1], feed[2], feed[3]);
    }
    asks += "go 0 0\n";
    let mut desk = Desk::open(&feeds(4, 0), 0, 0).desk;
    for number in 1..=jobs {
        asks += &format!("ask {number} 900 65536\n");
        desk = desk.ask(number, 900, 65_536).desk;
    }
    let (before, short) = rehearsed(program, &asks);
    let (after, long) = rehearsed(program, &(asks + &"run 4096\n".repeat(RUNS)));
    let ticks = RUNS * 4096;
    let began = now();
    let mut lines = Vec::new();
    for instant in 0..ticks {
        match plain::tick(&mut desk) {
            (_, 1, number) => writeln!(lines, "{instant} job {number}"),
            (_, 2, position) => writeln!(lines, "{instant} feed {position}"),
            _ => writeln!(lines, "{instant} idle"),
        }
        .expect("writing to memory");
    }
    let own = (now() - began) / ticks as f64;
    assert!(after.as_bytes() == [before.as_bytes(), &lines].concat(), "the lines of {jobs} jobs");
    let program = (long - short) / ticks as f64;
    println!("{jobs} jobs, 4 feeds: {:.0} ticks a second, plain {:.0}, ratio {:.2}.", 1e9 / program, 1e9 / own, program / own);
}

/// Feeds of one period and as many offsets, so that something is due at nearly every instant, and one of the longest
/// period that wants this much, so many ticks before its next layer comes.
fn dense(count: u32, period: u32, rest: u32, early: u32) -> Vec<u32> {
    let mut list: Vec<u32> = (0..count).flat_map(|i| [period, 1, i, period]).collect();
    list.extend([40_320, rest, 40_319, 40_320 - early]);
    list
}

/// Feeds that share out the ticks, each the one that those before it leave it, so that hardly any stretch has a tick to
/// spare: layers wanted in that very tick, or else by the time that the next one comes. What is left goes to one of the
/// longest period, due by this instant.
fn shared_out(rest: u32, by: u32, early: bool) -> Vec<u32> {
    let longer = [(16, 8), (32, 16), (64, 32), (128, 64), (384, 128), (384, 256), (1_152, 384), (1_152, 768)];
    let shares = (1..8).map(|tick| (8, tick)).chain(longer);
    let due = |period, lead| if early { lead } else { period };
    let mut list: Vec<u32> = shares.flat_map(|(period, tick)| [period, 1, tick - 1, due(period, tick)]).collect();
    list.extend([40_320, rest, 1_151, due(40_320, by)]);
    list
}

/// A feed of a list that a search for the longest walks of line 10 found: period, work and a deadline length.
type Searched = (u32, u32, u32);

/// Halves, quarters and so on, and what leaves one tick of the round.
const HALVES: [Searched; 11] = [
    (2, 1, 2),
    (4, 1, 3),
    (8, 1, 8),
    (16, 1, 15),
    (32, 1, 32),
    (64, 1, 64),
    (128, 1, 128),
    (384, 1, 384),
    (1_152, 1, 1_152),
    (5_760, 24, 5_760),
    (40_320, 6, 40_320),
];

/// One tick of the round is left: the longest walk that was found.
const FIVE: [Searched; 5] = [(2, 1, 1), (3, 1, 2), (7, 1, 6), (45, 1, 43), (640, 1, 638)];

/// No tick is left: the most work that a walk was found to be.
const TEN: [Searched; 10] = [
    (7, 1, 4),
    (6, 1, 5),
    (2, 1, 2),
    (14, 1, 7),
    (9, 1, 8),
    (160, 1, 160),
    (630, 1, 315),
    (20_160, 1, 10_080),
    (40_320, 1, 20_160),
    (40_320, 1, 40_320),
];

fn searched(feeds: &[Searched], early: bool) -> Vec<u32> {
    let due = |period, lead| if early { lead } else { period };
    feeds.iter().flat_map(|&(period, work, lead)| [period, work, 0, due(period, lead)]).collect()
}

/// Lists of feeds with the longest round, lightly loaded and nearly full, and what they are.
fn long_rounds(early: bool) -> Vec<(String, Vec<u32>)> {
    let mut lists = Vec::new();
    for (count, period) in [(0, 1), (1, 2), (3, 4), (7, 8), (14, 16), (15, 16), (15, 18), (15, 20)] {
        let free = 40_320 - 40_320 / period * count;
        for rest in [1, free / 2, free * 7 / 8, free - 64, free - 1, free] {
            let rest = rest.max(1);
            let name = format!("{count} feeds of period {period} and one of 40,320 that wants {rest}");
            lists.push((name, dense(count, period, rest, early.into())));
        }
    }
    for (rest, by) in [(1, 1_152), (18, 20_736), (35, 40_320)] {
        let name = format!("15 feeds that share out the ticks and one of 40,320 that wants {rest}");
        lists.push((name, shared_out(rest, by, early)));
    }
    lists.push(("halves and so on, one tick left".into(), searched(&HALVES, early)));
    lists.push(("five feeds, one tick left".into(), searched(&FIVE, early)));
    lists.push(("ten feeds, none left".into(), searched(&TEN, early)));
    // Full to the last tick, and due before it, some do not open.
    lists.retain(|(_, list)| Desk::open(list, 0, 0).refusal == 0);
    lists
}

/// The longer of two times of the library, each in ms with that of the plain desk and what was timed.
fn slower(one: (f64, f64, String), other: (f64, f64, String)) -> (f64, f64, String) {
    if other.0 > one.0 { other } else { one }
}

/// Asks and steps that look far and at many instants: the longest round, for an ask behind the longest lead.
fn slowest(early: bool) {
    let mut asks = (0.0, 0.0, String::new());
    let mut steps = asks.clone();
    let mut opening: f64 = 0.0;
    for (name, list) in long_rounds(early) {
        let began = now();
        let mut state = black_box(Desk::open(&list, 0, 0)).desk;
        opening = opening.max((now() - began) / 1e6);
        for number in 1..=63 {
            state = state.ask(number, 1, 65_536 - number).desk;
        }
        let name = format!("{name}, {} jobs", state.table.count);
        let began = now();
        let answer = black_box(state).ask(900, 1, 65_536);
        let library = (now() - began) / 1e6;
        let mut other = state;
        let began = now();
        assert_eq!(plain::ask(&mut other, 900, 1, 65_536), answer.refusal);
        let own = (now() - began) / 1e6;
        assert!(answer.desk == other, "{name}, the state");
        asks = slower(asks, (library, own, format!("{name} before it, answer {}", answer.refusal)));
        let began = now();
        let step = black_box(state).step();
        let library = (now() - began) / 1e6;
        let mut other = state;
        let began = now();
        assert_eq!(plain::step(&mut other), (step.refusal, step.kind, step.number));
        let own = (now() - began) / 1e6;
        assert!(step.desk == other, "{name}, the state");
        steps = slower(steps, (library, own, name));
    }
    let due = if early { ", layers due before the next" } else { "" };
    println!("\nThe slowest opening found{due}: {opening:.3} ms.");
    for (call, (library, own, name)) in [("ask", asks), ("step", steps)] {
        let ratio = library / own;
        println!("\nThe slowest {call} found{due}: {library:.3} ms, plain {own:.3} ms, ratio {ratio:.2} ({name}).");
    }
}

fn main() {
    println!("| call | library, ns | plain, ns | ratio |\n|---|---|---|---|");
    for feed_count in [0, 4, 16] {
        for jobs in [0, 16, 63] {
            calls(feed_count, jobs, 0, 0);
        }
    }
    calls(4, 16, 3, 0);
    calls(4, 16, 0, 25);
    calls(16, 16, 0, 25);
    let full = with_jobs(4, 64, 0, 0);
    asking(&full, "ask with all places taken, 64 jobs, 4 feeds", 1, 1, 5);
    day();
    let program = std::env::args().nth(1).expect("usage: bench PROGRAM");
    println!("\nThe program `rehearse` itself, runs of 4,096 ticks with the lines that it writes, no check of the state:");
    for jobs in [0, 16, 64] {
        runs(&program, jobs);
    }
    slowest(false);
    slowest(true);
}
