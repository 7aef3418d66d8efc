//! The export desk for Rust: the calls of the library `desk_c`, declared once for every program. `include/desk.h` says
//! what each does, what its refusals mean and in which order they come; names here are those there without `DESK_`.
//! The layout and the numbers are held to the header's by `tests/layout`. Nothing of the standard library is used.
//! A program takes this file in with `#[path]` and is linked with `-l static=desk_c`.

// A program uses what it needs.
#![allow(dead_code)]

pub const VERSION: u32 = 7;

pub const LAST_INSTANT: u64 = 1 << 40;
pub const MOST_JOBS: usize = 64;
pub const MOST_FEEDS: usize = 16;
pub const LONGEST_WORK: u64 = 65_536;
pub const LONGEST_LEAD: u64 = 65_536;
pub const LONGEST_PERIOD: u64 = 40_320;
pub const LONGEST_ROUND: u64 = 40_320;
pub const HIGHEST_CHARGE: u64 = 16;
pub const HIGHEST_Q: u32 = 1_000;

pub const NUMBERS_A_FEED: usize = 4;
pub const NUMBERS_A_JOB: usize = 4;
pub const BYTES_OF_FRONT: usize = 84;
pub const BYTES_A_JOB_LABEL: usize = 12;
pub const BYTES_A_FEED_LABEL: usize = 8;
pub const BYTES_A_LINE: usize = 36;

pub const YES: u32 = 0;
pub const NUMBER_ZERO: u32 = 1;
pub const OUTSIDE: u32 = 2;
pub const PAST_LAST: u32 = 3;
pub const NUMBER_LIVE: u32 = 4;
pub const FULL: u32 = 5;
pub const DOES_NOT_FIT: u32 = 6;
pub const NOTHING_THERE: u32 = 7;
pub const TOO_MANY_FEEDS: u32 = 8;
pub const ROUND_TOO_LONG: u32 = 9;
pub const TOO_MUCH_LOAD: u32 = 10;
pub const SHORT_BUFFER: u32 = 11;
pub const NOT_WHOLE_FEEDS: u32 = 12;
pub const NOT_IN_ORDER: u32 = 13;
pub const SHORT_FRONT: u32 = 15;
pub const WRONG_LENGTH: u32 = 16;
pub const NO_TRIANGLES: u32 = 17;
pub const CHARGE_TOO_HIGH: u32 = 18;
pub const NO_SHARE: u32 = 19;
pub const NOT_A_WAVEFORM: u32 = 20;

pub const IDLE: u32 = 0;
pub const JOB: u32 = 1;
pub const FEED: u32 = 2;

pub const JOB_LABELS: u32 = 1;
pub const FEED_LABELS: u32 = 2;

#[derive(Clone, Copy, Debug, Default, PartialEq, Eq)]
#[repr(C)]
pub struct Feed {
    pub period: u64,
    pub work: u64,
    pub offset: u64,
    pub lead: u64,
    pub owes: u64,
}

#[derive(Clone, Copy, Debug, Default, PartialEq, Eq)]
#[repr(C)]
pub struct Feeds {
    pub count: usize,
    pub feeds: [Feed; MOST_FEEDS],
}

#[derive(Clone, Copy, Debug, Default, PartialEq, Eq)]
#[repr(C)]
pub struct Job {
    pub number: u32,
    pub owed: u64,
    pub deadline: u64,
    pub figure: u64,
}

#[derive(Clone, Copy, Debug, PartialEq, Eq)]
#[repr(C)]
pub struct Table {
    pub count: usize,
    pub jobs: [Job; MOST_JOBS],
}

impl Default for Table {
    fn default() -> Table {
        Table {
            count: 0,
            jobs: [Job::default(); MOST_JOBS],
        }
    }
}

#[derive(Clone, Copy, Debug, Default, PartialEq, Eq)]
#[repr(C)]
pub struct Share {
    pub p: u32,
    pub q: u32,
}

#[derive(Clone, Copy, Debug, Default, PartialEq, Eq)]
#[repr(C)]
pub struct Desk {
    pub clock: u64,
    pub charge: u64,
    pub feeds: Feeds,
    pub table: Table,
    pub share: Share,
    pub previous: u64,
}

#[derive(Clone, Copy, Debug, Default, PartialEq, Eq)]
#[repr(C)]
pub struct Answer {
    pub desk: Desk,
    pub refusal: u32,
}

#[derive(Clone, Copy, Debug, Default, PartialEq, Eq)]
#[repr(C)]
pub struct Reason {
    pub refusal: u32,
    pub at: u64,
    pub jobs: u64,
    pub feeds: u64,
    pub job: u64,
    pub margin: i64,
}

#[derive(Clone, Copy, Debug, Default, PartialEq, Eq)]
#[repr(C)]
pub struct Stepped {
    pub desk: Desk,
    pub refusal: u32,
    pub kind: u32,
    pub number: u32,
    pub owes: u64,
}

#[derive(Clone, Copy, Debug, Default, PartialEq, Eq)]
#[repr(C)]
pub struct Listed {
    pub refusal: u32,
    pub count: u32,
}

#[derive(Clone, Copy, Debug, Default, PartialEq, Eq)]
#[repr(C)]
pub struct Label {
    pub list: u32,
    pub from: usize,
    pub length: usize,
}

#[derive(Clone, Copy, Debug, Default, PartialEq, Eq)]
#[repr(C)]
pub struct Cursor {
    pub since: u64,
    pub clock: u64,
    pub number: u32,
    pub position: u32,
    pub ran: u32,
    pub heads: u32,
    pub mark: u32,
    pub job: u32,
    pub feed: u32,
}

#[derive(Clone, Copy, Debug, Default, PartialEq, Eq)]
#[repr(C)]
pub struct Begun {
    pub cursor: Cursor,
    pub refusal: u32,
}

#[derive(Clone, Copy, Debug, Default, PartialEq, Eq)]
#[repr(C)]
pub struct Waved {
    pub desk: Desk,
    pub cursor: Cursor,
    pub refusal: u32,
    pub steps: u32,
    pub bytes: usize,
}

#[derive(Clone, Copy, Debug, Default, PartialEq, Eq)]
#[repr(C)]
pub struct Closed {
    pub cursor: Cursor,
    pub refusal: u32,
    pub bytes: usize,
}

#[derive(Clone, Copy, Debug, Default, PartialEq, Eq)]
#[repr(C)]
pub struct Read {
    pub refusal: u32,
    pub line: usize,
    pub start: u64,
    pub end: u64,
    pub stretches: usize,
}

#[derive(Clone, Copy, Debug, Default, PartialEq, Eq)]
#[repr(C)]
pub struct Reading {
    pub place: usize,
    pub lines: usize,
    pub at: u64,
    pub job: u32,
    pub feed: u32,
}

#[derive(Clone, Copy, Debug, Default, PartialEq, Eq)]
#[repr(C)]
pub struct Stretch {
    pub reading: Reading,
    pub refusal: u32,
    pub line: usize,
    pub from: u64,
    pub to: u64,
    pub kind: u32,
    pub number: u32,
}

// A call to a line, as `tests/layout` reads them.
#[rustfmt::skip]
extern "C" {
    fn desk_open(list: *const u32, length: usize, start: u64, charge: u32) -> Answer;
    fn desk_open_shared(list: *const u32, length: usize, start: u64, charge: u32, p: u32, q: u32) -> Answer;
    fn desk_ask(desk: Desk, number: u32, work: u32, lead: u32) -> Answer;
    fn desk_ask_mesh(desk: Desk, head: *const u8, lent: usize, size: u64, number: u32, lead: u32) -> Answer;
    fn desk_ask_undated(desk: Desk, number: u32, work: u32) -> Answer;
    fn desk_why(desk: Desk, number: u32, work: u32, lead: u32) -> Reason;
    fn desk_step(desk: Desk) -> Stepped;
    fn desk_end(desk: Desk, number: u32) -> Answer;
    fn desk_rest(desk: Desk, position: u32) -> Answer;
    fn desk_list(desk: Desk, buffer: *mut u64, length: usize) -> Listed;
    fn desk_label(desk: Desk, jobs: *const u8, jobs_length: usize, feeds: *const u8, feeds_length: usize) -> Label;
    fn desk_wave_begin(desk: Desk) -> Begun;
    fn desk_wave(desk: Desk, cursor: Cursor, steps: u32, buffer: *mut u8, length: usize) -> Waved;
    fn desk_wave_close(cursor: Cursor, buffer: *mut u8, length: usize) -> Closed;
    fn desk_wave_read(text: *const u8, length: usize) -> Read;
    fn desk_wave_stretch(text: *const u8, length: usize, reading: Reading) -> Stretch;
}

// Why each call below is safe: the library takes any state, cursor and reading and any numbers, each place handed over is
// that of a slice of the length handed over, and the library keeps none of them.
impl Desk {
    pub fn open(list: &[u32], start: u64, charge: u32) -> Answer {
        unsafe { desk_open(list.as_ptr(), list.len(), start, charge) }
    }

    pub fn open_shared(list: &[u32], start: u64, charge: u32, p: u32, q: u32) -> Answer {
        unsafe { desk_open_shared(list.as_ptr(), list.len(), start, charge, p, q) }
    }

    pub fn ask(self, number: u32, work: u32, lead: u32) -> Answer {
        unsafe { desk_ask(self, number, work, lead) }
    }

    pub fn ask_mesh(self, head: &[u8], size: u64, number: u32, lead: u32) -> Answer {
        unsafe { desk_ask_mesh(self, head.as_ptr(), head.len(), size, number, lead) }
    }

    pub fn ask_undated(self, number: u32, work: u32) -> Answer {
        unsafe { desk_ask_undated(self, number, work) }
    }

    pub fn why(self, number: u32, work: u32, lead: u32) -> Reason {
        unsafe { desk_why(self, number, work, lead) }
    }

    pub fn step(self) -> Stepped {
        unsafe { desk_step(self) }
    }

    pub fn end(self, number: u32) -> Answer {
        unsafe { desk_end(self, number) }
    }

    pub fn rest(self, position: u32) -> Answer {
        unsafe { desk_rest(self, position) }
    }

    pub fn list(self, buffer: &mut [u64]) -> Listed {
        unsafe { desk_list(self, buffer.as_mut_ptr(), buffer.len()) }
    }

    /// Where the label stands.
    pub fn place(self, jobs: &[u8], feeds: &[u8]) -> Label {
        unsafe { desk_label(self, jobs.as_ptr(), jobs.len(), feeds.as_ptr(), feeds.len()) }
    }

    /// The label's own place in whichever list holds the runner.
    pub fn label<'a>(self, jobs: &'a [u8], feeds: &'a [u8]) -> &'a [u8] {
        let place = self.place(jobs, feeds);
        let list = if place.list == JOB_LABELS {
            jobs
        } else {
            feeds
        };
        &list[place.from..place.from + place.length]
    }

    pub fn wave_begin(self) -> Begun {
        unsafe { desk_wave_begin(self) }
    }

    pub fn wave(self, cursor: Cursor, steps: u32, buffer: &mut [u8]) -> Waved {
        unsafe { desk_wave(self, cursor, steps, buffer.as_mut_ptr(), buffer.len()) }
    }
}

impl Cursor {
    pub fn wave_close(self, buffer: &mut [u8]) -> Closed {
        unsafe { desk_wave_close(self, buffer.as_mut_ptr(), buffer.len()) }
    }
}

pub fn wave_read(text: &[u8]) -> Read {
    unsafe { desk_wave_read(text.as_ptr(), text.len()) }
}

impl Reading {
    pub fn wave_stretch(self, text: &[u8]) -> Stretch {
        unsafe { desk_wave_stretch(text.as_ptr(), text.len(), self) }
    }
}
