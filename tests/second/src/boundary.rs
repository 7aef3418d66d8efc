//! The C boundary: its shapes, and its calls, whoever answers them.

#[path = "../../../include/desk.rs"]
mod desk;

pub use desk::{
    Answer, Begun, Closed, Cursor, Desk, Feed, Job, Label, Listed, Read, Reading, Reason, Share,
    Stepped, Stretch, Waved,
};

/// The calls, whoever answers them.
pub trait Library {
    fn open(&self, list: &[u32], start: u64, charge: u32) -> Answer;
    fn open_shared(&self, list: &[u32], start: u64, charge: u32, share: Share) -> Answer;
    fn ask(&self, desk: Desk, number: u32, work: u32, lead: u32) -> Answer;
    fn ask_mesh(&self, desk: Desk, head: &[u8], size: u64, number: u32, lead: u32) -> Answer;
    fn ask_undated(&self, desk: Desk, number: u32, work: u32) -> Answer;
    fn why(&self, desk: Desk, number: u32, work: u32, lead: u32) -> Reason;
    fn step(&self, desk: Desk) -> Stepped;
    fn end(&self, desk: Desk, number: u32) -> Answer;
    fn rest(&self, desk: Desk, position: u32) -> Answer;
    fn list(&self, desk: Desk, buffer: &mut [u64]) -> Listed;
    fn label(&self, desk: Desk, jobs: &[u8], feeds: &[u8]) -> Label;
    fn wave_begin(&self, desk: Desk) -> Begun;
    fn wave(&self, desk: Desk, cursor: Cursor, steps: u32, buffer: &mut [u8]) -> Waved;
    fn wave_close(&self, cursor: Cursor, buffer: &mut [u8]) -> Closed;
    fn wave_read(&self, text: &[u8]) -> Read;
    fn wave_stretch(&self, text: &[u8], reading: Reading) -> Stretch;
}

/// The real library, linked.
#[cfg(feature = "calls")]
pub struct Linked;

#[cfg(feature = "calls")]
impl Library for Linked {
    fn open(&self, list: &[u32], start: u64, charge: u32) -> Answer {
        Desk::open(list, start, charge)
    }
    fn open_shared(&self, list: &[u32], start: u64, charge: u32, share: Share) -> Answer {
        Desk::open_shared(list, start, charge, share.p, share.q)
    }
    fn ask(&self, desk: Desk, number: u32, work: u32, lead: u32) -> Answer {
        desk.ask(number, work, lead)
    }
    fn ask_mesh(&self, desk: Desk, head: &[u8], size: u64, number: u32, lead: u32) -> Answer {
        desk.ask_mesh(head, size, number, lead)
    }
    fn ask_undated(&self, desk: Desk, number: u32, work: u32) -> Answer {
        desk.ask_undated(number, work)
    }
    fn why(&self, desk: Desk, number: u32, work: u32, lead: u32) -> Reason {
        desk.why(number, work, lead)
    }
    fn step(&self, desk: Desk) -> Stepped {
        desk.step()
    }
    fn end(&self, desk: Desk, number: u32) -> Answer {
        desk.end(number)
    }
    fn rest(&self, desk: Desk, position: u32) -> Answer {
        desk.rest(position)
    }
    fn list(&self, desk: Desk, buffer: &mut [u64]) -> Listed {
        desk.list(buffer)
    }
    fn label(&self, desk: Desk, jobs: &[u8], feeds: &[u8]) -> Label {
        desk.place(jobs, feeds)
    }
    fn wave_begin(&self, desk: Desk) -> Begun {
        desk.wave_begin()
    }
    fn wave(&self, desk: Desk, cursor: Cursor, steps: u32, buffer: &mut [u8]) -> Waved {
        desk.wave(cursor, steps, buffer)
    }
    fn wave_close(&self, cursor: Cursor, buffer: &mut [u8]) -> Closed {
        cursor.wave_close(buffer)
    }
    fn wave_read(&self, text: &[u8]) -> Read {
        desk::wave_read(text)
    }
    fn wave_stretch(&self, text: &[u8], reading: Reading) -> Stretch {
        reading.wave_stretch(text)
    }
}
