//! A desk from Rust: the same calls as the example in C, with the same output.

#[path = "../../include/desk.rs"]
mod desk;

use desk::{Answer, Desk, Reading, Reason};

/// Two printers: one wants 1 tick in 4, one 2 in 6, each layer by the time that the next one comes.
const BY_THE_NEXT: [u32; 2 * desk::NUMBERS_A_FEED] = [4, 1, 0, 4, 6, 2, 0, 6];

/// The same two, where a layer is due 1 tick after it came, and 3.
const SOON: [u32; 2 * desk::NUMBERS_A_FEED] = [4, 1, 0, 1, 6, 2, 0, 3];

fn opened(feeds: &[u32], charge: u32) -> Desk {
    let answer = Desk::open(feeds, 0, charge);
    println!("open at charge {charge}: {}", answer.refusal);
    answer.desk
}

fn told(number: u32, answer: Answer) -> Desk {
    match answer.refusal {
        desk::YES => println!("job {number}: yes"),
        refusal => println!("job {number}: no {refusal}"),
    }
    answer.desk
}

fn asked(desk: Desk, number: u32, work: u32, lead: u32) -> Desk {
    told(number, desk.ask(number, work, lead))
}

fn asked_why(desk: Desk, number: u32, work: u32, lead: u32) {
    let Reason { refusal, at, jobs, feeds, job, margin } = desk.why(number, work, lead);
    match refusal {
        desk::YES => println!("why job {number}: yes, margin {margin} at {at}"),
        _ => println!(
            "why job {number}: no {refusal}, by {at} jobs owe {jobs}, feeds {feeds}, it {job}: margin {margin}"
        ),
    }
}

/// The front of a file of 12,345 triangles, behind an empty header.
fn asked_with_mesh(desk: Desk, size: u64, number: u32, lead: u32) -> Desk {
    let mut head = [0; desk::BYTES_OF_FRONT];
    head[80..].copy_from_slice(&12_345u32.to_le_bytes());
    told(number, desk.ask_mesh(&head, size, number, lead))
}

fn asked_undated(desk: Desk, number: u32, work: u32) -> Desk {
    told(number, desk.ask_undated(number, work))
}

fn stepped(desk: Desk) -> Desk {
    let step = desk.step();
    let (number, owes) = (step.number, step.owes);
    match (step.refusal, step.kind) {
        (desk::YES, desk::IDLE) => println!("tick {}: idle", desk.clock),
        (desk::YES, desk::JOB) => println!("tick {}: job {number}, owes {owes}", desk.clock),
        (desk::YES, _) => println!("tick {}: feed {number}, owes {owes}", desk.clock),
        (refusal, _) => println!("no step: {refusal}"),
    }
    step.desk
}

fn listed(desk: Desk) {
    let mut buffer = [0; desk::NUMBERS_A_JOB * desk::MOST_JOBS];
    let list = desk.list(&mut buffer);
    for job in buffer.chunks(desk::NUMBERS_A_JOB).take(list.count as usize) {
        println!("live: job {} owes {} by {}, figure {}", job[0], job[1], job[2], job[3]);
    }
}

fn labelled(desk: Desk) {
    let label = desk.label(b"\0\0\0\x01pelvis  \0\0\0\x07skull   ", b"printer1printer2");
    println!("next: \"{}\"", String::from_utf8_lossy(label));
}

/// In the smallest parts that always get on: each has one whole line or more, the last has none.
fn waved(mut desk: Desk, mut steps: u32) -> Vec<u8> {
    let mut text = Vec::new();
    let mut part = [0; desk::BYTES_A_LINE];
    let mut cursor = desk.wave_begin().cursor;
    loop {
        let wave = desk.wave(cursor, steps, &mut part);
        text.extend(&part[..wave.bytes]);
        (desk, cursor, steps) = (wave.desk, wave.cursor, steps - wave.steps);
        if wave.bytes == 0 {
            break;
        }
    }
    loop {
        let closed = cursor.wave_close(&mut part);
        text.extend(&part[..closed.bytes]);
        cursor = closed.cursor;
        if closed.bytes == 0 {
            return text;
        }
    }
}

fn read_back(text: &[u8]) {
    let read = desk::wave_read(text);
    if read.refusal != desk::YES {
        println!("no waveform: {}, line {}", read.refusal, read.line);
        return;
    }
    println!("waveform from {} to {}, {} stretches", read.start, read.end, read.stretches);
    let mut reading = Reading::default();
    for _ in 0..read.stretches {
        let stretch = reading.wave_stretch(text);
        let kind = ["idle", "job", "feed"][stretch.kind as usize];
        println!("ticks {} to {}: {kind} {}", stretch.from, stretch.to, stretch.number);
        reading = stretch.reading;
    }
}

fn main() {
    let mut desk = opened(&BY_THE_NEXT, 0);
    desk = asked(desk, 1, 3, 6);
    desk = asked(desk, 2, 1, 6);
    asked_why(desk, 2, 1, 6);
    asked_why(desk, 7, 1, 12);
    desk = asked(desk, 7, 1, 12);
    listed(desk);
    labelled(desk);
    for _ in 0..4 {
        desk = stepped(desk);
    }
    labelled(desk);
    let rested = desk.rest(2);
    println!("rest feed 2: {}", rested.refusal);
    desk = asked(rested.desk, 2, 1, 6);
    let ended = desk.end(7);
    println!("end job 7: {}", ended.refusal);
    desk = ended.desk;
    listed(desk);
    for _ in 0..4 {
        desk = stepped(desk);
    }
    desk = asked_with_mesh(desk, 617_284, 3, 40); // its last triangle is missing
    desk = asked_with_mesh(desk, 617_334, 3, 40);
    desk = asked(desk, 4, 2, 40); // due together with job 3: both show what the two of them owe
    listed(desk);
    desk.clock += 1_000_000;
    desk.table.count = desk::MOST_JOBS + 1;
    stepped(desk);
    asked_why(opened(&BY_THE_NEXT, 1), 1, 3, 6); // each piece and the job owe 1 more: what fitted does not
    opened(&BY_THE_NEXT, desk::HIGHEST_CHARGE as u32 + 1);
    asked_why(opened(&SOON, 0), 1, 3, 6); // the first one's second layer is due by then too: what fitted does not
    asked_undated(opened(&BY_THE_NEXT, 0), 1, 3); // an opening that carries no share
    let shared = Desk::open_shared(&BY_THE_NEXT, 0, 0, 5, 12); // all that the two printers leave
    println!("open with share 5/12: {}", shared.refusal);
    desk = asked_undated(shared.desk, 1, 3);
    desk = asked_undated(desk, 2, 2); // its time begins where that of job 1 ends
    listed(desk);
    let text = waved(asked(opened(&BY_THE_NEXT, 0), 1, 3, 6), 6);
    print!("{}", String::from_utf8_lossy(&text));
    read_back(&text);
    read_back(&text[..text.len() - 1]); // the newline of its last line is missing
}
