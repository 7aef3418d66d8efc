//! Random scripts beside the real program, compared byte for byte.

use crate::{fault, invent, judge, script, texts, wave, workers};
use std::fs;
use std::io::{self, Read, Write};
use std::path::Path;
use std::process::{Child, ChildStdin, Command, Stdio};
use std::thread;

fn own_answer(input: &[u8]) -> Vec<u8> {
    let mut answer = Vec::new();
    script::rehearse(input, &mut answer).expect("writing to memory");
    answer
}

/// Scripts and this program's answers as files, to be looked at or kept.
pub fn write_scripts(seed: u64, count: u64, dir: &str) -> io::Result<()> {
    fs::create_dir_all(dir)?;
    for item in 0..count {
        let input = invent::script(seed, item);
        let place = Path::new(dir).join(format!("{seed}-{item}"));
        fs::write(place.with_extension("txt"), &input)?;
        fs::write(place.with_extension("answer"), own_answer(&input))?;
    }
    println!("seed {seed}: {count} scripts written");
    Ok(())
}

fn start(program: &str) -> io::Result<Child> {
    Command::new(program)
        .stdin(Stdio::piped())
        .stdout(Stdio::piped())
        .spawn()
}

/// The program may stop reading early, at a bad line or when the input is too
/// long, so a failed write is no fault.
fn feed(mut stdin: ChildStdin, input: &[u8]) {
    let _ = stdin.write_all(input);
}

/// What the program prints. Its exit status is its own affair, as the document
/// says nothing of it; but one that a signal ended is told by a last line that no
/// answer has.
fn their_answer(program: &str, input: &[u8]) -> io::Result<Vec<u8>> {
    let mut child = start(program)?;
    let stdin = child.stdin.take().expect("piped");
    let output = thread::scope(|scope| {
        scope.spawn(|| feed(stdin, input));
        child.wait_with_output()
    })?;
    let mut answer = output.stdout;
    if output.status.code().is_none() {
        answer.extend(format!("(ended by a signal: {})\n", output.status).bytes());
    }
    Ok(answer)
}

/// What a program is given, and what it should answer.
struct Inputs {
    fixed: Vec<Vec<u8>>,
    random: fn(u64, u64) -> Vec<u8>,
    own: fn(&[u8]) -> Vec<u8>,
}

/// Whether all scripts got the same answer, first the fixed ones.
pub fn scripts(program: &str, seed: u64, count: u64) -> io::Result<bool> {
    let inputs = Inputs {
        fixed: invent::fixed(),
        random: invent::script,
        own: own_answer,
    };
    inputs.beside(program, seed, count)
}

/// The same of the scripts' waveforms.
pub fn waves(program: &str, seed: u64, count: u64) -> io::Result<bool> {
    let inputs = Inputs {
        fixed: invent::fixed(),
        random: invent::script,
        own: wave::of_script,
    };
    inputs.beside(program, seed, count)
}

/// And of texts that are waveforms, or nearly.
pub fn dumps(program: &str, seed: u64, count: u64) -> io::Result<bool> {
    let inputs = Inputs {
        fixed: texts::fixed(),
        random: texts::dump,
        own: judge::told,
    };
    inputs.beside(program, seed, count)
}

impl Inputs {
    /// The one of this place, the fixed ones first, and its name.
    fn input(&self, seed: u64, place: usize) -> (String, Vec<u8>) {
        match self.fixed.get(place) {
            Some(input) => (format!("fixed script {place}"), input.clone()),
            None => {
                let item = (place - self.fixed.len()) as u64;
                let name = format!("seed {seed}, script {item}");
                (name, (self.random)(seed, item))
            }
        }
    }

    fn beside(&self, program: &str, seed: u64, count: u64) -> io::Result<bool> {
        let all = self.fixed.len() + count as usize;
        let compared = workers::each(all, |place| {
            let (name, input) = self.input(seed, place);
            match compare(program, self.own, &name, &input) {
                Ok(lines) => lines.ok_or(None),
                Err(error) => Err(Some(error)),
            }
        });
        report(self.fixed.len(), seed, count, compared)
    }
}

fn report(
    fixed: usize,
    seed: u64,
    count: u64,
    compared: Result<Vec<usize>, Option<io::Error>>,
) -> io::Result<bool> {
    let lines: usize = match compared {
        Ok(lines) => lines.iter().sum(),
        Err(None) => return Ok(false),
        Err(Some(error)) => return Err(error),
    };
    println!(
        "{fixed} fixed scripts and {count} of seed {seed} compared, {lines} lines of answers, no difference"
    );
    Ok(true)
}

/// The lines of the answer, if both give the same.
fn compare(
    program: &str,
    own: fn(&[u8]) -> Vec<u8>,
    name: &str,
    input: &[u8],
) -> io::Result<Option<usize>> {
    let ours = own(input);
    let theirs = their_answer(program, input)?;
    if ours != theirs {
        show(name, input, &ours, &theirs);
        return Ok(None);
    }
    Ok(Some(ours.iter().filter(|&&byte| byte == b'\n').count()))
}

fn show(name: &str, input: &[u8], ours: &[u8], theirs: &[u8]) {
    println!("difference: {name}");
    println!(
        "--- script ({} bytes)\n{}",
        input.len(),
        input.escape_ascii_lines()
    );
    println!("--- this program\n{}", ours.escape_ascii_lines());
    println!("--- the other program\n{}", theirs.escape_ascii_lines());
    let mut pairs = (1..).zip(
        ours.split(|&b| b == b'\n')
            .zip(theirs.split(|&b| b == b'\n')),
    );
    if let Some((k, (our, their))) = pairs.find(|(_, (our, their))| our != their) {
        let (our, their) = (our.escape_ascii_lines(), their.escape_ascii_lines());
        println!("--- first at line {k} of the answer: {our:?}, the other {their:?}");
    }
}

/// Bytes as text that can be read, strange ones escaped.
trait EscapeLines {
    fn escape_ascii_lines(&self) -> String;
}

impl EscapeLines for [u8] {
    fn escape_ascii_lines(&self) -> String {
        let lines: Vec<String> = self
            .split(|&byte| byte == b'\n')
            .map(|line| line.escape_ascii().to_string())
            .collect();
        lines.join("\n")
    }
}

/// A writer that expects to find what it is given in the other's stream.
struct Expecting<R> {
    theirs: R,
    same: u64,
    found: Vec<u8>,
}

impl<R: Read> Write for Expecting<R> {
    fn write(&mut self, ours: &[u8]) -> io::Result<usize> {
        self.found.resize(ours.len(), 0);
        self.theirs.read_exact(&mut self.found)?;
        if self.found != ours {
            let after = format!(
                "difference within {} bytes after byte {}",
                ours.len(),
                self.same
            );
            return Err(fault(after));
        }
        self.same += ours.len() as u64;
        Ok(ours.len())
    }

    fn flush(&mut self) -> io::Result<()> {
        Ok(())
    }
}

/// The longest answer there is: an input full of `run 4096`, compared as it
/// streams, so that neither side need hold it.
pub fn flood(program: &str) -> io::Result<bool> {
    let input = invent::flood();
    let mut child = start(program)?;
    let stdin = child.stdin.take().expect("piped");
    let stdout = child.stdout.take().expect("piped");
    let same = thread::scope(|scope| {
        scope.spawn(|| feed(stdin, &input));
        let expecting = Expecting {
            theirs: stdout,
            same: 0,
            found: Vec::new(),
        };
        let mut out = io::BufWriter::with_capacity(1 << 16, expecting);
        script::rehearse(&input, &mut out)?;
        let mut expecting = out.into_inner().map_err(|error| error.into_error())?;
        if expecting.theirs.read(&mut [0])? != 0 {
            return Err(fault("the other program says more"));
        }
        Ok(expecting.same)
    });
    child.wait()?;
    match same {
        Ok(bytes) => {
            println!(
                "flood: {} bytes of script, {bytes} bytes of answers, no difference",
                input.len()
            );
            Ok(true)
        }
        Err(error) => {
            println!("flood: {error}");
            Ok(false)
        }
    }
}
