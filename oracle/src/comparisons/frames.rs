//! What a program under test reads and writes: a frame for each question, and
//! a line for each frame. A frame is its length in four bytes and its content;
//! its first byte is the operation's number. README.md has the table.

use std::io::{self, BufRead, BufReader, Read, Write};
use std::process::{Command, Stdio};
use std::thread;

/// The operations that a frame asks for.
#[derive(Clone, Copy, Debug, PartialEq, Eq)]
pub enum Operation {
    Reading = 0,
    Blocks = 1,
    Evaluation = 2,
    Nodes = 3,
    Sentences = 4,
}

/// The content of a frame.
#[derive(Debug, PartialEq, Eq)]
pub enum Question {
    Reading(Vec<u8>),
    Blocks(Vec<u8>),
    Evaluation { sheet: Vec<u8>, node: u32, sets: Vec<Vec<u64>> },
    Nodes(Vec<u8>),
    Sentences(Vec<u8>),
}

fn put(out: &mut Vec<u8>, operation: Operation, parts: &[&[u8]]) {
    let length: usize = parts.iter().map(|part| part.len()).sum();
    out.extend_from_slice(&(1 + length as u32).to_le_bytes());
    out.push(operation as u8);
    parts.iter().for_each(|part| out.extend_from_slice(part));
}

/// Appends the question what reading a sheet answers.
pub fn ask_reading(out: &mut Vec<u8>, sheet: &[u8]) {
    put(out, Operation::Reading, &[sheet]);
}

/// Appends the question for the verdicts on all of a sheet's blocks.
pub fn ask_blocks(out: &mut Vec<u8>, sheet: &[u8]) {
    put(out, Operation::Blocks, &[sheet]);
}

/// Appends the question for the verdicts on all of a sheet's nodes.
pub fn ask_nodes(out: &mut Vec<u8>, sheet: &[u8]) {
    put(out, Operation::Nodes, &[sheet]);
}

/// Appends the question for the sentences of all of a sheet's blocks.
pub fn ask_sentences(out: &mut Vec<u8>, sheet: &[u8]) {
    put(out, Operation::Sentences, &[sheet]);
}

/// Appends the question for a node's evaluation on each set of values. All sets
/// have as many values.
pub fn ask_evaluation(out: &mut Vec<u8>, sheet: &[u8], node: u32, sets: &[&[u64]]) {
    let each = sets.first().map_or(0, |set| set.len());
    assert!(sets.iter().all(|set| set.len() == each), "sets of one length");
    let head: Vec<u8> = [node, each as u32, sets.len() as u32, sheet.len() as u32]
        .iter()
        .flat_map(|number| number.to_le_bytes())
        .collect();
    let values: Vec<u8> = sets.concat().iter().flat_map(|value| short(*value)).collect();
    put(out, Operation::Evaluation, &[&head, sheet, &values]);
}

/// A value as its number of bytes and those bytes, none of the highest being 0.
fn short(value: u64) -> Vec<u8> {
    let bytes = 8 - value.leading_zeros() as usize / 8;
    [&[bytes as u8], &value.to_le_bytes()[..bytes]].concat()
}

/// The bytes of a frame that are still to be read.
struct Rest<'a>(&'a [u8]);

impl Rest<'_> {
    fn take(&mut self, count: usize) -> io::Result<&[u8]> {
        if self.0.len() < count {
            return Err(io::Error::other("a frame is cut"));
        }
        let (taken, rest) = self.0.split_at(count);
        self.0 = rest;
        Ok(taken)
    }

    fn number(&mut self, bytes: usize) -> io::Result<u64> {
        Ok(self.take(bytes)?.iter().rev().fold(0, |number, byte| number << 8 | u64::from(*byte)))
    }

    fn value(&mut self) -> io::Result<u64> {
        match self.number(1)? {
            bytes @ 0..=8 => self.number(bytes as usize),
            _ => Err(io::Error::other("a value has more than 8 bytes")),
        }
    }
}

fn question(frame: &[u8]) -> io::Result<Question> {
    let mut rest = Rest(frame);
    match rest.number(1)? {
        0 => Ok(Question::Reading(rest.0.to_vec())),
        1 => Ok(Question::Blocks(rest.0.to_vec())),
        2 => {
            let node = rest.number(4)? as u32;
            let each = rest.number(4)?;
            let count = rest.number(4)?;
            let length = rest.number(4)? as usize;
            let sheet = rest.take(length)?.to_vec();
            let mut set = || (0..each).map(|_| rest.value()).collect::<io::Result<Vec<u64>>>();
            let sets = (0..count).map(|_| set()).collect::<io::Result<_>>()?;
            Ok(Question::Evaluation { sheet, node, sets })
        }
        3 => Ok(Question::Nodes(rest.0.to_vec())),
        4 => Ok(Question::Sentences(rest.0.to_vec())),
        _ => Err(io::Error::other("a frame names no operation")),
    }
}

/// Answers frames, a line for each, until the input ends.
pub fn serve(
    input: &mut impl Read,
    output: &mut impl Write,
    line: impl Fn(&Question) -> io::Result<String>,
) -> io::Result<()> {
    loop {
        let mut length = [0; 4];
        match input.read_exact(&mut length) {
            Err(error) if error.kind() == io::ErrorKind::UnexpectedEof => return output.flush(),
            other => other?,
        }
        let mut frame = vec![0; u32::from_le_bytes(length) as usize];
        input.read_exact(&mut frame)?;
        writeln!(output, "{}", line(&question(&frame)?)?)?;
    }
}

/// What a program writes last that ends before it has answered all frames.
pub const ENDED_EARLY: &str = "ended too early";

/// Runs the program on frames and gives its lines. The input is written from a
/// thread of its own, so that neither side waits for ever.
pub fn run(program: &[String], input: Vec<u8>) -> io::Result<Vec<String>> {
    let mut child = Command::new(&program[0])
        .args(&program[1..])
        .stdin(Stdio::piped())
        .stdout(Stdio::piped())
        .spawn()?;
    let mut stdin = child.stdin.take().expect("the input is a pipe");
    let feeder = thread::spawn(move || stdin.write_all(&input));
    let stdout = child.stdout.take().expect("the output is a pipe");
    let lines = BufReader::new(stdout).lines().collect::<io::Result<Vec<String>>>()?;
    let fed = feeder.join().expect("the feeding thread does not panic");
    let status = child.wait()?;
    if !status.success() {
        return Err(io::Error::other(format!("the program ended with {status}")));
    }
    if lines.last().is_some_and(|line| line.ends_with(ENDED_EARLY)) {
        return Err(io::Error::other("the program ended too early"));
    }
    if let Err(error) = fed {
        eprintln!("the program did not take all input: {error}");
    }
    Ok(lines)
}
