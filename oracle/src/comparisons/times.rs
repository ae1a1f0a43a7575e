//! Processor time of a test program on heavy sheets: reading by the byte, one
//! block verdict, one evaluation.

use crate::cases::any_sheet::{Generator, Size};
use crate::comparisons::frames::{ask_blocks, ask_evaluation, ask_reading, ENDED_EARLY};
use crate::judges::reader::read;
use crate::sheets::encode::encode;
use crate::sheets::syntax::*;
use std::fs;
use std::hint::black_box;
use std::io::{self, Read, Write};
use std::process::{Command, Stdio};
use std::thread;
use std::time::{Duration, Instant};

/// Bytes that the full sheet has at most.
const MOST_BYTES: usize = 1_000_000;

/// 2,048 instructions, 1,024 blocks and 1,024 nodes, as large as fits.
fn full() -> Sheet {
    let mut generator = Generator::new(1, 0, 0);
    let instructions = generator.instructions(2048);
    let blocks = (0..1024).map(|_| generator.block(&instructions)).collect();
    let mut sheet = Sheet { instructions, blocks, nodes: Vec::new() };
    let room = (MOST_BYTES - encode(&sheet).bytes.len()) / 1024;
    let size = Size { instructions: 0, blocks: 0, nodes: 0, statements: 40, depth: 5 };
    while sheet.nodes.len() < 1024 {
        let node = generator.node(size, &sheet.instructions);
        let length = node_length(&node);
        if length <= room && length * 4 >= room * 3 {
            sheet.nodes.push(node);
        }
    }
    sheet
}

fn node_length(node: &Node) -> usize {
    encode(&Sheet { nodes: vec![node.clone()], ..Default::default() }).bytes.len() - 6
}

/// 1,024 nodes of 64 0-statements each.
pub fn statements() -> Sheet {
    let statements = vec![Statement::Other; 64];
    let node = Node { statements, condition: vec![Record::True], ..Default::default() };
    Sheet { nodes: vec![node; 1024], ..Default::default() }
}

/// 2,048 instructions are announced, and the first one's map is outside its
/// table.
fn refused() -> Vec<u8> {
    let mut bytes = vec![0; 12];
    bytes[1] = 8;
    bytes[2] = 64;
    bytes
}

/// The sheets on which reading is timed, each with its name.
fn sheets() -> Vec<(&'static str, Vec<u8>)> {
    let whole = full();
    let instructions = Sheet { nodes: Vec::new(), ..whole.clone() };
    let nodes = Sheet { nodes: whole.nodes.clone(), ..Default::default() };
    vec![
        ("full sheet", encode(&whole).bytes),
        ("instructions and blocks alone", encode(&instructions).bytes),
        ("nodes alone", encode(&nodes).bytes),
        ("0-statements", encode(&statements()).bytes),
        ("refused at byte 2", refused()),
    ]
}

/// Nanoseconds a sheet of the independent reader, the best of several rounds.
fn reader_time(sheet: &[u8]) -> f64 {
    let round = || {
        let start = Instant::now();
        let _ = black_box(read(black_box(sheet)));
        start.elapsed().as_nanos() as f64
    };
    (0..50).map(|_| round()).fold(f64::INFINITY, f64::min)
}

/// Seconds of processor time that a process took.
pub struct Times {
    /// In its own code.
    pub own: f64,
    /// In the system, for reading its input and writing its answers.
    pub system: f64,
}

/// Whether a process has ended, and its times, from its `stat` line: the fields
/// behind its name, from `state` on, times in hundredths of a second.
fn times(stat: &str) -> Option<(bool, Times)> {
    let fields: Vec<&str> = stat.rsplit_once(')')?.1.split_whitespace().collect();
    let time = |at: usize| Some(fields.get(at)?.parse::<u32>().ok()? as f64 / 100.0);
    Some((fields.first() == Some(&"Z"), Times { own: time(11)?, system: time(12)? }))
}

/// Seconds of processor time that a program takes for an input.
fn processor_time(program: &[String], input: Vec<u8>) -> io::Result<f64> {
    processor_times(program, input).map(|times| times.own + times.system)
}

/// The same, in its own code and in the system. They are read between the
/// process's end and the wait for it.
pub fn processor_times(program: &[String], input: Vec<u8>) -> io::Result<Times> {
    let mut command = Command::new(&program[0]);
    let mut child =
        command.args(&program[1..]).stdin(Stdio::piped()).stdout(Stdio::piped()).spawn()?;
    let mut stdin = child.stdin.take().expect("the input is a pipe");
    let feeder = thread::spawn(move || stdin.write_all(&input));
    let mut stdout = child.stdout.take().expect("the output is a pipe");
    let mut written = Vec::new();
    stdout.read_to_end(&mut written)?;
    feeder.join().expect("the feeding thread does not panic")?;
    let place = format!("/proc/{}/stat", child.id());
    let time = loop {
        match times(&fs::read_to_string(&place)?) {
            Some((true, time)) => break time,
            Some((false, _)) => thread::sleep(Duration::from_millis(1)),
            None => return Err(io::Error::other("the process's times cannot be read")),
        }
    };
    let status = child.wait()?;
    if !status.success() {
        return Err(io::Error::other(format!("the program ended with {status}")));
    }
    if written.trim_ascii_end().ends_with(ENDED_EARLY.as_bytes()) {
        return Err(io::Error::other("the program ended too early"));
    }
    Ok(time)
}

/// Nanoseconds a question: many of them, less one.
fn each(program: &[String], count: usize, ask: impl Fn(&mut Vec<u8>, usize)) -> io::Result<f64> {
    let timed = |count: usize| {
        let mut input = Vec::new();
        ask(&mut input, count);
        processor_time(program, input)
    };
    Ok((timed(1 + count)? - timed(1)?) * 1e9 / count as f64)
}

fn reading(program: Option<&[String]>) -> io::Result<()> {
    for (name, sheet) in sheets() {
        let bytes = sheet.len() as f64;
        let own = reader_time(&sheet);
        print!("{name}, {bytes} bytes: independent reader {:.2} ns a byte", own / bytes);
        if let Some(program) = program {
            let copies = (30_000_000 / sheet.len()).min(10_000);
            let ask = |input: &mut Vec<u8>, count| {
                (0..count).for_each(|_| ask_reading(input, &sheet));
            };
            let time = each(program, copies, ask)?;
            print!(", program {:.2} ns a byte ({:.1} microseconds)", time / bytes, time / 1e3);
        }
        println!();
    }
    Ok(())
}

/// Block verdicts and evaluations, each with all of the reading that it does.
fn answers(program: &[String]) -> io::Result<()> {
    let whole = full();
    let blocks = |count: usize| {
        let chosen = whole.blocks[..count].to_vec();
        encode(&Sheet { blocks: chosen, ..whole.clone() }).bytes
    };
    let time = each(program, 32, |input, count| ask_blocks(input, &blocks(count)))?;
    println!("one block verdict on the full sheet: {:.2} ms", time / 1e6);
    let sheet = encode(&whole).bytes;
    for node in [0, whole.nodes.len() as u32 - 1] {
        let ask = |input: &mut Vec<u8>, count: usize| {
            ask_evaluation(input, &sheet, node, &vec![[].as_slice(); count]);
        };
        println!("one evaluation, of its node {node}: {:.2} ms", each(program, 32, ask)? / 1e6);
    }
    Ok(())
}

pub fn bench(program: Option<&[String]>, save: Option<&str>) -> io::Result<()> {
    if let Some(path) = save {
        fs::write(path, encode(&full()).bytes)?;
    }
    reading(program)?;
    program.map_or(Ok(()), answers)
}
