//! Fuzzing of the product's C exports against the given source, guided by the
//! coverage of the independent reader, the given source and what stands around
//! them. A sheet that reaches something new, or reaches it another number of
//! times, is kept and changed further.

mod changes;
mod coverage;

use crate::engine::{self, Judged, Nodes};
use crate::guard;
use crate::product::{self, Answer, Product};
use changes::Kept;
use coverage::Coverage;
use oracle::answers;
use oracle::cases::random::Random;
use oracle::cases::{block_sheet, damaged_sheet};
use oracle::comparisons::blocks;
use oracle::judges::evaluator;
use oracle::judges::listing::{due, Due, LINE};
use oracle::judges::reader::{read, Refusal};
use oracle::sentences::Met;
use oracle::sheets::encode::encode;
use oracle::sheets::names::refusal;
use std::io;
use std::time::{Duration, Instant};

/// Sheets to begin with, half of them aimed at verdicts.
const FIRST: u64 = 200;

/// Longer sheets are not kept.
const LONGEST: usize = 6_000;

#[derive(Default)]
struct Tally {
    listings: u64,
    refused: u64,
    /// Records of accepted sheets that are about a branch.
    branches: u64,
    lines: u64,
    open: u64,
    evaluations: u64,
    sentence_calls: u64,
    met: Met,
}

impl Tally {
    fn print(&self) {
        let Tally { listings, refused, branches, lines, open, evaluations, .. } = self;
        println!("listings {listings}, of them refused {refused}; not judged {open}");
        println!("blocks that end in a branch, and nodes: {branches}; lines {lines}");
        println!("evaluations {evaluations}");
        println!("sentences {}, calls {}", self.met.sentences(), self.sentence_calls);
        println!("differences 0");
    }
}

/// Fuzzes for so many seconds; true if there was no difference.
pub fn run(seconds: u64, seed: u64) -> io::Result<bool> {
    guard::hush();
    let mut product = Product::new()?;
    let mut coverage = Coverage::new();
    let mut random = Random::new(seed, 0);
    let mut tally = Tally::default();
    let mut kept = Kept::default();
    let end = Instant::now() + Duration::from_secs(seconds);
    let mut index = 0;
    while Instant::now() < end {
        let sheet = match index {
            0..FIRST if index % 2 == 0 => block_sheet::sheet(seed, index, true),
            0..FIRST => damaged_sheet::sheet(seed, index),
            _ => changes::changed(&mut random, &kept),
        };
        index += 1;
        if sheet.len() > LONGEST {
            continue;
        }
        coverage.clear();
        let agreed = tried(&mut product, &mut random, &sheet, &mut tally);
        if let Err(difference) = agreed {
            println!("difference: {difference}\nsheet: {}", hexadecimal(&sheet));
            return Ok(false);
        }
        if coverage.is_new() {
            kept.keep(sheet);
        }
    }
    print(&tally, index, kept.count(), &coverage);
    Ok(true)
}

/// Listings and sentences of so many generated sheets; true if there was no
/// difference, and enough was met in the sentences.
pub fn listings(sheets: u64, seed: u64) -> io::Result<bool> {
    guard::hush();
    let mut product = Product::new()?;
    let mut tally = Tally::default();
    for index in 0..sheets {
        let mut random = Random::new(!seed, index);
        let sheet = whole_sheet(&mut random, seed, index);
        if let Err(difference) = tried(&mut product, &mut random, &sheet, &mut tally) {
            println!("difference at sheet {index}: {difference}\nsheet: {}", hexadecimal(&sheet));
            return Ok(false);
        }
    }
    let met = tally.met.print();
    tally.print();
    Ok(met)
}

/// Blocks around, across and beside each other, and nodes whose addresses are
/// those of some instructions, most of them branches, or none at all.
fn whole_sheet(random: &mut Random, seed: u64, index: u64) -> Vec<u8> {
    let bytes = blocks::sheet(seed, index, true);
    let Ok(accepted) = read(&bytes) else { return bytes };
    let mut sheet = accepted.sheet;
    let branches = sheet.instructions.iter().filter(|insn| insn.target.is_some());
    let branches: Vec<u64> = branches.map(|insn| insn.address).collect();
    let all: Vec<u64> = sheet.instructions.iter().map(|insn| insn.address).collect();
    for node in &mut sheet.nodes {
        let from = if random.once_in(4) || branches.is_empty() { &all } else { &branches };
        let count = random.below(4).min(from.len());
        node.addresses = (0..count).map(|_| random.pick(from)).collect();
        if random.once_in(10) {
            node.addresses.push(random.draw());
        }
    }
    encode(&sheet).bytes
}

fn print(tally: &Tally, sheets: u64, kept: usize, coverage: &Coverage) {
    if coverage.places() == 0 {
        println!("not guided: built without coverage");
    }
    println!("sheets {sheets}, kept {kept}");
    println!("places reached {} of {}", coverage.reached(), coverage.places());
    tally.print();
}

fn hexadecimal(bytes: &[u8]) -> String {
    bytes.iter().map(|byte| format!("{byte:02x}")).collect()
}

/// One sheet: a listing with a list of some length, the sentences of all blocks,
/// and evaluations.
fn tried(
    product: &mut Product,
    random: &mut Random,
    sheet: &[u8],
    tally: &mut Tally,
) -> Result<(), String> {
    let judged = engine::judged(sheet, Nodes::WithDifferences);
    same_sentences(product, random, sheet, &judged, tally)?;
    let Judged { blocks, nodes, .. } = judged.unwrap_or_default();
    let whole = match due(sheet, &blocks, &nodes, usize::MAX) {
        Due::Lines(lines) => lines.len(),
        _ => LINE,
    };
    let room = match random.below(4) {
        0 => whole.saturating_sub(1),
        1 => whole + random.below(40),
        2 => random.below(4 * LINE),
        _ => whole,
    };
    match due(sheet, &blocks, &nodes, room) {
        Due::Open => tally.open += 1,
        expected => {
            tally.listings += 1;
            tally.branches +=
                blocks.iter().filter(|answer| **answer != answers::Answer::NoBranch).count() as u64;
            tally.branches += nodes.len() as u64;
            match &expected {
                Due::Lines(lines) => tally.lines += (lines.len() / LINE) as u64,
                _ => tally.refused += 1,
            }
            same_listing(&product.listing(sheet, room), expected, room)?;
        }
    }
    if random.once_in(2) {
        let node = random.below(nodes.len() + 1) as u32;
        let values: Vec<u64> = (0..random.below(6)).map(|_| value(random)).collect();
        tally.evaluations += 1;
        let expected = evaluator::evaluation(sheet, node, &values);
        same_evaluation(product.evaluation(sheet, node, &values), expected)?;
    }
    Ok(())
}

/// Bytes behind a text that are not lent and have to stay.
const BEHIND: usize = 16;

/// The sentence of each block and of the number past the last, or reading's
/// refusal. The room is one byte short, exact, and one byte more.
fn same_sentences(
    product: &mut Product,
    random: &mut Random,
    sheet: &[u8],
    judged: &Result<Judged, Refusal>,
    tally: &mut Tally,
) -> Result<(), String> {
    let mut ask = |block: u64, room: usize, due: Result<&str, Answer>| {
        tally.sentence_calls += 1;
        let behind = random.pick(&[0, BEHIND]);
        let found = product.sentence(sheet, block, room, behind);
        same_sentence(&found, due, room + behind).map_err(|difference| {
            format!("sentence of block {block}, room {room}, {behind} behind: {difference}")
        })
    };
    let sentences = match judged {
        Ok(judged) => &judged.sentences,
        Err(refusal) => return ask(0, BEHIND, Err(refused(*refusal))),
    };
    for (block, sentence) in sentences.iter().enumerate() {
        tally.met.note(sentence);
        let (block, length) = (block as u64, sentence.len());
        if let Some(short) = length.checked_sub(1) {
            ask(block, short, Err(refusal_of(refusal::TEXT, length)))?;
        }
        ask(block, length, Ok(sentence))?;
        ask(block, length + 1, Ok(sentence))?;
    }
    let past = sentences.len() as u64;
    ask(past, BEHIND, Err(refusal_of(refusal::NUMBER, 0)))?;
    ask(past + (1 << 32), 0, Err(refusal_of(refusal::NUMBER, 0)))
}

/// The answer, and every byte of the text and behind it.
fn same_sentence(
    found: &(Answer, Vec<u8>),
    due: Result<&str, Answer>,
    bytes: usize,
) -> Result<(), String> {
    let mut text = vec![product::FILL; bytes];
    let answer = match due {
        Err(refusal) => refusal,
        Ok(sentence) => {
            text[..sentence.len()].copy_from_slice(sentence.as_bytes());
            Answer { number: 0, out: sentence.len() as u64 }
        }
    };
    if *found == (answer, text.clone()) {
        return Ok(());
    }
    let shown = |bytes: &[u8]| String::from_utf8_lossy(bytes).into_owned();
    Err(format!("due {answer:?} {}, found {:?} {}", shown(&text), found.0, shown(&found.1)))
}

fn value(random: &mut Random) -> u64 {
    match random.below(3) {
        0 => random.below(3) as u64,
        1 => random.draw() >> random.pick(&[56, 48, 32]),
        _ => random.draw(),
    }
}

fn refused(refusal: Refusal) -> Answer {
    refusal_of(refusal.number, refusal.place)
}

fn refusal_of(number: u8, place: usize) -> Answer {
    Answer { number: u64::from(number), out: place as u64 }
}

/// The answer, and every byte of the list.
fn same_listing(found: &(Answer, Vec<u8>), due: Due, room: usize) -> Result<(), String> {
    let mut list = vec![product::FILL; room];
    let answer = match due {
        Due::Refused(refusal) => refused(refusal),
        Due::Lines(lines) => {
            list[..lines.len()].copy_from_slice(&lines);
            Answer { number: 0, out: (lines.len() / LINE) as u64 }
        }
        Due::Open => unreachable!("an open answer is not compared"),
    };
    if *found == (answer, list.clone()) {
        return Ok(());
    }
    let due = format!("{answer:?} {}", hexadecimal(&list));
    Err(format!("listing, room {room}: due {due}, found {:?} {}", found.0, hexadecimal(&found.1)))
}

fn same_evaluation(found: Answer, due: evaluator::Answer) -> Result<(), String> {
    let answer = match due {
        Ok(holds) => Answer { number: 0, out: u64::from(holds) },
        Err(refusal) => refused(refusal),
    };
    if found == answer {
        return Ok(());
    }
    Err(format!("evaluation: due {answer:?}, found {found:?}"))
}
