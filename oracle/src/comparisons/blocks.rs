//! The comparison of a test program with the given source: both answer the
//! same sheets, and their verdicts and sentences are compared block by block.

use crate::answers::{Answer, Line, ABSENT};
use crate::cases::{block_sheet, sentence_sheet};
use crate::comparisons::frames::{ask_blocks, ask_sentences, run};
use crate::judges::reader::read;
use crate::sentences::{of_line, Met};
use crate::sheets::syntax::{Block, Sheet};
use crate::sheets::to_text;
use std::collections::BTreeMap;
use std::io;

/// Sheets for which one process of each program is started.
const BATCH: u64 = 5_000;

/// Differences that are shown in full.
const SHOWN: u64 = 10;

pub struct Job<'a> {
    pub program: &'a [String],
    pub given: &'a [String],
    pub sheets: u64,
    pub seed: u64,
}

#[derive(Default)]
struct Tally {
    answers: BTreeMap<String, u64>,
    refused: u64,
    compared: u64,
    met: Met,
    differences: u64,
}

impl Tally {
    fn difference(&mut self, index: u64, what: &str, answers: [&str; 2], text: &str) {
        self.differences += 1;
        if self.differences > SHOWN {
            return;
        }
        println!("difference at sheet {index}, {what}");
        println!("  given:   {}", answers[0]);
        println!("  program: {}", answers[1]);
        text.lines().for_each(|line| println!("    {line}"));
    }

    /// True if there was no difference, and enough was met.
    fn print(&self) -> bool {
        for (answer, count) in &self.answers {
            println!("blocks {answer}: {count}");
        }
        println!("sheets refused: {}", self.refused);
        let met = self.met.print();
        println!("compared {} blocks, differences {}", self.compared, self.differences);
        met && self.differences == 0
    }
}

/// Compares; true if there was no difference, or nothing to compare with.
pub fn compare(job: &Job) -> io::Result<bool> {
    let mut tally = Tally::default();
    let mut first = 0;
    while first < job.sheets {
        let end = job.sheets.min(first + BATCH);
        let sheets: Vec<Vec<u8>> =
            (first..end).map(|index| sheet(job.seed, index, false)).collect();
        if !batch(job, first, &sheets, &mut tally)? {
            println!("{ABSENT}");
            return Ok(true);
        }
        first = end;
    }
    Ok(tally.print())
}

/// Every third one is aimed at sentences, the others at verdicts.
pub fn sheet(seed: u64, index: u64, with_nodes: bool) -> Vec<u8> {
    match index % 3 {
        2 => sentence_sheet::sheet(seed, index, with_nodes),
        _ => block_sheet::sheet(seed, index, with_nodes),
    }
}

/// Two lines for each sheet: verdicts, sentences.
fn answers(program: &[String], sheets: &[Vec<u8>]) -> io::Result<Vec<String>> {
    let mut input = Vec::new();
    for sheet in sheets {
        ask_blocks(&mut input, sheet);
        ask_sentences(&mut input, sheet);
    }
    run(program, input)
}

/// False if the source is absent.
fn batch(job: &Job, first: u64, sheets: &[Vec<u8>], tally: &mut Tally) -> io::Result<bool> {
    let given = answers(job.given, sheets)?;
    if given.first().is_some_and(|line| line == ABSENT) {
        return Ok(false);
    }
    if given.len() != 2 * sheets.len() {
        return Err(io::Error::other("the given source's driver did not answer every sheet"));
    }
    let program = answers(job.program, sheets)?;
    if program.len() > given.len() {
        println!("the program wrote {} lines too many", program.len() - given.len());
        tally.differences += 1;
    }
    for (number, sheet) in sheets.iter().enumerate() {
        let pair = |line: usize| {
            let found = program.get(line).map_or("no line", String::as_str);
            [given[line].as_str(), found]
        };
        let lines = [pair(2 * number), pair(2 * number + 1)];
        compare_sheet(first + number as u64, sheet, lines, tally)?;
    }
    Ok(true)
}

/// The lines are those of the given source and of the program, on verdicts and
/// then on sentences.
fn compare_sheet(
    index: u64,
    sheet: &[u8],
    lines: [[&str; 2]; 2],
    tally: &mut Tally,
) -> io::Result<()> {
    let Ok(accepted) = read(sheet) else {
        tally.refused += 1;
        for pair in lines.iter().filter(|pair| pair[0] != pair[1]) {
            tally.difference(index, "a refused sheet", *pair, &to_text::dump(sheet));
        }
        return Ok(());
    };
    let count = accepted.sheet.blocks.len();
    let [verdicts, sentences] = lines;
    let due = match (Line::parse(verdicts[0]), of_line(sentences[0])) {
        (Line::Answers { blocks, .. }, Some(texts))
            if [blocks.len(), texts.len()] == [count; 2] =>
        {
            (blocks, texts)
        }
        _ => return Err(io::Error::other("the given source's driver did not answer in full")),
    };
    match Line::parse(verdicts[1]) {
        Line::Answers { blocks: found, .. } => {
            compare_blocks(&accepted.sheet, index, [&due.0, &found], tally);
        }
        _ => tally.difference(index, "the whole line", verdicts, &to_text::dump(sheet)),
    }
    due.1.iter().for_each(|sentence| tally.met.note(sentence));
    match of_line(sentences[1]) {
        Some(found) => compare_sentences(&accepted.sheet, index, [&due.1, &found], tally),
        None => tally.difference(index, "the whole line", sentences, &to_text::dump(sheet)),
    }
    Ok(())
}

fn compare_blocks(sheet: &Sheet, index: u64, lists: [&[Answer]; 2], tally: &mut Tally) {
    for (number, block) in sheet.blocks.iter().enumerate() {
        let pair = lists.map(|list| list.get(number).copied());
        tally.compared += 1;
        *tally.answers.entry(shown(pair[0])).or_default() += 1;
        if pair[0] != pair[1] {
            let text = to_text::text(&alone(sheet, *block));
            let [due, found] = pair.map(shown);
            tally.difference(index, &format!("block {number}"), [&due, &found], &text);
        }
    }
    let counts = lists.map(|list| format!("{} answers", list.len()));
    if lists[1].len() > lists[0].len() {
        tally.difference(index, "the number of blocks", [&counts[0], &counts[1]], "");
    }
}

fn compare_sentences(sheet: &Sheet, index: u64, lists: [&[&str]; 2], tally: &mut Tally) {
    for (number, block) in sheet.blocks.iter().enumerate() {
        let pair = lists.map(|list| list.get(number).copied().unwrap_or("no sentence"));
        if pair[0] != pair[1] {
            let text = to_text::text(&alone(sheet, *block));
            tally.difference(index, &format!("the sentence of block {number}"), pair, &text);
        }
    }
    let counts = lists.map(|list| format!("{} sentences", list.len()));
    if lists[1].len() > lists[0].len() {
        tally.difference(index, "the number of sentences", [&counts[0], &counts[1]], "");
    }
}

/// An answer in words, or that there is none.
fn shown(answer: Option<Answer>) -> String {
    answer.map_or("no answer".to_string(), Answer::named)
}

/// A sheet of one block and its instructions.
pub fn alone(sheet: &Sheet, block: Block) -> Sheet {
    let inside = |address: u64| block.from <= address && address < block.to;
    let chosen = sheet.instructions.iter().filter(|insn| inside(insn.address));
    Sheet { instructions: chosen.cloned().collect(), blocks: vec![block], nodes: Vec::new() }
}
