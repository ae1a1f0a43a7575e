//! The decided branches of a program, by the product, and why the others are not.

use crate::disassembly::dead;
use crate::disassembly::deciding::deciding;
use crate::disassembly::elf::Span;
use crate::disassembly::judge::{written, Decided, Judge};
use crate::disassembly::program::Program;
use crate::disassembly::sheets::{self, Counts};
use crate::disassembly::undecided::{cause, Cause};
use crate::sheets::encode::encode;
use crate::sheets::syntax::Sheet;
use std::collections::BTreeMap;
use std::fs;
use std::ops::Range;

/// A decided branch, with the addresses of the instructions that decide it.
#[derive(Debug, PartialEq, Eq)]
pub struct Branch {
    pub target: u64,
    pub always: bool,
    pub by: Vec<u64>,
}

#[derive(Debug, Default)]
pub struct Listing {
    /// By their addresses.
    pub branches: BTreeMap<u64, Branch>,
    pub undecided: BTreeMap<Cause, usize>,
    /// Instructions that are not run because of the verdicts: ranges of line numbers.
    pub dead: Vec<Range<usize>>,
    pub counts: Counts,
    pub sheets: usize,
}

/// What is done beside the listing.
pub struct Job<'a> {
    pub judge: &'a Judge<'a>,
    /// A folder for the sheets and their listings.
    pub save: Option<&'a str>,
    /// Is told how many functions of how many are done.
    pub progress: &'a dyn Fn(usize, usize),
}

pub fn list(program: &Program, job: &Job) -> Result<Listing, String> {
    let mut listing = Listing::default();
    let functions = sheets::functions(&program.text, &program.outside);
    let all = functions.len();
    for (number, lines) in functions.into_iter().enumerate() {
        (job.progress)(number, all);
        let sheets =
            sheets::of_function(&program.text, &program.leaders, lines, &mut listing.counts);
        for sheet in &sheets {
            listing.take(sheet, job)?;
        }
    }
    listing.count_undecided(program);
    listing.dead = dead::ranges(program, &listing.branches);
    Ok(listing)
}

impl Listing {
    fn take(&mut self, sheet: &Sheet, job: &Job) -> Result<(), String> {
        let bytes = encode(sheet).bytes;
        let decided = (job.judge)(&bytes)?;
        if let Some(folder) = job.save {
            save(folder, sheet, &bytes, &decided)?;
        }
        for branch in decided {
            let by = deciding(sheet, &branch, job.judge)?;
            let Decided { site, target, always, .. } = branch;
            self.branches.insert(site, Branch { target, always, by });
        }
        self.sheets += 1;
        Ok(())
    }

    fn count_undecided(&mut self, program: &Program) {
        for (number, line) in program.text.lines.iter().enumerate() {
            if self.branches.contains_key(&line.address) {
                continue;
            }
            if let Some(cause) = cause(&program.text, &program.leaders, number) {
                *self.undecided.entry(cause).or_default() += 1;
            }
        }
    }

    /// Whether the line of this number is in a dead range.
    pub fn is_dead(&self, number: usize) -> bool {
        let after = self.dead.partition_point(|range| range.start <= number);
        after > 0 && self.dead[after - 1].contains(&number)
    }

    /// The dead ranges as addresses.
    pub fn dead_spans(&self, program: &Program) -> Vec<Span> {
        let lines = &program.text.lines;
        let end = |last: usize| {
            let next = lines.get(last + 1).map(|line| line.address);
            lines[last].end().or(next).unwrap_or(lines[last].address)
        };
        let span = |range: &Range<usize>| Span {
            start: lines[range.start].address,
            end: end(range.end - 1),
        };
        self.dead.iter().map(span).collect()
    }
}

/// Stores a sheet and its listing under its first address.
fn save(folder: &str, sheet: &Sheet, bytes: &[u8], decided: &[Decided]) -> Result<(), String> {
    let path = format!("{folder}/{:x}", sheet.instructions[0].address);
    let store = |path: String, bytes: &[u8]| {
        fs::write(&path, bytes).map_err(|error| format!("{path}: {error}"))
    };
    store(format!("{path}.sheet"), bytes)?;
    store(format!("{path}.listing"), written(decided).as_bytes())
}
