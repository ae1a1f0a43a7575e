//! Functions as sheets: one for each, or several where it is too long.

use crate::disassembly::blocks::{blocks, Leaders};
use crate::disassembly::control_flow::Outside;
use crate::disassembly::instruction::{listed, Standing};
use crate::disassembly::text::Disassembly;
use crate::sheets::encode::encode;
use crate::sheets::syntax::{Block, Instruction, Sheet};
use std::collections::BTreeMap;
use std::ops::Range;

/// The most that a sheet can have, and the most bytes that the listing program
/// takes.
const MOST_INSTRUCTIONS: usize = 2_048;
const MOST_BLOCKS: usize = 1_024;
const MOST_BYTES: usize = 65_536;

/// The bytes of an empty sheet, and of a block.
const EMPTY: usize = 6;
const BLOCK: usize = 16;

#[derive(Debug, Default, PartialEq, Eq)]
pub struct Counts {
    pub functions: usize,
    /// Starts of functions with no instruction of their own.
    pub empty: usize,
    /// Functions in which any instruction may be entered.
    pub open: usize,
    pub instructions: usize,
    pub branches: usize,
    /// Branches in those functions.
    pub open_branches: usize,
    /// Blocks that are longer than a sheet, and cut.
    pub cut: usize,
    /// Instructions that are call-like by their nature, by their names.
    pub calls: BTreeMap<String, usize>,
    /// Those that are not known.
    pub unknown: BTreeMap<String, usize>,
}

/// The line numbers of each function: from a label, or from where a function starts by
/// the file, to the next.
pub fn functions(text: &Disassembly, outside: &Outside) -> Vec<Range<usize>> {
    let labels = text.labels.iter().map(|label| label.address);
    let known = outside.functions.iter().map(|span| span.start);
    let first = text.lines.first().map(|line| line.address);
    let mut starts: Vec<u64> = labels.chain(known).chain(first).collect();
    starts.sort_unstable();
    starts.dedup();
    let at = |address: &u64| text.lines.partition_point(|line| line.address < *address);
    let ends = starts.iter().skip(1).map(at).chain([text.lines.len()]);
    starts.iter().map(at).zip(ends).map(|(start, end)| start..end).collect()
}

/// The sheets of one function, being filled.
#[derive(Default)]
struct Cutter {
    filled: Vec<Sheet>,
    sheet: Sheet,
    bytes: usize,
}

impl Cutter {
    fn finish(&mut self) {
        let sheet = std::mem::take(&mut self.sheet);
        if !sheet.instructions.is_empty() {
            self.filled.push(sheet);
        }
        self.bytes = EMPTY;
    }

    /// Adds a block that ends at `end`; to a new sheet where this one is full.
    fn block(&mut self, instructions: Vec<Instruction>, bytes: usize, end: u64) {
        let full = self.sheet.instructions.len() + instructions.len() > MOST_INSTRUCTIONS
            || self.sheet.blocks.len() == MOST_BLOCKS
            || self.bytes + bytes + BLOCK > MOST_BYTES;
        if full {
            self.finish();
        }
        let from = instructions[0].address;
        self.sheet.blocks.push(Block { from, to: end });
        self.sheet.instructions.extend(instructions);
        self.bytes += bytes + BLOCK;
    }
}

/// How many bytes an instruction takes in a sheet.
fn size(instruction: &Instruction) -> usize {
    let sheet = Sheet { instructions: vec![instruction.clone()], ..Sheet::default() };
    encode(&sheet).bytes.len() - EMPTY
}

/// A block's instructions, in pieces that each fit a sheet.
fn pieces(instructions: Vec<Instruction>) -> Vec<(Vec<Instruction>, usize)> {
    let mut pieces = vec![(Vec::new(), 0)];
    for instruction in instructions {
        let more = size(&instruction);
        let (piece, bytes) = pieces.last().expect("there is a piece");
        if piece.len() == MOST_INSTRUCTIONS || EMPTY + bytes + more + BLOCK > MOST_BYTES {
            pieces.push((Vec::new(), 0));
        }
        let (piece, bytes) = pieces.last_mut().expect("there is a piece");
        piece.push(instruction);
        *bytes += more;
    }
    pieces
}

/// The sheets of one function.
pub fn of_function(
    text: &Disassembly,
    leaders: &Leaders,
    lines: Range<usize>,
    counts: &mut Counts,
) -> Vec<Sheet> {
    counts.functions += 1;
    counts.empty += usize::from(lines.is_empty());
    counts.open += usize::from(leaders.open[lines.clone()].contains(&true));
    let mut cutter = Cutter { bytes: EMPTY, ..Cutter::default() };
    for block in blocks(&leaders.leads, lines) {
        let open = leaders.open[block.start];
        let instructions: Vec<Instruction> =
            block.clone().map(|number| counted(text, number, open, counts)).collect();
        let pieces = pieces(instructions);
        counts.cut += pieces.len() - 1;
        for (piece, bytes) in pieces {
            let end = piece[piece.len() - 1].address + 1;
            cutter.block(piece, bytes, end);
        }
    }
    cutter.finish();
    cutter.filled
}

fn counted(text: &Disassembly, number: usize, open: bool, counts: &mut Counts) -> Instruction {
    let listed = listed(&text.lines[number]);
    counts.instructions += 1;
    let branches = usize::from(listed.instruction.target.is_some());
    counts.branches += branches;
    counts.open_branches += if open { branches } else { 0 };
    match listed.standing {
        Standing::Listed => {}
        Standing::Call(name) => *counts.calls.entry(name.to_string()).or_default() += 1,
        Standing::Unknown(name) => *counts.unknown.entry(name.to_string()).or_default() += 1,
    }
    listed.instruction
}
