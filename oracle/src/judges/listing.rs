//! The listing that is due for a sheet, from the answers for its blocks and
//! nodes. Written from the description alone: it keeps a map by site, and the
//! product keeps a slot for each instruction.

use crate::answers::{Answer, Decided};
use crate::judges::evaluator::place_of_node;
use crate::judges::reader::{read, Refusal};
use crate::sheets::syntax::{Instruction, Node, Sheet};
use std::collections::BTreeMap;

/// Bytes of a line: site and target, 8 each, verdict and reason.
pub const LINE: usize = 18;

/// The refusal of a list that is too short.
const SHORT: u8 = 12;

#[derive(Debug, PartialEq, Eq)]
pub enum Due {
    Refused(Refusal),
    Lines(Vec<u8>),
    /// A node was not judged, so that nothing can be said.
    Open,
}

/// What is due where the list has so many bytes.
pub fn due(bytes: &[u8], blocks: &[Answer], nodes: &[Answer], length: usize) -> Due {
    let sheet = match read(bytes) {
        Ok(accepted) => accepted.sheet,
        Err(refusal) => return Due::Refused(refusal),
    };
    for (number, answer) in nodes.iter().enumerate() {
        match answer {
            Answer::Refused(refusal) => {
                let place = place_of_node(&sheet, number);
                return Due::Refused(Refusal { number: *refusal, place });
            }
            Answer::NotRun => return Due::Open,
            Answer::Decided(_) | Answer::Undecided | Answer::NoBranch => {}
        }
    }
    let lines = lines(&sheet, blocks, nodes);
    if lines.len() > length {
        return Due::Refused(Refusal { number: SHORT, place: bytes.len() });
    }
    Due::Lines(lines)
}

/// The lines, by site; for a site the first record that decides it.
fn lines(sheet: &Sheet, blocks: &[Answer], nodes: &[Answer]) -> Vec<u8> {
    let mut found: BTreeMap<u64, Vec<u8>> = BTreeMap::new();
    let mut note = |jump: Option<&Instruction>, answer: &Answer| {
        let Answer::Decided(Decided { holds, reason }) = *answer else { return };
        let Some(jump) = jump else { return };
        let Some(target) = jump.target else { return };
        found.entry(jump.address).or_insert_with(|| {
            let mut line = [jump.address.to_le_bytes(), target.to_le_bytes()].concat();
            line.extend([u8::from(holds), reason]);
            line
        });
    };
    for (block, answer) in sheet.blocks.iter().zip(blocks) {
        let inside = |insn: &&Instruction| block.from <= insn.address && insn.address < block.to;
        note(sheet.instructions.iter().rfind(inside), answer);
    }
    for (node, answer) in sheet.nodes.iter().zip(nodes) {
        note(jump_of(sheet, node), answer);
    }
    found.into_values().flatten().collect()
}

/// The last address that is one of a conditional branch.
fn jump_of<'a>(sheet: &'a Sheet, node: &Node) -> Option<&'a Instruction> {
    let branch = |address: &u64| {
        sheet.instructions.iter().find(|insn| insn.address == *address && insn.target.is_some())
    };
    node.addresses.iter().rev().find_map(branch)
}
