//! The instructions that decide a branch: those of its block without which the verdict
//! is not given.

use crate::disassembly::judge::{Decided, Judge};
use crate::disassembly::steps::{changes, Changes};
use crate::sheets::encode::encode;
use crate::sheets::names::mnemonic;
use crate::sheets::syntax::{Instruction, Operand, Sheet};

/// Their addresses, rising. Each instruction is left out in turn, from the first: in
/// its place stands one that changes the same to anything. It decides if the verdict
/// is lost; if not, it stays left out.
pub fn deciding(sheet: &Sheet, branch: &Decided, judge: &Judge) -> Result<Vec<u64>, String> {
    let mut block = block_of(sheet, branch.site);
    let mut by = Vec::new();
    for number in 0..block.instructions.len() - 1 {
        // Only modelled instructions make anything known.
        if !mnemonic::MODELLED.contains(&block.instructions[number].mnemonic) {
            continue;
        }
        let any = anything(&block.instructions[number]);
        let kept = std::mem::replace(&mut block.instructions[number], any);
        if !judge(&encode(&block).bytes)?.contains(branch) {
            by.push(kept.address);
            block.instructions[number] = kept;
        }
    }
    Ok(by)
}

/// A sheet of the block that ends in the branch.
fn block_of(sheet: &Sheet, site: u64) -> Sheet {
    let block = sheet.blocks.iter().rfind(|block| block.from <= site && site < block.to);
    let block = *block.expect("a decided branch ends a block");
    let inside = |insn: &&Instruction| block.from <= insn.address && insn.address < block.to;
    let instructions = sheet.instructions.iter().filter(inside).cloned().collect();
    Sheet { instructions, blocks: vec![block], ..Sheet::default() }
}

/// An instruction at the same place that changes the same to anything.
fn anything(instruction: &Instruction) -> Instruction {
    let Changes { registers, flags } = changes(instruction);
    let written = match instruction.first {
        Some(Operand::Register(register)) if registers != 0 => Some(vec![register]),
        _ => None,
    };
    let address = instruction.address;
    Instruction { address, written, flags: Some(flags), ..Instruction::default() }
}
