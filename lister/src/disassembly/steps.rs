//! What the lister claims of each line, for a program that watches the
//! processor run the file: what the instruction may change, whether a block
//! starts there, and the verdict. `oracle/programs/trace_steps.c` reads it.

use crate::disassembly::instruction::listed;
use crate::disassembly::judge::verdict;
use crate::disassembly::listing::Listing;
use crate::disassembly::program::Program;
use crate::sheets::names::{flag, mnemonic};
use crate::sheets::syntax::{Instruction, Operand, Register, GENERAL_CLASS};
use std::fmt::Write;

/// Registers by index, a bit each, and flags.
#[derive(Clone, Copy, Debug, Default, PartialEq, Eq)]
pub struct Changes {
    pub registers: u16,
    pub flags: u8,
}

fn bit(register: Register) -> u16 {
    if register.class == GENERAL_CLASS {
        1 << register.index
    } else {
        0
    }
}

/// What an instruction that is not call-like may change, by the rules of the
/// sheet: docs/RULES.md.
pub fn changes(instruction: &Instruction) -> Changes {
    let first = match instruction.first {
        Some(Operand::Register(register)) => Some(bit(register)),
        _ => None,
    };
    let flags = match (instruction.mnemonic, first) {
        (mnemonic::STC..=mnemonic::CMC, _) => Some(flag::CF),
        (mnemonic::MOV | mnemonic::NOT, Some(_)) => Some(0),
        (mnemonic::ADD..=mnemonic::TEST | mnemonic::NEG, Some(_)) => Some(flag::ALL),
        (mnemonic::INC | mnemonic::DEC, Some(_)) => Some(flag::ALL & !flag::CF),
        _ => None,
    };
    match flags {
        Some(flags) => {
            let written = ![mnemonic::CMP, mnemonic::TEST].contains(&instruction.mnemonic);
            Changes { registers: if written { first.unwrap_or(0) } else { 0 }, flags }
        }
        None => {
            let list = instruction.written.iter().flatten();
            let registers = list.fold(0, |all, register| all | bit(*register));
            Changes { registers, flags: instruction.flags.unwrap_or(0) }
        }
    }
}

/// A line for each instruction: its address and that of the one behind it (0 if
/// none), `c` if it is call-like, the registers and flags that it may change,
/// `b` if a block starts there, its target (0 if none), its verdict, or `dead` if it is
/// not run because of the verdicts.
pub fn written(program: &Program, listing: &Listing) -> String {
    let Program { text, leaders, .. } = program;
    let mut out = String::new();
    for (number, line) in text.lines.iter().enumerate() {
        let instruction = listed(line).instruction;
        let next = text.lines.get(number + 1).filter(|next| !next.after_gap);
        let Changes { registers, flags } = changes(&instruction);
        let verdict = match listing.branches.get(&line.address) {
            _ if listing.is_dead(number) => "dead",
            Some(branch) => verdict(branch.always),
            None => "-",
        };
        let letter = |yes: bool, letter: char| if yes { letter } else { '-' };
        writeln!(
            out,
            "{:x} {:x} {} {registers:x} {flags:x} {} {:x} {verdict}",
            line.address,
            next.map_or(0, |next| next.address),
            letter(instruction.call_like, 'c'),
            letter(leaders.leads[number], 'b'),
            instruction.target.unwrap_or(0),
        )
        .expect("text takes what is written");
    }
    out
}
