//! Why a branch is undecided: what its condition comes from, followed back through its
//! block. The report counts the causes; no verdict rests on them.

use crate::disassembly::blocks::Leaders;
use crate::disassembly::instruction::listed;
use crate::disassembly::operand::{self, parts};
use crate::disassembly::steps::{changes, Changes};
use crate::disassembly::table::RCX;
use crate::disassembly::text::{Disassembly, Line};
use crate::sheets::names::flag::{CF, OF, PF, SF, ZF};
use crate::sheets::names::mnemonic::*;
use crate::sheets::syntax::{Instruction, Operand, Register};

/// Each branch is counted once, under the first of these that holds.
#[derive(Clone, Copy, Debug, PartialEq, Eq, PartialOrd, Ord)]
pub enum Cause {
    OpenPart,
    Memory,
    Call,
    Instruction,
    Flag,
    Register,
}

impl Cause {
    pub const ALL: [(Cause, &'static str); 6] = [
        (Cause::OpenPart, "an open part"),
        (Cause::Memory, "memory"),
        (Cause::Call, "a call"),
        (Cause::Instruction, "an instruction that is not modelled"),
        (Cause::Flag, "a flag that nothing in the block sets"),
        (Cause::Register, "a register that nothing in the block sets"),
    ];
}

/// The cause for the branch of a line, if it has one.
pub fn cause(text: &Disassembly, leaders: &Leaders, number: usize) -> Option<Cause> {
    let branch = listed(&text.lines[number]).instruction;
    branch.target?;
    if leaders.open[number] {
        return Some(Cause::OpenPart);
    }
    let mut needs = Needs::of(&branch);
    let start = (0..=number).rev().find(|at| leaders.leads[*at]).unwrap_or(0);
    for line in text.lines[start..number].iter().rev() {
        needs.before(line);
    }
    needs.cause()
}

/// What the condition comes from, before a line.
struct Needs {
    registers: u16,
    flags: u8,
    found: Option<Cause>,
}

impl Needs {
    fn of(branch: &Instruction) -> Needs {
        let needs = |registers, flags| Needs { registers, flags, found: None };
        match branch.mnemonic {
            JE | JNE => needs(0, ZF),
            JL | JGE => needs(0, SF | OF),
            JLE | JG => needs(0, ZF | SF | OF),
            JB | JAE => needs(0, CF),
            JBE | JA => needs(0, CF | ZF),
            JS | JNS => needs(0, SF),
            JP | JNP => needs(0, PF),
            JO | JNO => needs(0, OF),
            JRCXZ..=JCXZ => needs(1 << RCX, 0),
            _ => Needs { registers: 0, flags: 0, found: Some(Cause::Instruction) },
        }
    }

    fn note(&mut self, cause: Cause) {
        self.found = Some(self.found.map_or(cause, |found| found.min(cause)));
    }

    /// Goes back over a line.
    fn before(&mut self, line: &Line) {
        let instruction = listed(line).instruction;
        if self.registers == 0 && self.flags == 0 {
            return;
        }
        if instruction.call_like {
            self.note(Cause::Call);
            (self.registers, self.flags) = (0, 0);
            return;
        }
        let Changes { registers, flags } = changes(&instruction);
        if registers & self.registers == 0 && flags & self.flags == 0 {
            return;
        }
        self.flags &= !flags;
        if is_whole(&instruction) {
            self.registers &= !registers;
        }
        match loads(line) {
            true => self.note(Cause::Memory),
            false if !MODELLED.contains(&instruction.mnemonic) => self.note(Cause::Instruction),
            false => {}
        }
        self.registers |= sources(&instruction);
    }

    fn cause(&self) -> Option<Cause> {
        let unset = match (self.flags, self.registers) {
            (0, 0) => None,
            (0, _) => Some(Cause::Register),
            _ => Some(Cause::Flag),
        };
        let causes = self.found.into_iter().chain(unset);
        causes.min().or(Some(Cause::Instruction))
    }
}

/// Whether nothing is left of what was in the register before.
fn is_whole(instruction: &Instruction) -> bool {
    match instruction.first {
        Some(Operand::Register(Register { size, .. })) => size >= 32,
        _ => true,
    }
}

/// Whether the instruction reads memory.
fn loads(line: &Line) -> bool {
    let parts = parts(line.text);
    let pops = ["pop", "popf", "popfq", "leave"].contains(&parts.mnemonic);
    pops || (parts.mnemonic != "lea" && parts.operands.contains(&operand::Operand::Memory))
}

/// The registers that a modelled instruction reads.
fn sources(instruction: &Instruction) -> u16 {
    let bit = |operand: Option<Operand>| match operand {
        Some(Operand::Register(register)) => 1 << register.index,
        _ => 0,
    };
    let (first, second) = (bit(instruction.first), bit(instruction.second));
    match instruction.mnemonic {
        MOV => second,
        SUB | XOR | CMP if instruction.first == instruction.second => 0,
        OTHER => 0,
        _ => first | second,
    }
}
