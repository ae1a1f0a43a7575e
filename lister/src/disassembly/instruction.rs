//! One line of the disassembly as an instruction of a sheet, and where control
//! goes after it.
//!
//! Whatever is not recognised, prefix, name, form or operand, is listed as
//! call-like: after it nothing is known.

use crate::disassembly::operand::{parts, Operand, Parts};
use crate::disassembly::table::{is_string, written, Writes, RCX};
use crate::disassembly::text::Line;
use crate::sheets::names::{flag, mnemonic, number_of};
use crate::sheets::syntax::{self, Instruction, Register, GENERAL_CLASS};

/// Where control goes.
#[derive(Clone, Copy, Debug, PartialEq, Eq)]
pub enum Flow {
    Next,
    /// To the target, or to what follows.
    Branch(u64),
    Jump(u64),
    /// To an address that the text does not say.
    IndirectJump,
    /// Nowhere that the text says: a return, a trap, bytes that are no code.
    Ends,
}

/// Why the sheet has the instruction as it has it.
#[derive(Clone, Copy, Debug, PartialEq, Eq)]
pub enum Standing<'a> {
    /// Modelled, declared by the table, or a jump.
    Listed,
    /// Call-like by its nature; the name that objdump shows.
    Call(&'a str),
    /// Call-like because it is not known; likewise.
    Unknown(&'a str),
}

#[derive(Clone, Debug, PartialEq, Eq)]
pub struct Listed<'a> {
    pub instruction: Instruction,
    pub flow: Flow,
    pub standing: Standing<'a>,
}

/// Calls, returns, system calls and traps; after some of them nothing follows.
/// Returns by more than an address go wherever the stack or a register says.
const CALLS: &[(&str, Flow)] = &[
    ("call", Flow::Next),
    ("syscall", Flow::Next),
    ("sysenter", Flow::Next),
    ("int", Flow::Next),
    ("int1", Flow::Next),
    ("int3", Flow::Next),
    ("into", Flow::Next),
    ("icebp", Flow::Next),
    ("ret", Flow::Ends),
    ("retw", Flow::IndirectJump),
    ("retf", Flow::IndirectJump),
    ("retfw", Flow::IndirectJump),
    ("retfq", Flow::IndirectJump),
    ("iret", Flow::IndirectJump),
    ("iretw", Flow::IndirectJump),
    ("iretd", Flow::IndirectJump),
    ("iretq", Flow::IndirectJump),
    ("uiret", Flow::IndirectJump),
    ("sysret", Flow::IndirectJump),
    ("sysretd", Flow::IndirectJump),
    ("sysretq", Flow::IndirectJump),
    ("sysexit", Flow::IndirectJump),
    ("sysexitd", Flow::IndirectJump),
    ("sysexitq", Flow::IndirectJump),
    ("ud0", Flow::Ends),
    ("ud1", Flow::Ends),
    ("ud2", Flow::Ends),
    ("hlt", Flow::Next),
];

/// How objdump shows bytes that it cannot decode.
const NO_CODE: &[&str] = &["(bad)", ".byte"];

/// Prefixes that change nothing on a conditional jump: the first is for bounds, the others
/// are hints.
const ON_JUMPS: &[&str] = &["bnd", "cs", "ds"];

/// Prefixes that objdump shows where an instruction has no use for them.
const IDLE: &[&str] = &["data16", "cs", "ds", "es", "fs", "gs", "ss", "rex.W"];

const REPEATS: &[&str] = &["rep", "repz", "repnz"];

/// Functions that go to the address in a register, and are jumped to in place of
/// a jump through it. The jump has a target of its own as well.
const THUNKS: &[&str] = &["__x86_indirect_thunk", "__llvm_retpoline"];

struct Reading<'a> {
    address: u64,
    parts: Parts<'a>,
}

pub fn listed<'a>(line: &Line<'a>) -> Listed<'a> {
    let reading = Reading { address: line.address, parts: parts(line.text) };
    let known = reading.call().or_else(|| reading.jump()).or_else(|| reading.declared());
    known.or_else(|| reading.modelled()).unwrap_or_else(|| reading.unknown())
}

impl<'a> Reading<'a> {
    fn plain(&self) -> Instruction {
        Instruction { address: self.address, ..Instruction::default() }
    }

    fn call_like(&self, flow: Flow, standing: Standing<'a>) -> Listed<'a> {
        let instruction = Instruction { call_like: true, ..self.plain() };
        Listed { instruction, flow, standing }
    }

    /// Control may go on behind an unknown instruction, and to any address that it
    /// names.
    fn unknown(&self) -> Listed<'a> {
        let mnemonic = self.parts.mnemonic;
        let flow = match self.parts.target() {
            _ if NO_CODE.contains(&mnemonic) => Flow::Ends,
            Some(target) if self.names_target() => Flow::Branch(target),
            _ => Flow::Next,
        };
        self.call_like(flow, Standing::Unknown(mnemonic))
    }

    fn names_target(&self) -> bool {
        ["j", "loop", "xbegin"].iter().any(|start| self.parts.mnemonic.starts_with(start))
    }

    fn prefixed_by(&self, allowed: &[&str]) -> bool {
        self.parts.prefixes.iter().all(|prefix| allowed.contains(prefix))
    }

    fn call(&self) -> Option<Listed<'a>> {
        let (_, flow) = CALLS.iter().find(|(name, _)| *name == self.parts.mnemonic)?;
        Some(self.call_like(*flow, Standing::Call(self.parts.mnemonic)))
    }

    fn jump(&self) -> Option<Listed<'a>> {
        // A hint stands behind a comma: `je,pn`.
        let name = self.parts.mnemonic.split(',').next().unwrap_or("");
        match (name, self.parts.target()) {
            ("jmp", Some(target)) => Some(self.direct(target)),
            ("jmp", None) => {
                Some(self.call_like(Flow::IndirectJump, Standing::Call(self.parts.mnemonic)))
            }
            _ if !self.prefixed_by(ON_JUMPS) => None,
            ("loop" | "loope" | "loopne", Some(target)) => {
                let count = Some(vec![whole(RCX)]);
                let instruction =
                    Instruction { target: Some(target), written: count, ..self.plain() };
                Some(Listed { instruction, flow: Flow::Branch(target), standing: Standing::Listed })
            }
            (_, Some(target)) => self.conditional(name, target),
            (_, None) => None,
        }
    }

    fn direct(&self, target: u64) -> Listed<'a> {
        let name = self.parts.symbol.unwrap_or("");
        if THUNKS.iter().any(|thunk| name.starts_with(thunk)) {
            return self.call_like(Flow::IndirectJump, Standing::Call(self.parts.mnemonic));
        }
        let flow = Flow::Jump(target);
        Listed { instruction: self.plain(), flow, standing: Standing::Listed }
    }

    fn conditional(&self, name: &str, target: u64) -> Option<Listed<'a>> {
        let number = number_of(mnemonic::NAMES, name).filter(|number| *number >= mnemonic::JE)?;
        let instruction = Instruction { mnemonic: number, target: Some(target), ..self.plain() };
        Some(Listed { instruction, flow: Flow::Branch(target), standing: Standing::Listed })
    }

    /// An instruction of the table: its writes declared, no operands.
    fn declared(&self) -> Option<Listed<'a>> {
        let Parts { mnemonic, operands, .. } = &self.parts;
        let strange = |operand: &Operand| match operand {
            Operand::Segment => !["push", "pop"].contains(mnemonic),
            Operand::Unclear | Operand::Control => true,
            _ => false,
        };
        if operands.iter().any(strange) || !self.fitting_prefixes() {
            return None;
        }
        let writes = written(mnemonic, operands.len())?;
        Some(self.writing(writes))
    }

    fn fitting_prefixes(&self) -> bool {
        let Parts { prefixes, mnemonic, operands, .. } = &self.parts;
        match prefixes.as_slice() {
            [] => true,
            ["lock"] => operands.first() == Some(&Operand::Memory),
            [prefix] if REPEATS.contains(prefix) => is_string(mnemonic),
            _ => ["nop", "lea"].contains(mnemonic) && self.prefixed_by(IDLE),
        }
    }

    fn writing(&self, writes: Writes) -> Listed<'a> {
        let mut registers: Vec<Register> = writes.registers.iter().map(|r| whole(*r)).collect();
        for operand in self.parts.operands.iter().take(writes.operands) {
            if let Operand::General(register) = operand {
                registers.push(*register);
            }
        }
        let instruction = Instruction {
            written: (!registers.is_empty()).then_some(registers),
            flags: (writes.flags != 0).then_some(writes.flags),
            ..self.plain()
        };
        Listed { instruction, flow: Flow::Next, standing: Standing::Listed }
    }

    /// An instruction of mnemonics 1 to 15.
    fn modelled(&self) -> Option<Listed<'a>> {
        let operands = self.parts.operands.as_slice();
        let locked = self.parts.prefixes == ["lock"] && operands.first() == Some(&Operand::Memory);
        if !self.parts.prefixes.is_empty() && !locked {
            return None;
        }
        let number = match self.parts.mnemonic {
            "movabs" => mnemonic::MOV,
            name => number_of(mnemonic::NAMES, name)?,
        };
        let instruction = match (number, operands) {
            (mnemonic::STC..=mnemonic::CMC, []) => Instruction { mnemonic: number, ..self.plain() },
            (mnemonic::MOV, [first, second]) => self.mov(*first, *second)?,
            (mnemonic::ADD..=mnemonic::TEST, [first, second]) => {
                self.two(number, *first, *second, flag::ALL)?
            }
            (mnemonic::NOT, [first]) => self.unary(number, *first, 0)?,
            (mnemonic::INC | mnemonic::DEC, [first]) => {
                self.unary(number, *first, flag::ALL & !flag::CF)?
            }
            (mnemonic::NEG, [first]) => self.unary(number, *first, flag::ALL)?,
            _ => return None,
        };
        Some(Listed { instruction, flow: Flow::Next, standing: Standing::Listed })
    }

    /// A mov of a segment, control or debug register has mnemonic 0. One of a control or
    /// debug register leaves the flags undefined.
    fn mov(&self, first: Operand, second: Operand) -> Option<Instruction> {
        let special = |operand: Operand| matches!(operand, Operand::Segment | Operand::Control);
        if !special(first) && !special(second) {
            return self.two(mnemonic::MOV, first, second, 0);
        }
        let mut instruction = self.plain();
        match (first, second) {
            (Operand::General(register), _) => instruction.written = Some(vec![register]),
            (Operand::Memory, _) | (_, Operand::General(_) | Operand::Memory) => {}
            _ => return None,
        }
        if first == Operand::Control || second == Operand::Control {
            instruction.flags = Some(flag::ALL);
        }
        Some(instruction)
    }

    /// With memory first the instruction is not modelled, and its flags are
    /// declared.
    fn two(&self, number: u8, first: Operand, second: Operand, flags: u8) -> Option<Instruction> {
        if let (Operand::General(a), Operand::General(b)) = (first, second) {
            if a.size != b.size {
                return None;
            }
        }
        let declared = (first == Operand::Memory && flags != 0).then_some(flags);
        let (first, second) = (place(first)?, source(second)?);
        Some(Instruction {
            mnemonic: number,
            first: Some(first),
            second: Some(second),
            flags: declared,
            ..self.plain()
        })
    }

    fn unary(&self, number: u8, first: Operand, flags: u8) -> Option<Instruction> {
        let register = match first {
            Operand::General(register) => Some(vec![register]),
            _ => None,
        };
        Some(Instruction {
            mnemonic: number,
            first: Some(place(first)?),
            written: register,
            flags: (flags != 0).then_some(flags),
            ..self.plain()
        })
    }
}

fn whole(index: u8) -> Register {
    Register { class: GENERAL_CLASS, index, size: 64, offset: 0 }
}

/// What a modelled instruction may write to.
fn place(operand: Operand) -> Option<syntax::Operand> {
    match operand {
        Operand::General(register) => Some(syntax::Operand::Register(register)),
        Operand::Memory => Some(syntax::Operand::Memory),
        _ => None,
    }
}

fn source(operand: Operand) -> Option<syntax::Operand> {
    match operand {
        Operand::Immediate(value) => Some(syntax::Operand::Immediate(value)),
        other => place(other),
    }
}
