//! The independent reader, written from the format's description.
//!
//! It follows the layout to the end, or until a fault hides what comes next,
//! and collects every check that fails as (byte at which the check is made,
//! number, place). The answer is the fault with the smallest byte, and among
//! those of one byte the one with the smallest number.

use crate::sheets::names::mnemonic::*;
use crate::sheets::names::{
    flag, kind, mnemonic, operand, operator, refusal, statement, value_type,
};
use crate::sheets::syntax::*;
use crate::sheets::types;
use std::fmt;

#[derive(Clone, Copy, Debug, PartialEq, Eq)]
pub struct Refusal {
    pub number: u8,
    pub place: usize,
}

/// An accepted sheet, with the byte at which each section's records start.
#[derive(Clone, Debug)]
pub struct Accepted {
    pub sheet: Sheet,
    pub starts: [usize; 3],
}

pub type Answer = Result<Accepted, Refusal>;

impl Accepted {
    pub fn counts(&self) -> [usize; 3] {
        [self.sheet.instructions.len(), self.sheet.blocks.len(), self.sheet.nodes.len()]
    }
}

impl fmt::Display for Accepted {
    fn fmt(&self, f: &mut fmt::Formatter) -> fmt::Result {
        let [i, b, n] = self.counts();
        let [pi, pb, pn] = self.starts;
        write!(f, "accepted {i} {b} {n} at {pi} {pb} {pn}")
    }
}

impl fmt::Display for Refusal {
    fn fmt(&self, f: &mut fmt::Formatter) -> fmt::Result {
        write!(f, "refused {} at {}", self.number, self.place)
    }
}

/// The answer as the line that the test program writes.
pub fn line(answer: &Answer) -> String {
    match answer {
        Ok(accepted) => accepted.to_string(),
        Err(refusal) => refusal.to_string(),
    }
}

pub fn read(bytes: &[u8]) -> Answer {
    let mut layout = Layout { bytes, at: 0, faults: Vec::new() };
    let accepted = layout.sheet();
    match layout.faults.iter().min_by_key(|fault| (fault.made, fault.number)) {
        Some(fault) => Err(Refusal { number: fault.number, place: fault.place }),
        None => Ok(accepted.expect("a layout that stops early has a fault")),
    }
}

struct Fault {
    made: usize,
    number: u8,
    place: usize,
}

/// The sheet from `at` on. Its methods give `None` where the layout cannot
/// be followed any further; a fault is then on the list.
struct Layout<'a> {
    bytes: &'a [u8],
    at: usize,
    faults: Vec<Fault>,
}

impl Layout<'_> {
    fn fault(&mut self, made: usize, number: u8, place: usize) {
        self.faults.push(Fault { made, number, place });
    }

    /// A fault of the unit that has just ended.
    fn fault_of_unit(&mut self, number: u8, place: usize) {
        self.fault(self.at - 1, number, place);
    }

    /// One elementary field of `N` bytes.
    fn field<const N: usize>(&mut self) -> Option<[u8; N]> {
        let Some(bytes) = self.bytes[self.at..].first_chunk() else {
            self.fault(self.bytes.len(), refusal::ENDED, self.at);
            return None;
        };
        self.at += N;
        Some(*bytes)
    }

    fn byte(&mut self) -> Option<u8> {
        self.field().map(u8::from_le_bytes)
    }

    fn eight(&mut self) -> Option<u64> {
        self.field().map(u64::from_le_bytes)
    }

    /// A code byte that must be in its table.
    fn code(&mut self, in_table: impl Fn(u8) -> bool) -> Option<u8> {
        let place = self.at;
        let value = self.byte()?;
        if !in_table(value) {
            self.fault_of_unit(refusal::CODE, place);
        }
        Some(value)
    }

    fn count(&mut self, least: u16, most: u16) -> Option<u16> {
        let place = self.at;
        let value = self.field().map(u16::from_le_bytes)?;
        if value < least || value > most {
            self.fault_of_unit(refusal::COUNT, place);
        }
        Some(value)
    }

    fn sheet(&mut self) -> Option<Accepted> {
        let mut sheet = Sheet::default();
        let mut starts = [0; 3];
        let count = self.count(0, 2048)?;
        starts[0] = self.at;
        for _ in 0..count {
            let last = sheet.instructions.last().map(|insn| insn.address);
            sheet.instructions.push(self.instruction(last)?);
        }
        let count = self.count(0, 1024)?;
        starts[1] = self.at;
        for _ in 0..count {
            sheet.blocks.push(Block { from: self.eight()?, to: self.eight()? });
        }
        let count = self.count(0, 1024)?;
        starts[2] = self.at;
        for _ in 0..count {
            sheet.nodes.push(self.node()?);
        }
        if self.at < self.bytes.len() {
            self.fault(self.at, refusal::ENDED, self.at);
        }
        Some(Accepted { sheet, starts })
    }

    fn instruction(&mut self, last: Option<u64>) -> Option<Instruction> {
        let start = self.at;
        let map = self.code(map_in_table)?;
        let has = |bit: u8| map & bit != 0;
        let insn = Instruction {
            address: self.address_above(last)?,
            mnemonic: self.code(|code| code < mnemonic::COUNT)?,
            target: if has(MAP_TARGET) { Some(self.eight()?) } else { None },
            call_like: has(MAP_CALL),
            first: if has(MAP_FIRST) { Some(self.operand()?) } else { None },
            second: if has(MAP_SECOND) { Some(self.operand()?) } else { None },
            written: if has(MAP_WRITTEN) { Some(self.written()?) } else { None },
            flags: if has(MAP_FLAGS) {
                Some(self.code(|flags| flags & !flag::ALL == 0)?)
            } else {
                None
            },
        };
        if modelled(&insn) && !model_fits(&insn) {
            self.fault_of_unit(refusal::MODELLED, start);
        }
        Some(insn)
    }

    fn address_above(&mut self, last: Option<u64>) -> Option<u64> {
        let place = self.at;
        let address = self.eight()?;
        if last.is_some_and(|last| address <= last) {
            self.fault_of_unit(refusal::ADDRESS, place);
        }
        Some(address)
    }

    fn operand(&mut self) -> Option<Operand> {
        match self.code(|code| code <= operand::MEMORY)? {
            operand::REGISTER => self.register().map(Operand::Register),
            operand::IMMEDIATE => self.eight().map(Operand::Immediate),
            operand::MEMORY => Some(Operand::Memory),
            _ => None,
        }
    }

    fn register(&mut self) -> Option<Register> {
        let place = self.at;
        let register = Register {
            class: self.byte()?,
            index: self.byte()?,
            size: self.byte()?,
            offset: self.byte()?,
        };
        if register.class == GENERAL_CLASS && !well_formed(register) {
            self.fault_of_unit(refusal::REGISTER, place);
        }
        Some(register)
    }

    fn written(&mut self) -> Option<Vec<Register>> {
        let count = self.count(0, 8)?;
        (0..count).map(|_| self.register()).collect()
    }

    fn node(&mut self) -> Option<Node> {
        let count = self.count(0, 32)?;
        let variables: Vec<u8> =
            (0..count).map(|_| self.code(type_in_table)).collect::<Option<_>>()?;
        let count = self.count(0, 64)?;
        let statements = (0..count).map(|_| self.statement(&variables)).collect::<Option<_>>()?;
        let condition = self.expression(&variables)?;
        let count = self.count(0, 16)?;
        let addresses = (0..count).map(|_| self.eight()).collect::<Option<_>>()?;
        Some(Node { variables, statements, condition, addresses })
    }

    fn statement(&mut self, variables: &[u8]) -> Option<Statement> {
        let start = self.at;
        match self.code(|map| [statement::OTHER, statement::ASSIGN].contains(&map))? {
            statement::OTHER => Some(Statement::Other),
            statement::ASSIGN => {
                let variable = self.variable(variables)?;
                let value = self.expression(variables)?;
                let found = types::of_expression(&value, variables);
                let declared = variables.get(variable as usize);
                if let (Some(a), Some(b)) = (found, declared) {
                    if types::plain(a) != types::plain(*b) {
                        self.fault_of_unit(refusal::TYPE, start);
                    }
                }
                Some(Statement::Assign { variable, value })
            }
            _ => None,
        }
    }

    fn variable(&mut self, variables: &[u8]) -> Option<u8> {
        self.code(|number| usize::from(number) < variables.len())
    }

    fn expression(&mut self, variables: &[u8]) -> Option<Expression> {
        let count = self.count(1, 128)?;
        let mut records = Vec::with_capacity(count.into());
        let mut trees = 0;
        let mut lacking = false;
        for _ in 0..count {
            let place = self.at;
            let record = self.record(variables)?;
            if record.children() > trees {
                self.fault_of_unit(refusal::TREE, place);
                lacking = true;
            }
            trees = trees.saturating_sub(record.children()) + 1;
            records.push(record);
        }
        if trees != 1 && !lacking {
            self.fault_of_unit(refusal::TREE, self.at);
        }
        Some(records)
    }

    fn record(&mut self, variables: &[u8]) -> Option<Record> {
        Some(match self.code(|code| code <= kind::TERNARY)? {
            kind::VARIABLE => Record::Variable(self.variable(variables)?),
            kind::CONSTANT => self.constant()?,
            kind::TRUE => Record::True,
            kind::FALSE => Record::False,
            kind::EFFECT => Record::Effect(self.code(type_in_table)?),
            kind::LOAD => Record::Load(self.code(type_in_table)?),
            kind::CAST => Record::Cast(self.code(type_in_table)?),
            kind::BINARY => Record::Binary(self.code(|code| code < operator::COUNT)?),
            kind::TERNARY => Record::Ternary,
            _ => return None,
        })
    }

    fn constant(&mut self) -> Option<Record> {
        let width = self.code(|width| [1, 2, 4, 8].contains(&width))?;
        let place = self.at;
        let value = self.eight()?;
        if width < 8 && value >> (8 * u32::from(width)) != 0 {
            self.fault_of_unit(refusal::CONSTANT, place);
        }
        Some(Record::Constant { width, value })
    }
}

/// Bits 6 and 7 are not in use; a branch is not call-like; a second operand
/// needs a first.
fn map_in_table(map: u8) -> bool {
    let has = |bit: u8| map & bit != 0;
    map < 64 && !(has(MAP_TARGET) && has(MAP_CALL)) && (has(MAP_FIRST) || !has(MAP_SECOND))
}

fn type_in_table(code: u8) -> bool {
    code < value_type::COUNT
}

/// Judges registers of class 1 only.
fn well_formed(register: Register) -> bool {
    let Register { index, size, offset, .. } = register;
    let whole = offset == 0 && index <= 15 && [8, 16, 32, 64].contains(&size);
    let high = offset == 8 && size == 8 && index <= 3;
    whole || high
}

fn modelled(insn: &Instruction) -> bool {
    let on_register = matches!(insn.first, Some(Operand::Register(_)));
    let fits = match insn.mnemonic {
        STC | CLC | CMC => true,
        MOV | ADD | SUB | CMP | AND | OR | XOR | TEST => on_register && insn.second.is_some(),
        NOT | INC | DEC | NEG => on_register && insn.second.is_none(),
        _ => false,
    };
    fits && !insn.call_like
}

/// What is asked of a modelled instruction.
fn model_fits(insn: &Instruction) -> bool {
    let mut sizes = Vec::new();
    for operand in [insn.first, insn.second].into_iter().flatten() {
        match operand {
            Operand::Register(r) if r.class == GENERAL_CLASS => sizes.push(r.size),
            Operand::Register(_) if insn.mnemonic != MOV => return false,
            _ => {}
        }
    }
    let same_size = sizes.windows(2).all(|pair| pair[0] == pair[1]);
    let needed = match insn.mnemonic {
        INC | DEC => flag::ALL & !flag::CF,
        NEG => flag::ALL,
        _ => 0,
    };
    same_size && insn.flags.unwrap_or(0) & needed == needed
}
