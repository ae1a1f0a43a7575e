//! From abstract syntax to bytes. Each elementary field that is written is
//! recorded with its start, in order.

use crate::sheets::names::{kind, operand, statement};
use crate::sheets::syntax::*;

#[derive(Clone, Debug, PartialEq, Eq)]
pub struct Field {
    pub start: usize,
    pub name: &'static str,
}

/// Values that replace those the syntax would give, to write faulty sheets.
#[derive(Clone, Copy, Debug, Default)]
pub struct Forced {
    pub map: Option<u8>,
    pub written: Option<u16>,
}

#[derive(Default)]
pub struct Encoder {
    pub bytes: Vec<u8>,
    pub fields: Vec<Field>,
}

impl Encoder {
    fn field(&mut self, name: &'static str, value: &[u8]) {
        self.fields.push(Field { start: self.bytes.len(), name });
        self.bytes.extend_from_slice(value);
    }

    fn byte(&mut self, name: &'static str, value: u8) {
        self.field(name, &[value]);
    }

    fn eight(&mut self, name: &'static str, value: u64) {
        self.field(name, &value.to_le_bytes());
    }

    /// Writes a count and gives its place, so that it can be set later.
    pub fn count(&mut self, name: &'static str, value: u16) -> usize {
        let place = self.bytes.len();
        self.field(name, &value.to_le_bytes());
        place
    }

    pub fn set_count(&mut self, place: usize, value: u16) {
        self.bytes[place..place + 2].copy_from_slice(&value.to_le_bytes());
    }

    /// Bytes without a meaning of their own; each is a field.
    pub fn raw(&mut self, bytes: &[u8]) {
        for byte in bytes {
            self.byte("raw", *byte);
        }
    }

    pub fn instruction(&mut self, insn: &Instruction, forced: Forced) {
        self.byte("map", forced.map.unwrap_or(insn.map()));
        self.eight("address", insn.address);
        self.byte("mnemonic", insn.mnemonic);
        if let Some(target) = insn.target {
            self.eight("target", target);
        }
        for operand in [insn.first, insn.second].into_iter().flatten() {
            self.operand(operand);
        }
        if let Some(list) = &insn.written {
            self.count("written count", forced.written.unwrap_or(list.len() as u16));
            list.iter().for_each(|register| self.register(*register));
        }
        if let Some(flags) = insn.flags {
            self.byte("flags", flags);
        }
    }

    fn operand(&mut self, operand: Operand) {
        match operand {
            Operand::Register(register) => {
                self.byte("operand", operand::REGISTER);
                self.register(register);
            }
            Operand::Immediate(value) => {
                self.byte("operand", operand::IMMEDIATE);
                self.eight("immediate", value);
            }
            Operand::Memory => self.byte("operand", operand::MEMORY),
            Operand::Unknown(code) => self.byte("operand", code),
        }
    }

    fn register(&mut self, register: Register) {
        self.byte("class", register.class);
        self.byte("index", register.index);
        self.byte("size", register.size);
        self.byte("offset", register.offset);
    }

    pub fn block(&mut self, block: Block) {
        self.eight("from", block.from);
        self.eight("to", block.to);
    }

    pub fn variables(&mut self, types: &[u8], count: u16) {
        self.count("variable count", count);
        types.iter().for_each(|code| self.byte("type", *code));
    }

    pub fn assign(&mut self, variable: u8, value: &[Record], count: u16) {
        self.byte("statement map", statement::ASSIGN);
        self.byte("variable", variable);
        self.expression(value, count);
    }

    pub fn other(&mut self) {
        self.byte("statement map", statement::OTHER);
    }

    pub fn expression(&mut self, records: &[Record], count: u16) {
        self.count("record count", count);
        records.iter().for_each(|record| self.record(*record));
    }

    fn record(&mut self, record: Record) {
        let (kind, argument) = match record {
            Record::Variable(number) => (kind::VARIABLE, Some(("variable", number))),
            Record::Constant { width, .. } => (kind::CONSTANT, Some(("width", width))),
            Record::True => (kind::TRUE, None),
            Record::False => (kind::FALSE, None),
            Record::Effect(code) => (kind::EFFECT, Some(("type", code))),
            Record::Load(code) => (kind::LOAD, Some(("type", code))),
            Record::Cast(code) => (kind::CAST, Some(("type", code))),
            Record::Binary(code) => (kind::BINARY, Some(("operator", code))),
            Record::Ternary => (kind::TERNARY, None),
            Record::Unknown(kind) => (kind, None),
        };
        self.byte("kind", kind);
        if let Some((name, value)) = argument {
            self.byte(name, value);
        }
        if let Record::Constant { value, .. } = record {
            self.eight("value", value);
        }
    }

    pub fn addresses(&mut self, addresses: &[u64], count: u16) {
        self.count("address count", count);
        addresses.iter().for_each(|address| self.eight("address", *address));
    }

    pub fn node(&mut self, node: &Node) {
        self.variables(&node.variables, node.variables.len() as u16);
        self.count("statement count", node.statements.len() as u16);
        for statement in &node.statements {
            match statement {
                Statement::Assign { variable, value } => {
                    self.assign(*variable, value, value.len() as u16)
                }
                Statement::Other => self.other(),
            }
        }
        self.expression(&node.condition, node.condition.len() as u16);
        self.addresses(&node.addresses, node.addresses.len() as u16);
    }

    pub fn sheet(&mut self, sheet: &Sheet) {
        self.count("instruction count", sheet.instructions.len() as u16);
        sheet.instructions.iter().for_each(|insn| self.instruction(insn, Forced::default()));
        self.count("block count", sheet.blocks.len() as u16);
        sheet.blocks.iter().for_each(|block| self.block(*block));
        self.count("node count", sheet.nodes.len() as u16);
        sheet.nodes.iter().for_each(|node| self.node(node));
    }
}

pub fn encode(sheet: &Sheet) -> Encoder {
    let mut encoder = Encoder::default();
    encoder.sheet(sheet);
    encoder
}

/// The refusal's place for a good sheet cut at `length`: the start of the
/// last field that starts at or before the cut.
pub fn place_of_cut(fields: &[Field], length: usize) -> usize {
    fields.iter().map(|field| field.start).take_while(|start| *start <= length).last().unwrap_or(0)
}
