//! The sheet's abstract syntax, and the names of registers.
//!
//! Codes are kept as bytes, also those outside their tables, so that a sheet
//! with faults in it can be held here too.

#[derive(Clone, Copy, Debug, PartialEq, Eq)]
pub struct Register {
    pub class: u8,
    pub index: u8,
    pub size: u8,
    pub offset: u8,
}

#[derive(Clone, Copy, Debug, PartialEq, Eq)]
pub enum Operand {
    Register(Register),
    Immediate(u64),
    Memory,
    /// A code outside the table, with nothing behind it.
    Unknown(u8),
}

#[derive(Clone, Debug, PartialEq, Eq, Default)]
pub struct Instruction {
    pub address: u64,
    pub mnemonic: u8,
    /// Present in a conditional branch.
    pub target: Option<u64>,
    /// A call, indirect call, syscall or interrupt.
    pub call_like: bool,
    pub first: Option<Operand>,
    pub second: Option<Operand>,
    pub written: Option<Vec<Register>>,
    pub flags: Option<u8>,
}

pub const MAP_TARGET: u8 = 1;
pub const MAP_CALL: u8 = 2;
pub const MAP_FIRST: u8 = 4;
pub const MAP_SECOND: u8 = 8;
pub const MAP_WRITTEN: u8 = 16;
pub const MAP_FLAGS: u8 = 32;

impl Instruction {
    /// The map byte that the present fields give.
    pub fn map(&self) -> u8 {
        let bit = |present: bool, mask: u8| if present { mask } else { 0 };
        bit(self.target.is_some(), MAP_TARGET)
            | bit(self.call_like, MAP_CALL)
            | bit(self.first.is_some(), MAP_FIRST)
            | bit(self.second.is_some(), MAP_SECOND)
            | bit(self.written.is_some(), MAP_WRITTEN)
            | bit(self.flags.is_some(), MAP_FLAGS)
    }
}

#[derive(Clone, Copy, Debug, PartialEq, Eq)]
pub struct Block {
    pub from: u64,
    pub to: u64,
}

/// One record of an expression in postfix order.
#[derive(Clone, Copy, Debug, PartialEq, Eq)]
pub enum Record {
    Variable(u8),
    Constant {
        width: u8,
        value: u64,
    },
    True,
    False,
    Effect(u8),
    Load(u8),
    Cast(u8),
    Binary(u8),
    Ternary,
    /// A kind outside the table, with nothing behind it.
    Unknown(u8),
}

impl Record {
    /// How many trees the record takes from those before it.
    pub fn children(&self) -> usize {
        match self {
            Record::Load(_) | Record::Cast(_) => 1,
            Record::Binary(_) => 2,
            Record::Ternary => 3,
            _ => 0,
        }
    }
}

pub type Expression = Vec<Record>;

/// The operator applied to both, the operands' records first.
pub fn join(mut a: Expression, operator: u8, b: Expression) -> Expression {
    a.extend(b);
    a.push(Record::Binary(operator));
    a
}

/// The expression below a record that takes one.
pub fn inside(mut a: Expression, record: Record) -> Expression {
    a.push(record);
    a
}

#[derive(Clone, Debug, PartialEq, Eq)]
pub enum Statement {
    Assign { variable: u8, value: Expression },
    Other,
}

#[derive(Clone, Debug, PartialEq, Eq, Default)]
pub struct Node {
    pub variables: Vec<u8>,
    pub statements: Vec<Statement>,
    pub condition: Expression,
    pub addresses: Vec<u64>,
}

#[derive(Clone, Debug, PartialEq, Eq, Default)]
pub struct Sheet {
    pub instructions: Vec<Instruction>,
    pub blocks: Vec<Block>,
    pub nodes: Vec<Node>,
}

/// General purpose registers by index; in a row the low 8, 16, 32 and all 64 bits.
const GENERAL: [[&str; 4]; 16] = [
    ["al", "ax", "eax", "rax"],
    ["cl", "cx", "ecx", "rcx"],
    ["dl", "dx", "edx", "rdx"],
    ["bl", "bx", "ebx", "rbx"],
    ["spl", "sp", "esp", "rsp"],
    ["bpl", "bp", "ebp", "rbp"],
    ["sil", "si", "esi", "rsi"],
    ["dil", "di", "edi", "rdi"],
    ["r8b", "r8w", "r8d", "r8"],
    ["r9b", "r9w", "r9d", "r9"],
    ["r10b", "r10w", "r10d", "r10"],
    ["r11b", "r11w", "r11d", "r11"],
    ["r12b", "r12w", "r12d", "r12"],
    ["r13b", "r13w", "r13d", "r13"],
    ["r14b", "r14w", "r14d", "r14"],
    ["r15b", "r15w", "r15d", "r15"],
];

/// Bits 8 to 15 of the first four registers.
const HIGH: [&str; 4] = ["ah", "ch", "dh", "bh"];

pub const GENERAL_CLASS: u8 = 1;

fn general(index: usize, size: u8, offset: u8) -> Register {
    Register { class: GENERAL_CLASS, index: index as u8, size, offset }
}

/// Every register that has a name, with its name.
pub fn named_registers() -> impl Iterator<Item = (&'static str, Register)> {
    let low = GENERAL.iter().enumerate().flat_map(|(index, row)| {
        row.iter().zip([8, 16, 32, 64]).map(move |(name, size)| (*name, general(index, size, 0)))
    });
    let high = HIGH.iter().enumerate().map(|(index, name)| (*name, general(index, 8, 8)));
    low.chain(high)
}

pub fn register_by_name(name: &str) -> Option<Register> {
    named_registers().find(|(n, _)| *n == name).map(|(_, register)| register)
}

pub fn register_name(register: Register) -> Option<&'static str> {
    named_registers().find(|(_, r)| *r == register).map(|(name, _)| name)
}
