//! Random sheets. Sheets are well formed except where the generator slips,
//! which it does once in `slips` decisions (0: never).

use crate::cases::random::Random;
use crate::sheets::names::mnemonic::*;
use crate::sheets::names::{flag, kind, operator, value_type};
use crate::sheets::syntax::*;
use crate::sheets::types;

pub struct Generator {
    pub random: Random,
    pub slips: usize,
}

/// Upper limits for the parts of one sheet.
#[derive(Clone, Copy)]
pub struct Size {
    pub instructions: usize,
    pub blocks: usize,
    pub nodes: usize,
    pub statements: usize,
    pub depth: usize,
}

pub const SMALL: Size = Size { instructions: 6, blocks: 3, nodes: 3, statements: 4, depth: 3 };

const WIDTHS: [u8; 4] = [1, 2, 4, 8];

impl Generator {
    pub fn new(seed: u64, index: u64, slips: usize) -> Generator {
        Generator { random: Random::new(seed, index), slips }
    }

    pub fn slip(&mut self) -> bool {
        self.slips != 0 && self.random.once_in(self.slips)
    }

    pub fn upto(&mut self, most: usize) -> usize {
        self.random.below(most + 1)
    }

    pub fn sheet(&mut self, size: Size) -> Sheet {
        let counts = [self.upto(size.instructions), self.upto(size.blocks), self.upto(size.nodes)];
        let instructions = self.instructions(counts[0]);
        let blocks = (0..counts[1]).map(|_| self.block(&instructions)).collect();
        let nodes = (0..counts[2]).map(|_| self.node(size, &instructions)).collect();
        Sheet { instructions, blocks, nodes }
    }

    pub fn instructions(&mut self, count: usize) -> Vec<Instruction> {
        let mut list = Vec::with_capacity(count);
        let mut address = if self.random.once_in(3) { 0 } else { self.number() >> 8 };
        for _ in 0..count {
            list.push(self.instruction(address));
            let step = if self.random.once_in(20) { 1 << self.random.below(40) } else { 1 };
            address = address.saturating_add(step + self.random.below(7) as u64);
            if self.slip() {
                address = address.saturating_sub(8);
            }
        }
        list
    }

    /// Often small, sometimes near a power of two, sometimes any number.
    pub fn number(&mut self) -> u64 {
        match self.random.below(4) {
            0 => self.random.below(4) as u64,
            1 => self.random.below(0x1000) as u64,
            2 => (1u64 << self.random.below(64)).wrapping_sub(self.random.below(3) as u64),
            _ => self.random.draw(),
        }
    }

    /// A register of class 1 that exists, of this size.
    pub fn general(&mut self, size: u8) -> Register {
        let high = size == 8 && self.random.once_in(3);
        let index = self.random.below(if high { 4 } else { 16 }) as u8;
        let offset = if high { 8 } else { 0 };
        let mut register = Register { class: GENERAL_CLASS, index, size, offset };
        if self.slip() {
            self.spoil_register(&mut register);
        }
        register
    }

    fn spoil_register(&mut self, register: &mut Register) {
        match self.random.below(4) {
            0 => register.index = 16,
            1 => register.size = self.random.pick(&[0, 1, 9, 24, 63, 65, 128]),
            2 => register.offset = self.random.pick(&[1, 8, 16]),
            _ => register.index = self.random.byte(),
        }
    }

    pub fn size(&mut self) -> u8 {
        self.random.pick(&[8, 16, 32, 64])
    }

    pub fn outside_class(&mut self) -> Register {
        let class = self.random.pick(&[0, 2, 3, 255]);
        let [index, size, offset] = [self.random.byte(), self.random.byte(), self.random.byte()];
        Register { class, index, size, offset }
    }

    pub fn any_register(&mut self) -> Register {
        if self.random.once_in(4) {
            return self.outside_class();
        }
        let size = self.size();
        self.general(size)
    }

    fn any_operand(&mut self) -> Operand {
        match self.random.below(3) {
            0 => Operand::Register(self.any_register()),
            1 => Operand::Immediate(self.number()),
            _ => Operand::Memory,
        }
    }

    /// An operand that an arithmetic instruction of this size can have.
    fn operand_of(&mut self, size: u8) -> Operand {
        let size = if self.slip() { self.size() } else { size };
        match self.random.below(3) {
            0 if self.slip() => Operand::Register(self.outside_class()),
            0 => Operand::Register(self.general(size)),
            1 => Operand::Immediate(self.number()),
            _ => Operand::Memory,
        }
    }

    fn register_of(&mut self, size: u8) -> Operand {
        if self.slip() {
            return Operand::Register(self.outside_class());
        }
        Operand::Register(self.general(size))
    }

    pub fn instruction(&mut self, address: u64) -> Instruction {
        let mut insn = Instruction { address, ..Default::default() };
        self.lists(&mut insn);
        match self.random.below(9) {
            0..=2 => self.arithmetic(&mut insn),
            3 => self.unary(&mut insn),
            4 => self.flag_instruction(&mut insn),
            5 => self.jump(&mut insn),
            6 => self.wide_mov(&mut insn),
            7 => self.call_like(&mut insn),
            _ => self.unmodelled(&mut insn),
        }
        if insn.target.is_none() && !insn.call_like && self.random.once_in(12) {
            insn.target = Some(self.number());
        }
        insn
    }

    pub fn lists(&mut self, insn: &mut Instruction) {
        if self.random.once_in(4) {
            let most = if self.random.once_in(8) { 8 } else { 2 };
            let count = if self.slip() { 9 } else { self.upto(most) };
            insn.written = Some((0..count).map(|_| self.any_register()).collect());
        }
        if self.random.once_in(4) {
            let outside = if self.slip() { 32 } else { 0 };
            insn.flags = Some(self.random.byte() & flag::ALL | outside);
        }
    }

    fn arithmetic(&mut self, insn: &mut Instruction) {
        let size = self.size();
        insn.mnemonic = self.random.pick(&[MOV, ADD, SUB, CMP, AND, OR, XOR, TEST]);
        insn.first = Some(self.register_of(size));
        insn.second = Some(self.operand_of(size));
    }

    fn unary(&mut self, insn: &mut Instruction) {
        let size = self.size();
        insn.mnemonic = self.random.pick(&UNARY);
        insn.first = Some(self.register_of(size));
        let needed = match insn.mnemonic {
            NOT => return,
            NEG => flag::ALL,
            _ => flag::ALL & !flag::CF,
        };
        let dropped = if self.slip() { 1 << self.random.below(5) } else { 0 };
        insn.flags = Some((insn.flags.unwrap_or(0) | needed) & !dropped);
    }

    fn flag_instruction(&mut self, insn: &mut Instruction) {
        insn.mnemonic = self.random.pick(&CARRY);
        let size = self.size();
        if self.random.once_in(4) {
            insn.first = Some(self.operand_of(size));
            if self.random.once_in(2) {
                insn.second = Some(self.operand_of(size));
            }
        }
    }

    fn jump(&mut self, insn: &mut Instruction) {
        insn.mnemonic = JE + self.random.below((COUNT - JE).into()) as u8;
        if !self.random.once_in(8) {
            insn.target = Some(self.number());
        }
        self.any_operands(insn);
    }

    /// A mov with a register outside class 1, at any sizes.
    fn wide_mov(&mut self, insn: &mut Instruction) {
        insn.mnemonic = MOV;
        let outside = Operand::Register(self.outside_class());
        let other = self.any_operand();
        let (first, second) =
            if self.random.once_in(2) { (outside, other) } else { (other, outside) };
        insn.first = Some(first);
        insn.second = Some(second);
    }

    pub fn call_like(&mut self, insn: &mut Instruction) {
        insn.call_like = true;
        insn.mnemonic = self.random.below(COUNT.into()) as u8;
        self.any_operands(insn);
    }

    /// A mnemonic of the table in a form that is not modelled, with any operands.
    fn unmodelled(&mut self, insn: &mut Instruction) {
        insn.mnemonic =
            self.random.pick(&[OTHER, OTHER, MOV, NOT, ADD, AND, TEST, INC, DEC, NEG, JLE]);
        self.any_operands(insn);
        let takes_one = UNARY.contains(&insn.mnemonic);
        let operands = usize::from(insn.first.is_some()) + usize::from(insn.second.is_some());
        let due = if takes_one { 1 } else { 2 };
        if insn.mnemonic != OTHER && insn.mnemonic < JE && operands == due {
            insn.first = Some(self.random.pick(&[Operand::Memory, Operand::Immediate(7)]));
        }
        if self.slip() {
            insn.mnemonic = self.random.pick(&[COUNT, COUNT + 1, 200, 255]);
        }
    }

    pub fn any_operands(&mut self, insn: &mut Instruction) {
        if self.random.once_in(2) {
            insn.first = Some(self.any_operand());
            if self.random.once_in(2) {
                insn.second = Some(self.any_operand());
            }
        }
    }

    fn some_address(&mut self, instructions: &[Instruction]) -> u64 {
        if instructions.is_empty() || self.random.once_in(4) {
            return self.number();
        }
        instructions[self.random.below(instructions.len())].address
    }

    pub fn block(&mut self, instructions: &[Instruction]) -> Block {
        let from = self.some_address(instructions);
        Block { from, to: self.some_address(instructions).wrapping_add(1) }
    }

    pub fn node(&mut self, size: Size, instructions: &[Instruction]) -> Node {
        let many = self.random.once_in(30);
        let count = self.upto(if many { 32 } else { 4 });
        let variables: Vec<u8> = (0..count).map(|_| self.type_code()).collect();
        let count = self.upto(size.statements);
        let statements = (0..count).map(|_| self.statement(&variables, size.depth)).collect();
        let condition = self.expression(&variables, size.depth);
        let count = self.upto(if many { 16 } else { 2 });
        let addresses = (0..count).map(|_| self.some_address(instructions)).collect();
        Node { variables, statements, condition, addresses }
    }

    fn type_code(&mut self) -> u8 {
        if self.slip() {
            value_type::COUNT
        } else {
            self.random.below(value_type::COUNT.into()) as u8
        }
    }

    fn statement(&mut self, variables: &[u8], depth: usize) -> Statement {
        if variables.is_empty() || self.random.once_in(5) {
            return Statement::Other;
        }
        let variable = self.random.below(variables.len()) as u8;
        let declared = variables[variable as usize];
        let mut value = self.expression(variables, depth);
        let fits = types::of_expression(&value, variables)
            .is_some_and(|found| types::plain(found) == types::plain(declared));
        if !fits && value.len() < 128 && !self.slip() {
            value.push(Record::Cast(declared));
        }
        let variable = if self.slip() { variables.len() as u8 } else { variable };
        Statement::Assign { variable, value }
    }

    /// A tree of at most 127 records.
    pub fn expression(&mut self, variables: &[u8], depth: usize) -> Expression {
        let mut records = Vec::new();
        self.tree(variables, depth, &mut records);
        if records.len() > 127 {
            records = vec![Record::True];
        }
        if self.slip() {
            self.spoil_expression(variables, &mut records);
        }
        records
    }

    /// Makes the records, in most cases, not one tree.
    fn spoil_expression(&mut self, variables: &[u8], records: &mut Expression) {
        let at = self.random.below(records.len());
        match self.random.below(4) {
            0 => *records = (0..self.random.below(6)).map(|_| self.any_record(variables)).collect(),
            1 => records.insert(at, self.leaf(variables)),
            2 => records.push(Record::Constant { width: 1, value: 256 }),
            _ => {
                records.remove(at);
            }
        }
    }

    fn tree(&mut self, variables: &[u8], depth: usize, records: &mut Expression) {
        let record =
            if depth == 0 || self.random.once_in(5) { self.leaf(variables) } else { self.inner() };
        for _ in 0..record.children() {
            self.tree(variables, depth - 1, records);
        }
        records.push(record);
    }

    fn leaf(&mut self, variables: &[u8]) -> Record {
        match self.random.below(6) {
            0..=2 if !variables.is_empty() => {
                let slip = self.slip();
                let number =
                    if slip { variables.len() } else { self.random.below(variables.len()) };
                Record::Variable(number as u8)
            }
            3 => Record::True,
            4 => Record::False,
            5 => Record::Effect(self.type_code()),
            _ => self.constant(),
        }
    }

    fn constant(&mut self) -> Record {
        let width = self.random.pick(&WIDTHS);
        let most = u64::MAX >> (64 - 8 * u32::from(width));
        let value = match self.random.below(3) {
            0 => most,
            _ => self.number() & most,
        };
        if self.slip() {
            return match self.random.below(2) {
                0 => Record::Constant { width: self.random.pick(&[0, 3, 5, 9]), value },
                _ => Record::Constant { width, value: most.wrapping_add(1) },
            };
        }
        Record::Constant { width, value }
    }

    fn inner(&mut self) -> Record {
        match self.random.below(8) {
            0 => Record::Load(self.type_code()),
            1 => Record::Cast(self.type_code()),
            2 => Record::Ternary,
            _ if self.slip() => Record::Binary(operator::COUNT),
            _ => Record::Binary(self.random.below(operator::COUNT.into()) as u8),
        }
    }

    fn any_record(&mut self, variables: &[u8]) -> Record {
        match self.random.below(10) {
            0 => Record::Unknown(kind::TERNARY + 1),
            1..=4 => self.inner(),
            _ => self.leaf(variables),
        }
    }
}
