//! Random sheets aimed at the sentences of blocks: every name of a register,
//! values on both sides of the change from base ten to base sixteen, the carry
//! beside a result of another instruction, chains of cmc, and blocks as long as
//! a sheet can hold.

use crate::cases::any_sheet::Generator;
use crate::cases::block_sheet::{binary, of_pieces};
use crate::sheets::names::flag;
use crate::sheets::names::mnemonic::*;
use crate::sheets::syntax::*;

/// Sheet number `index` of the run with this seed.
pub fn sheet(seed: u64, index: u64, with_nodes: bool) -> Vec<u8> {
    let mut generator = Generator::new(!seed, index, 0);
    let pieces = match generator.random.below(400) {
        0 => vec![long(&mut generator)],
        _ => (0..1 + generator.random.below(8)).map(|_| piece(&mut generator)).collect(),
    };
    of_pieces(&mut generator, pieces, with_nodes)
}

/// Instructions of a sheet.
const MOST: usize = 2_048;

/// Numbers that are written one way or the other, or at which flags change.
const EDGES: [i64; 9] = [-10, -9, -2, -1, 0, 1, 8, 9, 10];

/// Writes a piece of code. Addresses are given later.
struct Writer<'a> {
    generator: &'a mut Generator,
    list: Vec<Instruction>,
}

fn piece(generator: &mut Generator) -> Vec<Instruction> {
    let kind = generator.random.below(10);
    let mut writer = Writer { generator, list: Vec::new() };
    match kind {
        0..=2 => writer.on_known_operands(),
        3 => writer.with_itself(),
        4 => writer.on_an_unknown_operand(),
        5..=8 => writer.carry_and_result(),
        _ => writer.count_register(),
    }
    for _ in 0..writer.below(3) {
        writer.little();
    }
    let count = kind > 8;
    writer.jump(count);
    writer.list
}

/// A block as long as a sheet allows.
fn long(generator: &mut Generator) -> Vec<Instruction> {
    let kind = generator.random.below(4);
    let mut writer = Writer { generator, list: Vec::new() };
    match kind {
        // Nothing is known of the carry.
        0 => {}
        1 => writer.carry(),
        // As long as a sentence can be: two names of three letters, two values
        // of sixteen digits, in both halves of a joined one.
        2 => {
            let [a, b] = [10, 11].map(|index| general(index, 64, 0));
            let value = 1 << 60 | writer.generator.random.draw() >> 8;
            writer.mov(a, value);
            writer.mov(b, value + 1);
            writer.list.push(binary(ADD, Operand::Register(a), Operand::Register(b)));
        }
        _ => {
            while writer.list.len() < MOST - 20 {
                writer.on_known_operands();
            }
            writer.list.truncate(MOST - 20);
        }
    }
    while writer.list.len() < MOST - 1 {
        writer.plain(CMC);
    }
    let mnemonic = writer.generator.random.pick(&[JB, JAE, JBE, JA]);
    writer.push_jump(mnemonic);
    writer.list
}

fn general(index: u8, size: u8, offset: u8) -> Register {
    Register { class: GENERAL_CLASS, index, size, offset }
}

fn mask(size: u8) -> u64 {
    u64::MAX >> (64 - size)
}

impl Writer<'_> {
    fn below(&mut self, limit: usize) -> usize {
        self.generator.random.below(limit)
    }

    fn chance(&mut self, times: usize) -> bool {
        self.generator.random.once_in(times)
    }

    fn plain(&mut self, mnemonic: u8) {
        self.list.push(Instruction { mnemonic, ..Default::default() });
    }

    fn mov(&mut self, register: Register, value: u64) {
        let operands = [Operand::Register(register), Operand::Immediate(value)];
        self.list.push(binary(MOV, operands[0], operands[1]));
    }

    /// Any that has a name, all alike often.
    fn register(&mut self) -> Register {
        let number = self.below(68);
        named_registers().nth(number).expect("there are 68 names").1
    }

    /// An edge at this size in most cases.
    fn value(&mut self, size: u8) -> u64 {
        let least = 1 << (size - 1);
        let any = self.generator.random.draw() >> self.below(64);
        let edge = self.generator.random.pick(&EDGES) as u64;
        let value = match self.below(8) {
            0 => least,
            1 => least - 1,
            2 => any,
            _ => edge,
        };
        value & mask(size)
    }

    /// Makes the register known, its part being this value.
    fn set(&mut self, register: Register, value: u64) {
        let Register { index, size, offset, .. } = register;
        if size == 64 {
            return self.mov(register, value);
        }
        let around = self.generator.random.draw() & !(mask(size) << offset);
        let whole = self.generator.random.pick(&[32, 64]);
        if self.chance(4) {
            // Another part first, then this one alone.
            self.mov(general(index, whole, 0), around);
            return self.mov(register, value);
        }
        self.mov(general(index, whole, 0), around | value << offset);
    }

    /// An instruction that has known operands alone.
    fn on_known_operands(&mut self) {
        let first = self.register();
        let value = self.value(first.size);
        self.set(first, value);
        if self.chance(3) {
            return self.one(first);
        }
        let mnemonic = self.generator.random.pick(&BINARY);
        let second = match self.below(6) {
            0..=2 => Operand::Immediate(self.value(first.size)),
            3 => Operand::Register(first),
            _ => self.second(first),
        };
        self.list.push(binary(mnemonic, Operand::Register(first), second));
    }

    /// A second register of the same size, made known; the first stays as it is.
    fn second(&mut self, first: Register) -> Operand {
        let mut other = self.register();
        while other.size != first.size {
            other = self.register();
        }
        let value = self.value(other.size);
        match other.index == first.index {
            true => self.mov(other, value),
            false => self.set(other, value),
        }
        Operand::Register(other)
    }

    /// inc, dec or neg.
    fn one(&mut self, register: Register) {
        let mnemonic = self.generator.random.pick(&[INC, DEC, NEG]);
        let some = if self.chance(4) { flag::CF } else { 0 };
        let flags = if mnemonic == NEG { flag::ALL } else { flag::ALL & !flag::CF | some };
        let first = Some(Operand::Register(register));
        self.list.push(Instruction { mnemonic, first, flags: Some(flags), ..Default::default() });
    }

    /// The value is not looked at by some of these.
    fn with_itself(&mut self) {
        let register = self.register();
        if self.chance(3) {
            let value = self.value(register.size);
            self.set(register, value);
        }
        let mnemonic = self.generator.random.pick(&[SUB, XOR, CMP, CMP, AND, OR, TEST, ADD]);
        let operand = Operand::Register(register);
        self.list.push(binary(mnemonic, operand, operand));
    }

    fn on_an_unknown_operand(&mut self) {
        let first = self.register();
        let second = match self.below(3) {
            0 => Operand::Memory,
            1 => Operand::Immediate(self.value(first.size)),
            _ => self.second(first),
        };
        let mnemonic = self.generator.random.pick(&[AND, OR, XOR, TEST, TEST, CMP]);
        self.list.push(binary(mnemonic, Operand::Register(first), second));
    }

    /// stc or clc, or a carry from known operands, turned round some times.
    fn carry(&mut self) {
        match self.below(5) {
            0 | 1 => self.plain(STC),
            2 | 3 => self.plain(CLC),
            _ => self.on_known_operands(),
        }
        for _ in 0..self.below(4) {
            self.plain(CMC);
        }
    }

    /// The carry from one instruction and the other flags from another, in both
    /// orders; some flags are forgotten now and then.
    fn carry_and_result(&mut self) {
        let carry_last = self.chance(3);
        if !carry_last {
            self.carry();
        }
        match self.below(4) {
            0 => self.on_known_operands(),
            1 => {
                // One that nothing is known of, at times.
                let register = self.register();
                self.one(register);
            }
            _ => {
                let register = self.register();
                let value = self.value(register.size);
                self.set(register, value);
                self.one(register);
            }
        }
        if carry_last {
            self.carry();
        }
        if self.chance(4) {
            let flags = self.generator.random.byte() & self.generator.random.byte() & flag::ALL;
            self.list.push(Instruction { flags: Some(flags), ..Default::default() });
        }
    }

    fn count_register(&mut self) {
        let size = self.generator.random.pick(&[16, 32, 64]);
        let value = self.value(size);
        self.set(general(1, size, 0), value);
    }

    /// Something that keeps what is known, or a part of it.
    fn little(&mut self) {
        match self.below(8) {
            0..=2 => self.plain(CMC),
            3 => self.plain(STC),
            4 => self.plain(CLC),
            5 => {
                let register = self.register();
                self.list.push(Instruction {
                    mnemonic: NOT,
                    first: Some(Operand::Register(register)),
                    ..Default::default()
                });
            }
            6 => {
                let register = self.register();
                let value = self.value(register.size);
                self.mov(register, value);
            }
            _ => {
                let register = self.register();
                self.one(register);
            }
        }
    }

    fn jump(&mut self, count: bool) {
        let mnemonic = match self.below(4) {
            _ if count => JRCXZ + self.below(3) as u8,
            0 | 1 => self.generator.random.pick(&[JBE, JA, JBE, JA, JLE, JG]),
            _ => JE + self.below(16) as u8,
        };
        self.push_jump(mnemonic);
    }

    fn push_jump(&mut self, mnemonic: u8) {
        let target = Some(self.generator.number());
        self.list.push(Instruction { mnemonic, target, ..Default::default() });
    }
}
