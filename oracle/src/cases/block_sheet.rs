//! Random sheets aimed at verdicts on blocks: pieces of straight code that
//! mostly know what they work on and end in a jump, and blocks around them,
//! across them and beside them.

use crate::cases::any_sheet::Generator;
use crate::cases::damaged_sheet;
use crate::cases::verdict_node;
use crate::sheets::encode::encode;
use crate::sheets::names::flag;
use crate::sheets::names::mnemonic::*;
use crate::sheets::syntax::*;

/// Sheet number `index` of the run with this seed. One in fifty may be
/// refused.
pub fn sheet(seed: u64, index: u64, with_nodes: bool) -> Vec<u8> {
    let mut generator = Generator::new(seed, index, 0);
    if generator.random.once_in(50) {
        return damaged_sheet::sheet(!seed, index);
    }
    let many = generator.random.once_in(200);
    let count = 1 + generator.random.below(if many { 60 } else { 6 });
    let pieces = (0..count).map(|_| piece(&mut generator)).collect();
    of_pieces(&mut generator, pieces, with_nodes)
}

/// A sheet of these pieces of code, with blocks around them.
pub fn of_pieces(
    generator: &mut Generator,
    mut pieces: Vec<Vec<Instruction>>,
    with_nodes: bool,
) -> Vec<u8> {
    place(generator, &mut pieces);
    let blocks = blocks(generator, &pieces);
    let nodes = if with_nodes { nodes(generator) } else { Vec::new() };
    let sheet = Sheet { instructions: pieces.concat(), blocks, nodes };
    encode(&sheet).bytes
}

fn nodes(generator: &mut Generator) -> Vec<Node> {
    let count = 1 + generator.random.below(4);
    (0..count).map(|_| verdict_node::node(generator)).collect()
}

/// Gives the instructions addresses that rise.
fn place(generator: &mut Generator, pieces: &mut [Vec<Instruction>]) {
    let total: usize = pieces.iter().map(Vec::len).sum();
    let room = total as u64 * 8;
    let mut address = match generator.random.below(8) {
        0 => 0,
        1 => u64::MAX - room,
        _ => generator.random.draw() >> generator.random.below(60),
    };
    address = address.min(u64::MAX - room);
    for insn in pieces.iter_mut().flatten() {
        insn.address = address;
        address += 1 + generator.random.below(8) as u64;
    }
}

/// A block for each piece, and some that fit none.
fn blocks(generator: &mut Generator, pieces: &[Vec<Instruction>]) -> Vec<Block> {
    let all: Vec<u64> = pieces.iter().flatten().map(|insn| insn.address).collect();
    let mut list = Vec::new();
    for piece in pieces {
        let last = piece[piece.len() - 1].address;
        list.push(Block { from: piece[0].address, to: last.saturating_add(1) });
        if generator.random.once_in(2) {
            // From inside the piece, or from behind its start.
            let from = generator.random.pick(&all);
            list.push(Block { from: from.min(last), to: last.saturating_add(1) });
        }
    }
    for _ in 0..generator.random.below(4) {
        let [a, b] = [generator.random.pick(&all), generator.random.pick(&all)];
        list.push(match generator.random.below(6) {
            0 => Block { from: a, to: a },
            1 => Block { from: a, to: b },
            2 => Block { from: a.saturating_add(1), to: a.saturating_add(2) },
            3 => Block { from: 0, to: u64::MAX },
            4 => Block { from: generator.number(), to: generator.number() },
            _ => Block { from: a.min(b), to: a.max(b).saturating_add(1) },
        });
    }
    list
}

/// Two to eight instructions, the last one a jump in most cases. Addresses
/// are given later.
pub fn piece(generator: &mut Generator) -> Vec<Instruction> {
    let jump = jump(generator);
    let mut coder = Coder::new(generator);
    if COUNT_JUMPS.contains(&jump.mnemonic) {
        coder.pool[0] = 1;
    }
    let mut list: Vec<Instruction> = Vec::new();
    for number in coder.pool {
        if !coder.generator.random.once_in(4) {
            list.push(coder.set(number));
        }
    }
    for _ in 0..1 + coder.generator.random.below(4) {
        list.push(coder.instruction());
    }
    list.push(jump);
    list
}

fn jump(generator: &mut Generator) -> Instruction {
    let target = Some(generator.number());
    let mnemonic = match generator.random.below(20) {
        0 => return unusual_end(generator),
        1..=3 => JRCXZ + generator.random.below(3) as u8,
        _ => JE + generator.random.below(16) as u8,
    };
    let mut insn = Instruction { mnemonic, target, ..Default::default() };
    if generator.random.once_in(2) {
        insn.first = target.map(Operand::Immediate);
    }
    insn
}

/// An end that is no branch, or a branch that is no jump.
fn unusual_end(generator: &mut Generator) -> Instruction {
    let mut insn = generator.instruction(0);
    insn.target = None;
    if !insn.call_like && generator.random.once_in(2) {
        insn.target = Some(generator.number());
    }
    insn
}

/// Writes instructions that work on a few registers, so that what one sets
/// the next one reads.
struct Coder<'a> {
    generator: &'a mut Generator,
    pool: [u8; 3],
}

impl Coder<'_> {
    fn new(generator: &mut Generator) -> Coder<'_> {
        let pool = [(); 3].map(|()| {
            let few = generator.random.once_in(2);
            generator.random.below(if few { 4 } else { 16 }) as u8
        });
        Coder { generator, pool }
    }

    fn chance(&mut self, times: usize) -> bool {
        self.generator.random.once_in(times)
    }

    /// A register of the pool in most cases.
    fn register(&mut self, size: u8) -> Register {
        if self.chance(8) {
            return self.generator.general(size);
        }
        let index = self.generator.random.pick(&self.pool);
        let high = size == 8 && index < 4 && self.chance(3);
        Register { class: GENERAL_CLASS, index, size, offset: if high { 8 } else { 0 } }
    }

    fn size(&mut self) -> u8 {
        self.generator.size()
    }

    /// Values at which flags change, and what lies beyond the size.
    fn immediate(&mut self, size: u8) -> Operand {
        let random = &mut self.generator.random;
        let most = u64::MAX >> (64 - u32::from(size));
        let value = match random.below(9) {
            0 | 1 => 0,
            2 => 1,
            3 => most,
            4 => most / 2,
            5 => most / 2 + 1,
            6 => random.below(8) as u64,
            7 => 1 << random.below(64),
            _ => random.draw(),
        };
        let beyond = match random.below(4) {
            0 => random.draw(),
            1 => u64::MAX,
            _ => 0,
        };
        Operand::Immediate(value & most | beyond & !most)
    }

    /// A mov of an immediate to the whole of a register.
    fn set(&mut self, index: u8) -> Instruction {
        let size = self.generator.random.pick(&[32, 64]);
        let register = Register { class: GENERAL_CLASS, index, size, offset: 0 };
        let second = self.immediate(size);
        binary(MOV, Operand::Register(register), second)
    }

    fn instruction(&mut self) -> Instruction {
        let mut insn = match self.generator.random.below(100) {
            0..=13 => {
                let index = self.generator.random.pick(&self.pool);
                self.set(index)
            }
            14..=25 => self.two(&[MOV]),
            26..=53 => self.two(&BINARY),
            54..=63 => self.with_itself(),
            64..=79 => self.one(),
            80..=88 => self.flag_instruction(),
            89..=91 => self.other_class(),
            92..=95 => self.unmodelled(),
            96 => self.call_like(),
            _ => return self.generator.instruction(0),
        };
        if self.chance(6) {
            self.declare(&mut insn);
        }
        if !insn.call_like && self.chance(30) {
            insn.target = Some(7);
        }
        insn
    }

    fn two(&mut self, mnemonics: &[u8]) -> Instruction {
        let size = self.size();
        let mnemonic = self.generator.random.pick(mnemonics);
        let first = Operand::Register(self.register(size));
        let second = match self.generator.random.below(20) {
            0..=9 => self.immediate(size),
            10..=18 => Operand::Register(self.register(size)),
            _ => Operand::Memory,
        };
        binary(mnemonic, first, second)
    }

    fn with_itself(&mut self) -> Instruction {
        let size = self.size();
        let mnemonic =
            self.generator.random.pick(&[MOV, ADD, SUB, SUB, CMP, CMP, AND, OR, XOR, XOR, TEST]);
        let register = self.register(size);
        let mut other = register;
        if size == 8 && register.index < 4 && self.chance(3) {
            // The other byte of the same register, which is not the same.
            other.offset ^= 8;
        }
        binary(mnemonic, Operand::Register(register), Operand::Register(other))
    }

    fn one(&mut self) -> Instruction {
        let size = self.size();
        let mnemonic = self.generator.random.pick(&UNARY);
        let first = Some(Operand::Register(self.register(size)));
        let flags = match mnemonic {
            NOT => None,
            NEG => Some(flag::ALL),
            _ if self.chance(4) => Some(flag::ALL),
            _ => Some(flag::ALL & !flag::CF),
        };
        Instruction { mnemonic, first, flags, ..Default::default() }
    }

    fn flag_instruction(&mut self) -> Instruction {
        let mnemonic = self.generator.random.pick(&CARRY);
        Instruction { mnemonic, ..Default::default() }
    }

    /// A mov between a class that is not looked into and the pool, the index
    /// being that of a register of the pool.
    fn other_class(&mut self) -> Instruction {
        let size = self.size();
        let mut outside = self.register(size);
        outside.class = self.generator.random.pick(&[0, 2, 3, 11, 255]);
        let [a, b] = [outside, self.register(size)].map(Operand::Register);
        if self.chance(2) {
            binary(MOV, a, b)
        } else {
            binary(MOV, b, a)
        }
    }

    /// Something that changes what it declares, in one form or another.
    fn unmodelled(&mut self) -> Instruction {
        let mut insn = match self.generator.random.below(4) {
            0 => binary(self.generator.random.pick(&[MOV, ADD, CMP, XOR]), Operand::Memory, {
                let size = self.size();
                Operand::Register(self.register(size))
            }),
            1 => {
                let mnemonic = self.generator.random.pick(&UNARY);
                Instruction { mnemonic, first: Some(Operand::Memory), ..Default::default() }
            }
            _ => {
                let mut insn = Instruction::default();
                self.generator.any_operands(&mut insn);
                insn
            }
        };
        self.declare(&mut insn);
        insn
    }

    fn call_like(&mut self) -> Instruction {
        let mut insn = Instruction::default();
        self.generator.call_like(&mut insn);
        insn
    }

    /// Adds declared registers, of the pool and of any kind, and flags.
    fn declare(&mut self, insn: &mut Instruction) {
        if !self.chance(3) {
            let count = self.generator.random.below(3);
            insn.written = Some((0..count).map(|_| self.declared()).collect());
        }
        if !self.chance(3) {
            let flags = self.generator.random.byte() & self.generator.random.byte() & flag::ALL;
            insn.flags = Some(insn.flags.unwrap_or(0) | flags);
        }
    }

    fn declared(&mut self) -> Register {
        let size = self.size();
        match self.generator.random.below(4) {
            0 => self.generator.any_register(),
            1 => Register { class: 2, ..self.register(size) },
            _ => self.register(size),
        }
    }
}

pub fn binary(mnemonic: u8, first: Operand, second: Operand) -> Instruction {
    Instruction { mnemonic, first: Some(first), second: Some(second), ..Default::default() }
}
