//! Machine code for the modelled instructions, in 64-bit mode: every encoding
//! that an instruction has among those with a register as first operand.

use crate::sheets::names::mnemonic::*;
use crate::sheets::syntax::{Instruction, Operand, Register};

/// Bytes of one instruction. With a memory operand the last four are left
/// for its distance from the instruction's end.
#[derive(Clone, Debug, PartialEq, Eq)]
pub struct Code {
    pub bytes: Vec<u8>,
    pub memory: bool,
}

/// What stands in the second half of a ModRM byte.
#[derive(Clone, Copy)]
enum Place {
    Register(Register),
    /// Memory at a distance from the instruction's end.
    Memory,
}

/// What stands in the middle of a ModRM byte.
#[derive(Clone, Copy)]
enum Middle {
    Register(Register),
    Digit(u8),
}

/// A register's number, or that of the byte above the lowest.
fn number(r: Register) -> u8 {
    if r.offset == 8 {
        r.index + 4
    } else {
        r.index
    }
}

/// Whether a byte register can be named only with a REX prefix.
fn needs_rex(r: Register) -> bool {
    r.size == 8 && r.offset == 0 && r.index >= 4
}

/// The prefixes for an instruction of this size on these registers, those
/// numbered by the `middle` and by the last field; nothing if a high byte
/// would meet a REX prefix.
fn prefixes(size: u8, middle: Option<Register>, last: Option<Register>) -> Option<Vec<u8>> {
    let bit = |r: Option<Register>, mask: u8| match r {
        Some(r) if r.index >= 8 => mask,
        _ => 0,
    };
    let rex = bit(middle, 4) | bit(last, 1) | if size == 64 { 8 } else { 0 };
    let all = || [middle, last].into_iter().flatten();
    let with_rex = rex != 0 || all().any(needs_rex);
    if with_rex && all().any(|r| r.offset == 8) {
        return None;
    }
    let mut bytes = Vec::new();
    if size == 16 {
        bytes.push(0x66);
    }
    if with_rex {
        bytes.push(0x40 | rex);
    }
    Some(bytes)
}

/// Prefixes, opcode, ModRM byte, immediate.
fn general(size: u8, opcode: u8, middle: Middle, place: Place, immediate: &[u8]) -> Option<Code> {
    let (named, digit) = match middle {
        Middle::Register(r) => (Some(r), number(r) & 7),
        Middle::Digit(digit) => (None, digit),
    };
    let (last, rest) = match place {
        Place::Register(r) => (Some(r), 0xC0 | number(r) & 7),
        Place::Memory => (None, 0x05),
    };
    let mut bytes = prefixes(size, named, last)?;
    bytes.extend([opcode, digit << 3 | rest]);
    let memory = matches!(place, Place::Memory);
    if memory {
        bytes.extend([0; 4]);
    }
    bytes.extend_from_slice(immediate);
    Some(Code { bytes, memory })
}

/// The opcode for bytes, or the next one for wider operands.
fn wide(opcode: u8, size: u8) -> u8 {
    opcode + u8::from(size != 8)
}

/// The low `bytes` bytes of an immediate, if the processor widens them to the
/// value at this size.
fn shortened(value: u64, size: u8, bytes: usize) -> Option<Vec<u8>> {
    let unused = 64 - u32::from(size);
    let cut = 64 - 8 * bytes as u32;
    let widened = ((value << cut) as i64 >> cut) as u64;
    (widened << unused == value << unused).then(|| value.to_le_bytes()[..bytes].to_vec())
}

/// The immediate of the size that instructions of this size have: at most
/// four bytes.
fn immediate(value: u64, size: u8) -> Option<Vec<u8>> {
    shortened(value, size, usize::from(size.min(32)) / 8)
}

/// Number of an arithmetic or logical instruction among the eight whose
/// encodings are alike.
fn arithmetic_number(mnemonic: u8) -> Option<u8> {
    Some(match mnemonic {
        ADD => 0,
        SUB => 5,
        CMP => 7,
        AND => 4,
        OR => 1,
        XOR => 6,
        _ => return None,
    })
}

/// Every encoding of an instruction; none if it has no such form.
pub fn encodings(insn: &Instruction) -> Vec<Code> {
    let found = match (insn.mnemonic, insn.first, insn.second) {
        (STC, _, _) => vec![plain(0xF9)],
        (CLC, _, _) => vec![plain(0xF8)],
        (CMC, _, _) => vec![plain(0xF5)],
        (mnemonic, Some(Operand::Register(r)), None) => one(mnemonic, r),
        (mnemonic, Some(Operand::Register(r)), Some(second)) => two(mnemonic, r, second),
        _ => Vec::new(),
    };
    found.into_iter().flatten().collect()
}

fn plain(byte: u8) -> Option<Code> {
    Some(Code { bytes: vec![byte], memory: false })
}

/// not, inc, dec, neg.
fn one(mnemonic: u8, r: Register) -> Vec<Option<Code>> {
    let (opcode, digit) = match mnemonic {
        NOT => (0xF6, 2),
        INC => (0xFE, 0),
        DEC => (0xFE, 1),
        NEG => (0xF6, 3),
        _ => return Vec::new(),
    };
    let opcode = wide(opcode, r.size);
    vec![general(r.size, opcode, Middle::Digit(digit), Place::Register(r), &[])]
}

fn two(mnemonic: u8, r: Register, second: Operand) -> Vec<Option<Code>> {
    match second {
        Operand::Register(other) => registers(mnemonic, r, other),
        Operand::Immediate(value) => with_immediate(mnemonic, r, value),
        _ => vec![from_memory(mnemonic, r)],
    }
}

/// The opcodes to write the last field from the middle one, and back.
fn directions(mnemonic: u8) -> Option<[Option<u8>; 2]> {
    match mnemonic {
        MOV => Some([Some(0x88), Some(0x8A)]),
        TEST => Some([Some(0x84), None]),
        _ => {
            let base = arithmetic_number(mnemonic)? * 8;
            Some([Some(base), Some(base + 2)])
        }
    }
}

fn registers(mnemonic: u8, r: Register, other: Register) -> Vec<Option<Code>> {
    let Some([to_last, to_middle]) = directions(mnemonic) else {
        return Vec::new();
    };
    let coded = |opcode: Option<u8>, middle: Register, last: Register| {
        let opcode = wide(opcode?, r.size);
        general(r.size, opcode, Middle::Register(middle), Place::Register(last), &[])
    };
    vec![coded(to_last, other, r), coded(to_middle, r, other)]
}

fn from_memory(mnemonic: u8, r: Register) -> Option<Code> {
    let [_, to_middle] = directions(mnemonic)?;
    general(r.size, wide(to_middle?, r.size), Middle::Register(r), Place::Memory, &[])
}

fn with_immediate(mnemonic: u8, r: Register, value: u64) -> Vec<Option<Code>> {
    match mnemonic {
        MOV => vec![mov_short(r, value), by_digit(0xC6, 0, r, value)],
        TEST => vec![by_digit(0xF6, 0, r, value), accumulator(0xA8, r, value)],
        _ => match arithmetic_number(mnemonic) {
            Some(number) => vec![
                by_digit(0x80, number, r, value),
                small(number, r, value),
                accumulator(number * 8 + 4, r, value),
            ],
            None => Vec::new(),
        },
    }
}

/// The register in the opcode, the immediate whole.
fn mov_short(r: Register, value: u64) -> Option<Code> {
    let mut bytes = prefixes(r.size, None, Some(r))?;
    let opcode = if r.size == 8 { 0xB0 } else { 0xB8 };
    bytes.push(opcode | number(r) & 7);
    bytes.extend_from_slice(&value.to_le_bytes()[..usize::from(r.size) / 8]);
    Some(Code { bytes, memory: false })
}

fn by_digit(opcode: u8, digit: u8, r: Register, value: u64) -> Option<Code> {
    let immediate = immediate(value, r.size)?;
    general(r.size, wide(opcode, r.size), Middle::Digit(digit), Place::Register(r), &immediate)
}

/// An immediate of one byte at a wider size.
fn small(digit: u8, r: Register, value: u64) -> Option<Code> {
    if r.size == 8 {
        return None;
    }
    let immediate = shortened(value, r.size, 1)?;
    general(r.size, 0x83, Middle::Digit(digit), Place::Register(r), &immediate)
}

/// The forms for al, ax, eax, rax alone.
fn accumulator(opcode: u8, r: Register, value: u64) -> Option<Code> {
    if r.index != 0 || r.offset != 0 {
        return None;
    }
    let mut bytes = prefixes(r.size, None, None)?;
    bytes.push(wide(opcode, r.size));
    bytes.extend(immediate(value, r.size)?);
    Some(Code { bytes, memory: false })
}

/// The short form of a jump over `distance` bytes; jcxz has none.
pub fn jump(mnemonic: u8, distance: u8) -> Option<Vec<u8>> {
    // The processor's numbers of the conditions e, ne, l, ge, le, g, b, ae,
    // be, a, s, ns, p, np, o, no.
    const CONDITIONS: [u8; 16] = [4, 5, 12, 13, 14, 15, 2, 3, 6, 7, 8, 9, 10, 11, 0, 1];
    match mnemonic {
        JE..=JNO => Some(vec![0x70 | CONDITIONS[usize::from(mnemonic - JE)], distance]),
        JRCXZ => Some(vec![0xE3, distance]),
        JECXZ => Some(vec![0x67, 0xE3, distance]),
        _ => None,
    }
}
