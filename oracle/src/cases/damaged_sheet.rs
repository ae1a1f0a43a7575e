//! What the comparison feeds: good sheets, sheets with faults in their
//! syntax, and sheets whose bytes were damaged afterwards.

use crate::cases::any_sheet::{Generator, Size, SMALL};
use crate::sheets::encode::{encode, Encoder, Field};
use crate::sheets::names::value_type;
use crate::sheets::syntax::*;

const LARGE: Size = Size { instructions: 40, blocks: 20, nodes: 8, statements: 64, depth: 5 };

/// Nodes alone, so that faults in expressions are not hidden by others.
const NODES: Size = Size { instructions: 0, blocks: 0, ..SMALL };

/// Sheet number `index` of the run with this seed.
pub fn sheet(seed: u64, index: u64) -> Vec<u8> {
    let mut generator = Generator::new(seed, index, 0);
    match generator.random.below(100) {
        0..=34 => encode(&generator.sheet(SMALL)).bytes,
        35..=36 => encode(&generator.sheet(LARGE)).bytes,
        37..=69 => {
            let size = generator.random.pick(&[SMALL, NODES]);
            generator.slips = generator.random.pick(&[10, 40, 150]);
            encode(&generator.sheet(size)).bytes
        }
        70..=94 => damaged(&mut generator),
        95..=96 => at_limit(&mut generator),
        _ => noise(&mut generator),
    }
}

/// A sheet, good or with slips, damaged in one place or in up to three.
fn damaged(generator: &mut Generator) -> Vec<u8> {
    generator.slips = generator.random.pick(&[0, 0, 100]);
    let Encoder { mut bytes, fields } = encode(&generator.sheet(SMALL));
    let times = generator.random.pick(&[1, 1, 2, 3]);
    for _ in 0..times {
        damage(generator, &mut bytes, &fields);
    }
    bytes
}

fn damage(generator: &mut Generator, bytes: &mut Vec<u8>, fields: &[Field]) {
    let random = &mut generator.random;
    let at = random.below(bytes.len() + 1);
    match random.below(8) {
        0 => bytes.truncate(at),
        1 if at < bytes.len() => bytes[at] = random.byte(),
        2 if at < bytes.len() => bytes[at] ^= 1 << random.below(8),
        3 => bytes.insert(at, random.byte()),
        4 if at < bytes.len() => {
            bytes.remove(at);
        }
        5 => {
            let extra = 1 + random.below(9);
            (0..extra).for_each(|_| bytes.push(random.byte()));
        }
        6 => change_count(generator, bytes, fields),
        _ => change_field(generator, bytes, fields),
    }
}

fn change_count(generator: &mut Generator, bytes: &mut [u8], fields: &[Field]) {
    let random = &mut generator.random;
    let counts: Vec<&Field> = fields.iter().filter(|f| f.name.ends_with("count")).collect();
    let start = counts[random.below(counts.len())].start;
    let limits = [0, 1, 8, 9, 16, 17, 32, 33, 64, 65, 128, 129, 1024, 1025, 2048, 2049, 65535];
    let value: u16 = random.pick(&limits);
    if start + 2 <= bytes.len() {
        bytes[start..start + 2].copy_from_slice(&value.to_le_bytes());
    }
}

/// The first byte of a field becomes a neighbour of its value or of a limit.
fn change_field(generator: &mut Generator, bytes: &mut [u8], fields: &[Field]) {
    let random = &mut generator.random;
    let start = fields[random.below(fields.len())].start;
    if let Some(byte) = bytes.get_mut(start) {
        *byte = match random.below(4) {
            0 => byte.wrapping_add(1),
            1 => byte.wrapping_sub(1),
            2 => random.pick(&[0, 1, 2, 3, 4, 8, 9, 10, 15, 16, 17, 18, 31, 32, 34, 35, 64, 255]),
            _ => random.byte(),
        };
    }
}

/// Bytes of no sheet: any, or small ones, behind a small first count.
fn noise(generator: &mut Generator) -> Vec<u8> {
    let random = &mut generator.random;
    let length = random.pick(&[0, 1, 2, 3, 6, 12, 40, 200]);
    let small = random.once_in(2);
    let mut bytes: Vec<u8> =
        (0..length).map(|_| if small { random.below(4) as u8 } else { random.byte() }).collect();
    for (byte, value) in bytes.iter_mut().zip([random.below(3) as u8, 0]) {
        *byte = value;
    }
    bytes
}

/// One count of the sheet at its limit, or one above.
fn at_limit(generator: &mut Generator) -> Vec<u8> {
    let over = generator.random.below(2);
    let mut sheet = Sheet::default();
    let mut node = Node { variables: vec![6], condition: vec![Record::True], ..Default::default() };
    match generator.random.below(30) {
        0 => sheet.instructions = generator.instructions(2048 + over),
        1 => sheet.blocks = vec![Block { from: 0, to: 1 }; 1024 + over],
        2 => sheet.nodes = vec![node.clone(); 1024 + over],
        3..=8 => sheet.instructions = vec![writer_of(8 + over)],
        9..=13 => node.variables = vec![generator.random.below(10) as u8; 32 + over],
        14..=18 => node.statements = vec![Statement::Other; 64 + over],
        19..=24 => node.condition = chain(128 + over),
        _ => node.addresses = vec![generator.random.draw(); 16 + over],
    }
    if sheet.nodes.is_empty() {
        sheet.nodes.push(node);
    }
    encode(&sheet).bytes
}

fn writer_of(count: usize) -> Instruction {
    let register = Register { class: GENERAL_CLASS, index: 15, size: 64, offset: 0 };
    Instruction { written: Some(vec![register; count]), ..Default::default() }
}

/// A variable inside casts, `length` records in all.
fn chain(length: usize) -> Expression {
    let mut records = vec![Record::Variable(0)];
    records.resize(length, Record::Cast(value_type::U32));
    records
}
