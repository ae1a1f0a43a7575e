//! Changes of sheets: of their bytes, and of what they say where they are
//! accepted.

use oracle::cases::any_sheet::Generator;
use oracle::cases::random::Random;
use oracle::cases::verdict_node;
use oracle::judges::reader::read;
use oracle::sheets::encode::encode;
use oracle::sheets::syntax::{Block, Expression, Record, Sheet, Statement};

/// Bytes at which something happens.
const EDGES: [u8; 14] = [0, 1, 2, 3, 4, 7, 8, 16, 31, 32, 34, 63, 128, 255];

/// The sheets that are changed further, those that reading accepts apart.
#[derive(Default)]
pub struct Kept {
    accepted: Vec<Vec<u8>>,
    refused: Vec<Vec<u8>>,
}

impl Kept {
    pub fn keep(&mut self, sheet: Vec<u8>) {
        match read(&sheet) {
            Ok(_) => self.accepted.push(sheet),
            Err(_) => self.refused.push(sheet),
        }
    }

    pub fn count(&self) -> usize {
        self.accepted.len() + self.refused.len()
    }

    /// One of them, mostly one that is accepted.
    fn pick(&self, random: &mut Random) -> &[u8] {
        let list = match random.once_in(5) {
            true if !self.refused.is_empty() => &self.refused,
            _ if !self.accepted.is_empty() => &self.accepted,
            _ => &self.refused,
        };
        list.get(random.below(list.len().max(1))).map_or(&[], Vec::as_slice)
    }
}

/// One of the kept sheets, changed in one place or in several.
pub fn changed(random: &mut Random, kept: &Kept) -> Vec<u8> {
    let mut bytes = kept.pick(random).to_vec();
    let times = 1 + random.below(4);
    for _ in 0..times {
        bytes = match read(&bytes) {
            Ok(accepted) if !random.once_in(8) => {
                let other = read(kept.pick(random));
                let other = other.map_or_else(|_| Sheet::default(), |accepted| accepted.sheet);
                let mut sheet = accepted.sheet;
                change_content(random, &mut sheet, &other);
                encode(&sheet).bytes
            }
            _ => {
                let other = kept.pick(random).to_vec();
                change_bytes(random, bytes, &other)
            }
        };
    }
    bytes
}

fn change_bytes(random: &mut Random, mut bytes: Vec<u8>, other: &[u8]) -> Vec<u8> {
    let at = random.below(bytes.len() + 1);
    let length = random.below(12).min(bytes.len() - at);
    match random.below(7) {
        0 => bytes.truncate(at),
        1 if at < bytes.len() => bytes[at] ^= 1 << random.below(8),
        2 if at < bytes.len() => bytes[at] = random.pick(&EDGES),
        3 if at < bytes.len() => bytes[at] = random.byte(),
        4 => {
            bytes.drain(at..at + length);
        }
        5 => {
            let part = bytes[at..at + length].to_vec();
            bytes.splice(at..at, part);
        }
        _ if !other.is_empty() => {
            let from = random.below(other.len());
            let end = (from + random.below(20)).min(other.len());
            bytes.splice(at..at + length, other[from..end].iter().copied());
        }
        _ => bytes.push(random.byte()),
    }
    bytes
}

fn change_content(random: &mut Random, sheet: &mut Sheet, other: &Sheet) {
    match random.below(6) {
        0 => change_code(random, sheet, other),
        1 => change_blocks(random, sheet),
        2 => change_addresses(random, sheet),
        3 => {
            let mut generator = Generator::new(random.draw(), 0, 0);
            let node = verdict_node::node(&mut generator);
            sheet.nodes.push(node);
        }
        4 if !sheet.nodes.is_empty() => {
            let at = random.below(sheet.nodes.len());
            match random.below(3) {
                0 => drop(sheet.nodes.remove(at)),
                1 => sheet.nodes.push(sheet.nodes[at].clone()),
                _ => sheet.nodes.extend(other.nodes.first().cloned()),
            }
        }
        _ => change_expression(random, sheet),
    }
}

/// Instructions come and go; addresses rise again afterwards, each above the
/// last by the same as before, so that blocks still meet them.
fn change_code(random: &mut Random, sheet: &mut Sheet, other: &Sheet) {
    let mut generator = Generator::new(random.draw(), 0, 0);
    let at = random.below(sheet.instructions.len() + 1);
    match random.below(4) {
        0 if at < sheet.instructions.len() => drop(sheet.instructions.remove(at)),
        1 if at < sheet.instructions.len() => {
            let address = sheet.instructions[at].address;
            sheet.instructions[at] = generator.instruction(address);
        }
        2 if at < sheet.instructions.len() && !other.instructions.is_empty() => {
            let from = random.below(other.instructions.len());
            let address = sheet.instructions[at].address;
            sheet.instructions[at] = other.instructions[from].clone();
            sheet.instructions[at].address = address;
        }
        _ => {
            let address = sheet.instructions.last().map_or(0, |last| last.address);
            sheet.instructions.push(generator.instruction(address.saturating_add(1)));
        }
    }
}

fn change_blocks(random: &mut Random, sheet: &mut Sheet) {
    let mut ends: Vec<u64> = sheet.instructions.iter().map(|insn| insn.address).collect();
    ends.push(random.draw() >> random.below(64));
    let block = Block {
        from: random.pick(&ends),
        to: random.pick(&ends).saturating_add(random.below(2) as u64),
    };
    match sheet.blocks.len() {
        0 => sheet.blocks.push(block),
        count if random.once_in(3) => drop(sheet.blocks.remove(random.below(count))),
        count if random.once_in(2) => sheet.blocks[random.below(count)] = block,
        _ => sheet.blocks.push(block),
    }
}

fn change_addresses(random: &mut Random, sheet: &mut Sheet) {
    if sheet.nodes.is_empty() || sheet.instructions.is_empty() {
        return;
    }
    let at = random.below(sheet.nodes.len());
    let address = sheet.instructions[random.below(sheet.instructions.len())].address;
    let addresses = &mut sheet.nodes[at].addresses;
    match addresses.len() {
        0..16 if random.once_in(2) => addresses.push(address),
        0 => {}
        count => addresses[random.below(count)] = address.wrapping_add(random.below(2) as u64),
    }
}

/// A record of the condition or of a statement becomes another one with as
/// many children, or a part comes in at another place.
fn change_expression(random: &mut Random, sheet: &mut Sheet) {
    if sheet.nodes.is_empty() {
        return;
    }
    let at = random.below(sheet.nodes.len());
    let node = &mut sheet.nodes[at];
    let variables = node.variables.len();
    let mut parts: Vec<&mut Expression> = vec![&mut node.condition];
    for statement in &mut node.statements {
        if let Statement::Assign { value, .. } = statement {
            parts.push(value);
        }
    }
    let which = random.below(parts.len());
    let records = &mut *parts[which];
    let at = random.below(records.len());
    if random.once_in(3) {
        let from = random.below(records.len());
        let part = records[start(records, from)..=from].to_vec();
        records.splice(start(records, at)..=at, part);
        return;
    }
    records[at] = match records[at].children() {
        0 => leaf(random, variables),
        1 if random.once_in(3) => Record::Load(random.below(10) as u8),
        1 => Record::Cast(random.below(10) as u8),
        2 => Record::Binary(random.below(18) as u8),
        _ => Record::Ternary,
    };
}

/// The first record of the tree whose last record is at this place.
fn start(records: &[Record], end: usize) -> usize {
    let mut missing = 1;
    let mut at = end + 1;
    while missing > 0 {
        at -= 1;
        missing = missing - 1 + records[at].children();
    }
    at
}

fn leaf(random: &mut Random, variables: usize) -> Record {
    match random.below(6) {
        0 => Record::True,
        1 => Record::False,
        2 => Record::Effect(random.below(10) as u8),
        3 | 4 if variables > 0 => Record::Variable(random.below(variables) as u8),
        _ => {
            let width = random.pick(&[1, 2, 4, 8]);
            let any = random.draw();
            let value = random.pick(&[0, 1, 2, 3, 31, 32, any]);
            let value = if width == 8 { value } else { value % (1 << (8 * width)) };
            Record::Constant { width, value }
        }
    }
}
