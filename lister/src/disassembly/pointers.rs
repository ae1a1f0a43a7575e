//! Addresses of code that stand in data: pointers, and the offsets of jump
//! tables. Each is a place that an indirect jump may go to. More are found than
//! there are; that costs verdicts, and a missed one could make one wrong.

use crate::disassembly::bits::Bits;
use crate::disassembly::elf::{number, File, Section, Span};

fn in_code(code: &[Span], address: u64) -> bool {
    code.iter().any(|span| span.holds(address))
}

/// Every number in what is loaded, or stored by a relocation, that is an address of
/// code: of 8 bytes, and of 4 in 32-bit code and where the file is loaded where it says.
pub fn stored(file: &File, code: &[Span]) -> Vec<u64> {
    let mut found = match (file.bits, file.movable) {
        (Bits::B32, true) => words(file, code, 0),
        (Bits::B32, false) => numbers(file, code, 4),
        (Bits::B64, true) => numbers(file, code, 8),
        (Bits::B64, false) => [numbers(file, code, 8), numbers(file, code, 4)].concat(),
    };
    let relocated = file.relocated().into_iter();
    found.extend(relocated.filter(|address| in_code(code, *address)));
    found.extend(slot_table(file).into_iter().flat_map(|base| words(file, code, base)));
    if !file.movable {
        found.extend(gates(file, code));
    }
    found.sort_unstable();
    found.dedup();
    found
}

/// Every number of so many bytes, at every address.
fn numbers(file: &File, code: &[Span], size: usize) -> Vec<u64> {
    let windows = file.loaded().flat_map(|section| section.bytes.windows(size));
    let numbers = windows.filter_map(|word| number(word, 0, size));
    numbers.filter(|address| in_code(code, *address)).collect()
}

/// Tables of distances that are read as what they are.
const UNWINDING: [&str; 2] = [".eh_frame", ".eh_frame_hdr"];

/// The words of data of 32-bit code that may be loaded anywhere, each as a distance from
/// the base, as in its jump tables. An address is relocated there, so that it stands in no
/// code, and where it is not aligned a relocation says so.
fn words(file: &File, code: &[Span], base: u64) -> Vec<u64> {
    let is_data = |section: &&Section| !section.is_code() && !UNWINDING.contains(&section.name);
    let words = file.loaded().filter(is_data).flat_map(|section| section.bytes.chunks_exact(4));
    let words = words.filter_map(|word| number(word, 0, 4));
    let addresses = words.map(|word| file.bits.address(base.wrapping_add(word)));
    addresses.filter(|address| in_code(code, *address)).collect()
}

/// What 32-bit code that may be loaded anywhere reckons from: the table of the slots
/// that the loader fills.
pub fn slot_table(file: &File) -> Option<u64> {
    let table = file.section(".got.plt").or_else(|| file.section(".got"))?;
    (file.bits == Bits::B32).then_some(table.address)
}

/// The bytes of a gate, by which the processor enters code on an interrupt, and those of
/// an address in it; its kind is the byte before the last two of the 8 that both have.
const GATE_32: (usize, [usize; 4]) = (8, [0, 1, 6, 7]);
const GATE_64: (usize, [usize; 8]) = (16, [0, 1, 6, 7, 8, 9, 10, 11]);

/// The addresses of code in all that looks like a gate: for interrupts, traps and calls.
fn gates(file: &File, code: &[Span]) -> Vec<u64> {
    let (size, places): (usize, &[usize]) = match file.bits {
        Bits::B32 => (GATE_32.0, &GATE_32.1),
        Bits::B64 => (GATE_64.0, &GATE_64.1),
    };
    let windows = file.loaded().flat_map(|section| section.bytes.windows(size));
    let gates = windows.filter(|bytes| bytes[5] & 0x1c == 0x0c);
    let address = |bytes: &[u8]| {
        places.iter().rev().fold(0, |address, at| address << 8 | u64::from(bytes[*at]))
    };
    gates.map(address).filter(|address| in_code(code, *address)).collect()
}

/// endbr64 and endbr32 but for their last byte.
const ENDBR: [u8; 3] = [0xf3, 0x0f, 0x1e];
const ENDBR_LAST: [u8; 2] = [0xfa, 0xfb];

/// Where the instructions stand that mark the targets of indirect jumps.
pub fn marked(file: &File) -> Vec<u64> {
    let mut found = Vec::new();
    for segment in &file.segments {
        let marks = segment.bytes.windows(4).enumerate();
        let marks = marks.filter(|(_, w)| w[..3] == ENDBR && ENDBR_LAST.contains(&w[3]));
        found.extend(marks.map(|(at, _)| segment.address + at as u64));
    }
    found
}

/// The targets of a table of 4-byte offsets from a base, mostly its own start, if
/// `table` is one: as far as they lead to code, and not more than so many.
pub fn offsets(file: &File, code: &[Span], table: u64, base: u64, most: usize) -> Vec<u64> {
    let Some(section) = file.loaded().find(|section| covers(section, table)) else {
        return Vec::new();
    };
    let entries = section.bytes[(table - section.address) as usize..].chunks_exact(4).take(most);
    let targets = entries.map(|entry| {
        let offset = i32::from_le_bytes(entry.try_into().expect("a chunk of four"));
        file.bits.address(base.wrapping_add_signed(i64::from(offset)))
    });
    targets.take_while(|address| in_code(code, *address)).collect()
}

fn covers(section: &Section, address: u64) -> bool {
    section.address <= address && address - section.address < section.bytes.len() as u64
}
