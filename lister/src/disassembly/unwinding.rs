//! The tables by which exceptions are unwound, `.eh_frame` and what it points
//! to: the ranges of functions, and the landing pads, which no jump names.

use crate::disassembly::bits::Bits;
use crate::disassembly::elf::{number, File, Section, Span};

#[derive(Debug, Default, PartialEq, Eq)]
pub struct Unwinding {
    pub functions: Vec<Span>,
    pub pads: Vec<u64>,
    /// Functions whose landing pads cannot be read.
    pub unread: Vec<Span>,
}

/// How a pointer is stored; 0xff is for none.
type Encoding = u8;
const OMITTED: Encoding = 0xff;
const PLAIN: Encoding = 0;

/// Bytes that are read one field after the other, with the address of the next.
struct Fields<'a> {
    bytes: &'a [u8],
    address: u64,
    bits: Bits,
}

impl<'a> Fields<'a> {
    fn of(section: &Section<'a>, address: u64, bits: Bits) -> Option<Fields<'a>> {
        let at = usize::try_from(address.checked_sub(section.address)?).ok()?;
        let bytes = section.bytes.get(at..).filter(|bytes| !bytes.is_empty())?;
        Some(Fields { bytes, address, bits })
    }

    /// Some of the next bytes, to be read by themselves.
    fn part(&mut self, size: u64) -> Option<Fields<'a>> {
        let Fields { address, bits, .. } = *self;
        Some(Fields { bytes: self.take(usize::try_from(size).ok()?)?, address, bits })
    }

    fn take(&mut self, size: usize) -> Option<&'a [u8]> {
        let (taken, rest) = self.bytes.split_at_checked(size)?;
        self.bytes = rest;
        self.address += size as u64;
        Some(taken)
    }

    fn unsigned(&mut self, size: usize) -> Option<u64> {
        number(self.take(size)?, 0, size)
    }

    fn signed(&mut self, size: usize) -> Option<u64> {
        let shift = 64 - 8 * size as u32;
        Some(((self.unsigned(size)? << shift) as i64 >> shift) as u64)
    }

    /// A number in groups of seven bits, lowest first.
    fn leb(&mut self, signed: bool) -> Option<u64> {
        let (mut value, mut shift) = (0, 0);
        loop {
            let byte = self.unsigned(1)?;
            if shift < 64 {
                value |= (byte & 0x7f) << shift;
            }
            shift += 7;
            if byte & 0x80 == 0 {
                let negative = signed && byte & 0x40 != 0 && shift < 64;
                return Some(if negative { value | u64::MAX << shift } else { value });
            }
        }
    }

    fn text(&mut self) -> Option<&'a [u8]> {
        let length = self.bytes.iter().position(|byte| *byte == 0)?;
        let text = self.take(length)?;
        self.take(1)?;
        Some(text)
    }

    /// A pointer; 0 stays 0.
    fn pointer(&mut self, encoding: Encoding) -> Option<u64> {
        let here = self.address;
        let value = match encoding & 0x0f {
            0 | 4 | 12 => self.unsigned(self.bits.word())?,
            1 => self.leb(false)?,
            2 => self.unsigned(2)?,
            3 => self.unsigned(4)?,
            9 => self.leb(true)?,
            10 => self.signed(2)?,
            11 => self.signed(4)?,
            _ => return None,
        };
        match encoding & 0x70 {
            _ if value == 0 => Some(0),
            0 => Some(self.bits.address(value)),
            0x10 => Some(self.bits.address(here.wrapping_add(value))),
            _ => None,
        }
    }
}

/// What the frames of functions have in common.
#[derive(Clone, Copy)]
struct Common {
    addresses: Encoding,
    pads: Encoding,
    augmented: bool,
}

fn common(fields: &mut Fields) -> Option<Common> {
    let version = fields.unsigned(1)?;
    let augmentation = fields.text()?;
    fields.leb(false)?;
    fields.leb(true)?;
    if version == 1 {
        fields.unsigned(1)?;
    } else {
        fields.leb(false)?;
    }
    let augmented = augmentation.first() == Some(&b'z');
    let mut common = Common { addresses: PLAIN, pads: OMITTED, augmented };
    if augmented {
        fields.leb(false)?;
    } else if !augmentation.is_empty() {
        return None;
    }
    for letter in augmentation.iter().skip(1) {
        match letter {
            b'R' => common.addresses = fields.unsigned(1)? as Encoding,
            b'L' => common.pads = fields.unsigned(1)? as Encoding,
            b'P' => {
                let encoding = fields.unsigned(1)? as Encoding;
                fields.pointer(encoding & 0x7f)?;
            }
            b'S' | b'B' => {}
            _ => return None,
        }
    }
    Some(common)
}

/// Reads the tables; nothing where they are damaged.
pub fn read(file: &File) -> Option<Unwinding> {
    let mut unwinding = Unwinding::default();
    let Some(section) = file.section(".eh_frame") else {
        return Some(unwinding);
    };
    let bits = file.bits;
    let mut fields = Fields { bytes: section.bytes, address: section.address, bits };
    while !fields.bytes.is_empty() {
        let length = fields.unsigned(4)?;
        if length == 0 {
            continue;
        }
        let address = fields.address;
        let mut record = fields.part(length)?;
        let back = record.unsigned(4)?;
        if back != 0 {
            frame(file, section, &mut record, address.checked_sub(back)?, &mut unwinding)?;
        }
    }
    Some(unwinding)
}

/// The record of a function; `common_at` is where the one for its common part is.
fn frame(
    file: &File,
    section: &Section,
    record: &mut Fields,
    common_at: u64,
    unwinding: &mut Unwinding,
) -> Option<()> {
    let mut fields = Fields::of(section, common_at, file.bits)?;
    fields.take(8)?;
    let common = common(&mut fields)?;
    let start = record.pointer(common.addresses)?;
    let size = record.pointer(common.addresses & 0x0f)?;
    let function = Span { start, end: start.checked_add(size)? };
    unwinding.functions.push(function);
    if !common.augmented || common.pads == OMITTED {
        return Some(());
    }
    record.leb(false)?;
    let table = record.pointer(common.pads)?;
    if table != 0 {
        match landing_pads(file, table, start) {
            Some(pads) => unwinding.pads.extend(pads),
            None => unwinding.unread.push(function),
        }
    }
    Some(())
}

fn landing_pads(file: &File, table: u64, function: u64) -> Option<Vec<u64>> {
    let mut fields = file.loaded().find_map(|section| Fields::of(section, table, file.bits))?;
    let encoding = fields.unsigned(1)? as Encoding;
    let base = if encoding == OMITTED { function } else { fields.pointer(encoding)? };
    if fields.unsigned(1)? as Encoding != OMITTED {
        fields.leb(false)?;
    }
    let encoding = fields.unsigned(1)? as Encoding;
    let length = fields.leb(false)?;
    let mut sites = fields.part(length)?;
    let mut pads = Vec::new();
    while !sites.bytes.is_empty() {
        sites.pointer(encoding)?;
        sites.pointer(encoding)?;
        let pad = sites.pointer(encoding)?;
        sites.leb(false)?;
        if pad != 0 {
            pads.push(file.bits.address(base.wrapping_add(pad)));
        }
    }
    Some(pads)
}
