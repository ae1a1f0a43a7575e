//! What is read of an ELF file beside its disassembly: sections, executable
//! segments, symbols, and whether its code is final.

use crate::disassembly::bits::Bits;

#[derive(Clone, Debug, PartialEq, Eq)]
pub struct Section<'a> {
    pub name: &'a str,
    pub kind: u32,
    pub flags: u64,
    pub address: u64,
    pub bytes: &'a [u8],
    pub size: u64,
    /// The number of a section that belongs to it: the symbols of relocations.
    pub link: usize,
}

/// What is loaded to be run: code, and whatever else stands beside it.
pub struct Segment<'a> {
    pub address: u64,
    pub bytes: &'a [u8],
}

pub struct File<'a> {
    pub bits: Bits,
    /// Where it starts to run, if it says so.
    pub entry: Option<u64>,
    /// Whether it may be loaded at any address.
    pub movable: bool,
    pub sections: Vec<Section<'a>>,
    pub segments: Vec<Segment<'a>>,
}

const ALLOCATED: u64 = 2;
const EXECUTABLE: u64 = 4;

/// Of segments: the kind that is loaded, and the flag of those that are run.
const LOADED: u64 = 1;
const RUN: u64 = 1;

const SYMBOLS: [u32; 2] = [2, 11];
const NO_BYTES: u32 = 8;
const DYNAMIC: u32 = 6;

/// Relocations, with addends and without: there the addend is what stands in the place.
const WITH_ADDENDS: u32 = 4;
const RELOCATIONS: [u32; 2] = [WITH_ADDENDS, 9];

/// Where fields stand that have other places in 32-bit files. Addresses, offsets and
/// sizes have the bytes of an address.
struct Layout {
    bits: Bits,
    /// Of the header: places of the tables of segments and sections, how many there
    /// are, and the number of the section of names.
    segments: u64,
    sections: u64,
    segment_count: u64,
    section_count: u64,
    names: u64,
    /// Of a segment: size of the entry, flags, place, address, size.
    segment: [u64; 5],
    /// Of a section: size of the entry, flags, address, place, size, linked section.
    section: [u64; 6],
    /// Of a symbol: size of the entry, type, section, address, size.
    symbol: [u64; 5],
}

const ELF64: Layout = Layout {
    bits: Bits::B64,
    segments: 32,
    sections: 40,
    segment_count: 56,
    section_count: 60,
    names: 62,
    segment: [56, 4, 8, 16, 32],
    section: [64, 8, 16, 24, 32, 40],
    symbol: [24, 4, 6, 8, 16],
};

const ELF32: Layout = Layout {
    bits: Bits::B32,
    segments: 28,
    sections: 32,
    segment_count: 44,
    section_count: 48,
    names: 50,
    segment: [32, 24, 4, 8, 16],
    section: [40, 8, 12, 16, 20, 24],
    symbol: [16, 12, 14, 4, 8],
};

impl Layout {
    fn word(&self, bytes: &[u8], at: u64) -> Option<u64> {
        number(bytes, at, self.bits.word())
    }
}

fn layout(bits: Bits) -> &'static Layout {
    match bits {
        Bits::B32 => &ELF32,
        Bits::B64 => &ELF64,
    }
}

/// A half-open range of addresses.
#[derive(Clone, Copy, Debug, PartialEq, Eq, PartialOrd, Ord)]
pub struct Span {
    pub start: u64,
    pub end: u64,
}

impl Span {
    pub fn holds(&self, address: u64) -> bool {
        self.start <= address && address < self.end
    }
}

/// Up to eight bytes as a number; nothing where there are not so many.
pub fn number(bytes: &[u8], at: u64, size: usize) -> Option<u64> {
    let at = usize::try_from(at).ok()?;
    let field = bytes.get(at..at.checked_add(size)?)?;
    Some(field.iter().rev().fold(0, |number, byte| number << 8 | u64::from(*byte)))
}

fn text_at(bytes: &[u8], at: u64) -> Option<&str> {
    let rest = bytes.get(usize::try_from(at).ok()?..)?;
    let length = rest.iter().position(|byte| *byte == 0)?;
    std::str::from_utf8(&rest[..length]).ok()
}

const CUT: &str = "the file is cut, or no ELF file that can be read";

/// The file, or why it cannot be listed.
pub fn read(bytes: &[u8]) -> Result<File<'_>, String> {
    if bytes.get(..4) != Some(b"\x7fELF") {
        return Err("no ELF file".to_string());
    }
    let field = |at, size| number(bytes, at, size).ok_or(CUT.to_string());
    let layout = match (field(4, 1)?, field(5, 1)?, field(18, 2)?) {
        (2, 1, 62) => &ELF64,
        (1, 1, 3) => &ELF32,
        _ => return Err("neither for x86-64 nor for 32-bit x86".to_string()),
    };
    let kind = field(16, 2)?;
    match kind {
        2 | 3 => {}
        1 => return Err("not linked: its addresses and constants are not final".to_string()),
        _ => return Err("neither a program nor a shared library".to_string()),
    }
    let file = File {
        bits: layout.bits,
        entry: Some(layout.word(bytes, 24).ok_or(CUT)?),
        movable: kind == 3,
        sections: sections(bytes, layout).ok_or(CUT)?,
        segments: segments(bytes, layout).ok_or(CUT)?,
    };
    if file.relocates_code() {
        return Err("its code is changed when it is loaded (text relocations)".to_string());
    }
    Ok(file)
}

fn sections<'a>(bytes: &'a [u8], layout: &Layout) -> Option<Vec<Section<'a>>> {
    let table = layout.word(bytes, layout.sections)?;
    // 0 also stands for more sections than the field can count.
    let count = number(bytes, layout.section_count, 2).filter(|count| *count > 0)?;
    let size = layout.section[0];
    let names_at = table + size * number(bytes, layout.names, 2)?;
    let names = contents(bytes, names_at, layout)?;
    (0..count).map(|index| section(bytes, table + size * index, names, layout)).collect()
}

/// The executable segments that are loaded.
fn segments<'a>(bytes: &'a [u8], layout: &Layout) -> Option<Vec<Segment<'a>>> {
    let table = layout.word(bytes, layout.segments)?;
    let [entry, flags, place, address, size] = layout.segment;
    let headers = (0..number(bytes, layout.segment_count, 2)?).map(|index| table + entry * index);
    let mut segments = Vec::new();
    for at in headers {
        if number(bytes, at, 4)? == LOADED && number(bytes, at + flags, 4)? & RUN != 0 {
            let start = usize::try_from(layout.word(bytes, at + place)?).ok()?;
            let size = usize::try_from(layout.word(bytes, at + size)?).ok()?;
            let bytes_of = bytes.get(start..start.checked_add(size)?)?;
            segments.push(Segment { address: layout.word(bytes, at + address)?, bytes: bytes_of });
        }
    }
    Some(segments)
}

/// The bytes of the section whose header stands at `at`.
fn contents<'a>(bytes: &'a [u8], at: u64, layout: &Layout) -> Option<&'a [u8]> {
    if number(bytes, at + 4, 4)? == u64::from(NO_BYTES) {
        return Some(&[]);
    }
    let [_, _, _, place, size, _] = layout.section;
    let start = usize::try_from(layout.word(bytes, at + place)?).ok()?;
    let size = usize::try_from(layout.word(bytes, at + size)?).ok()?;
    bytes.get(start..start.checked_add(size)?)
}

fn section<'a>(bytes: &'a [u8], at: u64, names: &'a [u8], layout: &Layout) -> Option<Section<'a>> {
    let [_, flags, address, _, size, link] = layout.section;
    Some(Section {
        name: text_at(names, number(bytes, at, 4)?)?,
        kind: number(bytes, at + 4, 4)? as u32,
        flags: layout.word(bytes, at + flags)?,
        address: layout.word(bytes, at + address)?,
        bytes: contents(bytes, at, layout)?,
        size: layout.word(bytes, at + size)?,
        link: number(bytes, at + link, 4)? as usize,
    })
}

/// An image without headers, all of it code.
pub fn raw(bytes: &[u8], bits: Bits, base: u64) -> File<'_> {
    let (flags, size) = (ALLOCATED | EXECUTABLE, bytes.len() as u64);
    let section = Section { name: "", kind: 1, flags, address: base, bytes, size, link: 0 };
    let segments = vec![Segment { address: base, bytes }];
    File { bits, entry: Some(base), movable: false, sections: vec![section], segments }
}

impl Section<'_> {
    pub fn is_code(&self) -> bool {
        self.flags & EXECUTABLE != 0
    }
}

impl<'a> File<'a> {
    pub fn section(&self, name: &str) -> Option<&Section<'a>> {
        self.sections.iter().find(|section| section.name == name)
    }

    /// What the processor can run: sections of code, and all else that is loaded
    /// with them.
    pub fn code(&self) -> Vec<Span> {
        let sections = self.sections.iter().filter(|section| section.is_code());
        let sections = sections.map(|s| Span { start: s.address, end: s.address + s.size });
        let segments = self.segments.iter();
        let segments = segments.map(|s| Span {
            start: s.address,
            end: s.address.saturating_add(s.bytes.len() as u64),
        });
        sections.chain(segments).collect()
    }

    /// The bytes from an address that can be run, to the end of its segment.
    pub fn code_at(&self, address: u64) -> Option<&'a [u8]> {
        self.segments.iter().find_map(|segment| {
            let at = usize::try_from(address.checked_sub(segment.address)?).ok()?;
            segment.bytes.get(at..).filter(|bytes| !bytes.is_empty())
        })
    }

    /// Sections that are in memory.
    pub fn loaded(&self) -> impl Iterator<Item = &Section<'a>> {
        self.sections.iter().filter(|section| section.flags & ALLOCATED != 0)
    }

    fn symbols(&self) -> impl Iterator<Item = &'a [u8]> + '_ {
        let size = layout(self.bits).symbol[0] as usize;
        let tables = self.sections.iter().filter(|section| SYMBOLS.contains(&section.kind));
        tables.flat_map(move |table| table.bytes.chunks_exact(size))
    }

    /// What relocations store: the addend, or a symbol's address with it.
    pub fn relocated(&self) -> Vec<u64> {
        let tables = self.sections.iter().filter(|section| RELOCATIONS.contains(&section.kind));
        let stored = tables.flat_map(|table| {
            let addends = usize::from(table.kind == WITH_ADDENDS);
            let entries = table.bytes.chunks_exact(self.bits.word() * (2 + addends));
            entries.filter_map(|entry| self.stored_by(table, entry))
        });
        stored.flatten().collect()
    }

    /// What one relocation of a table stores.
    fn stored_by(&self, table: &Section, entry: &[u8]) -> Option<[u64; 2]> {
        let layout = layout(self.bits);
        let word = self.bits.word() as u64;
        let addend = match table.kind {
            WITH_ADDENDS => layout.word(entry, 2 * word)?,
            _ => self.word_at(layout.word(entry, 0)?).unwrap_or(0),
        };
        // The upper half of a word, or all but its lowest byte, numbers the symbol.
        let symbol = layout.word(entry, word)? >> if self.bits == Bits::B64 { 32 } else { 8 };
        let [size, _, _, address, _] = layout.symbol;
        let symbols = self.sections.get(table.link).map_or(&[][..], |section| section.bytes);
        let at = symbol.checked_mul(size)?.checked_add(address)?;
        let base = layout.word(symbols, at).unwrap_or(0);
        Some([addend, addend.wrapping_add(base)].map(|stored| self.bits.address(stored)))
    }

    /// The word at an address of what is loaded.
    fn word_at(&self, address: u64) -> Option<u64> {
        self.loaded().find_map(|section| {
            number(section.bytes, address.checked_sub(section.address)?, self.bits.word())
        })
    }

    /// The addresses of the symbols that are defined here, whatever their type.
    pub fn named(&self) -> Vec<u64> {
        let layout = layout(self.bits);
        let [_, _, section, address, _] = layout.symbol;
        let defined = self.symbols().filter(|symbol| number(symbol, section, 2) != Some(0));
        defined.filter_map(|symbol| layout.word(symbol, address)).collect()
    }

    /// The ranges of the symbols that are functions with a size.
    pub fn functions(&self) -> Vec<Span> {
        let layout = layout(self.bits);
        self.symbols().filter_map(|symbol| function(symbol, layout)).collect()
    }

    /// Whether the entries of `.dynamic` say that the loader writes to code.
    fn relocates_code(&self) -> bool {
        let layout = layout(self.bits);
        let word = self.bits.word();
        let dynamic = self.sections.iter().filter(|section| section.kind == DYNAMIC);
        dynamic.flat_map(|section| section.bytes.chunks_exact(2 * word)).any(|entry| {
            let (tag, value) = (layout.word(entry, 0), layout.word(entry, word as u64));
            tag == Some(22) || (tag == Some(30) && value.unwrap_or(0) & 4 != 0)
        })
    }
}

/// The range of a symbol, if it is a function that is defined and has a size.
fn function(symbol: &[u8], layout: &Layout) -> Option<Span> {
    let [_, kind, section, address, size] = layout.symbol;
    let kind = number(symbol, kind, 1)? & 15;
    let (start, size) = (layout.word(symbol, address)?, layout.word(symbol, size)?);
    let defined = number(symbol, section, 2)? != 0;
    let function = [2, 10].contains(&kind) && defined && size > 0;
    function.then_some(Span { start, end: start.checked_add(size)? })
}
