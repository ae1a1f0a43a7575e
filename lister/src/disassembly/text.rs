//! The output of `objdump -d -M intel`, line by line, with the bytes of each
//! instruction or without them.

use crate::disassembly::bits::Bits;

/// The format of a raw image.
const RAW: &str = "binary";

/// An instruction, or bytes that objdump could not decode.
#[derive(Clone, Copy, Debug, Default, PartialEq, Eq)]
pub struct Line<'a> {
    pub address: u64,
    /// What follows the address: prefixes, mnemonic, operands, comment.
    pub text: &'a str,
    /// The instruction's bytes as shown, the first ones if they take more than a
    /// line; empty if they are not shown.
    pub bytes: &'a str,
    /// How many bytes it has; 0 if they are not shown.
    pub size: u64,
    /// Something that is no instruction is between the line before and this one,
    /// or that line is of another section.
    pub after_gap: bool,
}

impl Line<'_> {
    /// The address behind the instruction, if its bytes are shown.
    pub fn end(&self) -> Option<u64> {
        (self.size > 0).then(|| self.address.wrapping_add(self.size))
    }
}

/// A name that objdump prints above an address.
#[derive(Clone, Copy, Debug, PartialEq, Eq)]
pub struct Label<'a> {
    pub address: u64,
    pub name: &'a str,
}

/// Lines and labels of all sections, each with rising addresses.
#[derive(Debug, Default, PartialEq, Eq)]
pub struct Disassembly<'a> {
    pub lines: Vec<Line<'a>>,
    pub labels: Vec<Label<'a>>,
    /// First and last address of the sections of linkage stubs, `.plt` and the
    /// like, whose jumps go to functions alone.
    pub stubs: Vec<(u64, u64)>,
    /// Whether the bytes of instructions are shown.
    pub with_bytes: bool,
    pub bits: Bits,
}

#[derive(Default)]
struct Section<'a> {
    name: &'a str,
    lines: Vec<Line<'a>>,
    labels: Vec<Label<'a>>,
    gap: bool,
}

/// A line with an address. One with bytes and no text goes on the one before; data
/// is shown as characters, with no tab before them.
pub struct Shown<'a> {
    pub address: u64,
    pub bytes: &'a str,
    pub text: &'a str,
    pub data: bool,
}

impl Shown<'_> {
    pub fn size(&self) -> u64 {
        self.bytes.split_whitespace().count() as u64
    }
}

/// What a line of the output is.
enum Kind<'a> {
    Empty,
    Format(&'a str),
    Section(&'a str),
    Label(Label<'a>),
    Instruction(Shown<'a>),
    Skipped,
    Relocation,
    Unclear,
}

fn hexadecimal(word: &str) -> Option<u64> {
    let digits = !word.is_empty() && word.bytes().all(|byte| byte.is_ascii_hexdigit());
    if digits {
        u64::from_str_radix(word, 16).ok()
    } else {
        None
    }
}

/// A name may have any character, so lines with one are known by their addresses.
fn kind(line: &str) -> Kind<'_> {
    if line.trim().is_empty() {
        return Kind::Empty;
    }
    if let Some(shown) = shown(line) {
        return Kind::Instruction(shown);
    }
    if let Some(label) = label(line) {
        return Kind::Label(label);
    }
    if let Some(format) = format(line) {
        return Kind::Format(format);
    }
    if let Some(name) = line.strip_prefix("Disassembly of section ") {
        return Kind::Section(name.trim_end_matches(':'));
    }
    if line.trim() == "..." {
        return Kind::Skipped;
    }
    if line.starts_with("\t\t") && line.contains(": R_") {
        return Kind::Relocation;
    }
    Kind::Unclear
}

/// The format of the file, which a line names behind the file and before all others.
fn format(line: &str) -> Option<&str> {
    let (_, format) = line.split_once("file format ")?;
    Some(format.trim())
}

/// The line of an instruction, with its bytes before it or without.
pub fn shown(line: &str) -> Option<Shown<'_>> {
    let (address, rest) = line.split_once(":\t")?;
    let address = hexadecimal(address.trim_start())?;
    let bytes = &rest[..leading_bytes(rest)];
    let (text, data) = match rest[bytes.len()..].trim_start_matches(' ') {
        text if bytes.is_empty() => (text, false),
        text => (text.trim_start_matches('\t'), !text.is_empty() && !text.starts_with('\t')),
    };
    Some(Shown { address, bytes: bytes.trim_end(), text: text.trim_end(), data })
}

/// The length of the bytes at the start of a text, each two digits and a space.
fn leading_bytes(text: &str) -> usize {
    let is_byte = |chunk: &[u8]| matches!(chunk, [a, b, b' '] if a.is_ascii_hexdigit() && b.is_ascii_hexdigit());
    3 * text.as_bytes().chunks(3).take_while(|chunk| is_byte(chunk)).count()
}

fn label(line: &str) -> Option<Label<'_>> {
    let (address, name) = line.split_once(" <")?;
    Some(Label { address: hexadecimal(address)?, name: name.strip_suffix(">:")? })
}

/// What makes an instruction's line one of another form of output.
fn other_form(text: &str) -> Option<&'static str> {
    // A name between < and > may have any character.
    let operands = text.split('<').next().unwrap_or("");
    if operands.contains('%') {
        return Some("this is AT&T syntax; objdump needs -M intel");
    }
    None
}

/// What the named format says of the code; that of a raw image says nothing.
fn bits_of(format: &str, raw: Option<Bits>, seen: Option<Bits>) -> Result<Bits, String> {
    let known = [Bits::B64, Bits::B32].into_iter().find(|bits| bits.format() == format);
    match known.or(raw.filter(|_| format == RAW)) {
        Some(_) if seen.is_some() => Err("the disassembly is of more than one file".to_string()),
        Some(bits) => Ok(bits),
        None => {
            let taken = [Bits::B64, Bits::B32].map(Bits::format).join(" and ");
            Err(format!("the file format is {format}; {taken} are taken"))
        }
    }
}

/// The disassembly, or why the text is none that can be taken. `raw` says what the
/// code of a raw image is.
pub fn read(text: &str, raw: Option<Bits>) -> Result<Disassembly<'_>, String> {
    let mut sections: Vec<Section> = Vec::new();
    let mut format = None;
    for (number, line) in text.lines().enumerate() {
        let at = |message: &str| format!("line {}: {message}", number + 1);
        let kind = kind(line);
        match kind {
            Kind::Empty => continue,
            Kind::Format(name) => {
                format = Some(bits_of(name, raw, format).map_err(|message| at(&message))?);
                continue;
            }
            _ if format.is_none() => {
                return Err(at("no disassembly: no line before it names a file format"))
            }
            Kind::Section(name) => {
                sections.push(Section { name, gap: true, ..Section::default() });
                continue;
            }
            _ => {}
        }
        let section = sections.last_mut().ok_or_else(|| at("no section is named before it"))?;
        section.take(kind).map_err(at)?;
    }
    let bits = format.ok_or("no disassembly: no line names a file format")?;
    Ok(Disassembly { bits, ..joined(sections)? })
}

impl Disassembly<'_> {
    pub fn in_stub(&self, address: u64) -> bool {
        self.stubs.iter().any(|(first, last)| *first <= address && address <= *last)
    }

    /// Whether the address is among those of the lines.
    pub fn reaches(&self, address: u64) -> bool {
        let ends = [self.lines.first(), self.lines.last()].map(|line| line.map(|l| l.address));
        ends[0] <= Some(address) && Some(address) <= ends[1]
    }

    /// An address with the name before it, as objdump shows the target of a jump.
    pub fn shown(&self, address: u64) -> String {
        let after = self.labels.partition_point(|label| label.address <= address);
        let Some(label) = after.checked_sub(1).map(|number| self.labels[number]) else {
            return format!("{address:x}");
        };
        match address - label.address {
            0 => format!("{address:x} <{}>", label.name),
            offset => format!("{address:x} <{}+{offset:#x}>", label.name),
        }
    }

    /// The number of the line at this address, or of the one before it.
    pub fn line_at(&self, address: u64) -> Result<usize, usize> {
        self.lines.binary_search_by_key(&address, |line| line.address)
    }
}

impl<'a> Section<'a> {
    fn take(&mut self, kind: Kind<'a>) -> Result<(), &'static str> {
        match kind {
            Kind::Label(label) => self.labels.push(label),
            Kind::Skipped => self.gap = true,
            Kind::Instruction(shown) => self.instruction(&shown)?,
            Kind::Relocation => {
                return Err("a relocation: the file is not linked, its code is not final")
            }
            _ => return Err("no line of a disassembly"),
        }
        Ok(())
    }

    fn instruction(&mut self, shown: &Shown<'a>) -> Result<(), &'static str> {
        let size = shown.size();
        if shown.data {
            self.gap = true;
            return Ok(());
        }
        if shown.text.is_empty() {
            let before = self.lines.last_mut().filter(|line| line.end() == Some(shown.address));
            before.ok_or("bytes without an instruction")?.size += size;
            return Ok(());
        }
        if let Some(form) = other_form(shown.text) {
            return Err(form);
        }
        let end = self.lines.last().and_then(Line::end);
        let after_gap = self.gap || end.is_some_and(|end| end != shown.address);
        let Shown { address, bytes, text, .. } = *shown;
        self.lines.push(Line { address, text, bytes, size, after_gap });
        self.gap = false;
        Ok(())
    }
}

/// The sections in the order of their addresses.
fn joined(mut sections: Vec<Section>) -> Result<Disassembly, String> {
    sections.retain(|section| !section.lines.is_empty());
    sections.sort_by_key(|section| section.lines[0].address);
    let mut all = Disassembly::default();
    for section in sections {
        if section.name.starts_with(".plt") {
            let last = section.lines[section.lines.len() - 1].address;
            all.stubs.push((section.lines[0].address, last));
        }
        all.lines.extend(section.lines);
        all.labels.extend(section.labels);
    }
    let lines = all.lines.windows(2).find(|pair| pair[0].address >= pair[1].address);
    if let Some(pair) = lines {
        let address = pair[1].address;
        return Err(format!("address {address:x} does not rise; the file may not be linked"));
    }
    if all.lines.is_empty() {
        return Err("no instruction is in the disassembly".to_string());
    }
    all.with_bytes = all.lines.iter().all(|line| line.size > 0);
    all.labels.sort_by_key(|label| label.address);
    Ok(all)
}
