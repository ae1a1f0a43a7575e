//! A program as the lister sees it: its disassembly, what its file says besides, where
//! control goes, and where blocks start.

use crate::disassembly::assumptions::{self, Assumption};
use crate::disassembly::bits::Bits;
use crate::disassembly::blocks::{leaders, Leaders};
use crate::disassembly::control_flow::{self, ControlFlow, Outside};
use crate::disassembly::elf::{self, File, Span};
use crate::disassembly::text::{self, Disassembly};
use crate::disassembly::{hidden, objdump, pointers, unwinding};
use std::fs;
use std::io::{self, Read};

/// What is listed.
#[derive(Clone, Copy, Debug, PartialEq, Eq)]
pub enum Kind {
    /// A linked file.
    Linked,
    /// The disassembly of one.
    Text,
    /// Bytes without headers, and where they are loaded.
    Raw { bits: Bits, base: u64 },
}

/// What the user says of the code, and nobody checks.
#[derive(Debug, Default)]
pub struct Hints {
    /// Where functions start.
    pub functions: Vec<u64>,
    /// What else is entered.
    pub entries: Vec<u64>,
    /// Functions start where direct calls go.
    pub calls: bool,
}

/// What is read of a file, and of objdump.
pub struct Input {
    kind: Kind,
    bytes: Vec<u8>,
    text: String,
}

pub struct Program<'a> {
    pub text: Disassembly<'a>,
    pub control: ControlFlow,
    pub outside: Outside,
    pub leaders: Leaders,
    /// What is not known of it.
    pub notes: Vec<&'static str>,
    pub assumed: Vec<Assumption>,
}

/// What the file says about entries and functions.
fn outside(file: &File) -> Result<Outside, String> {
    let code = file.code();
    let unwinding = unwinding::read(file).ok_or("its unwinding tables (.eh_frame) are damaged")?;
    let mut outside = Outside {
        functions: unwinding.functions,
        unread: unwinding.unread,
        entries: unwinding.pads,
        possible: pointers::stored(file, &code),
        ..Outside::default()
    };
    outside.possible.extend(pointers::marked(file));
    outside.possible.extend(file.named());
    outside.entries.extend(file.entry);
    outside.functions.extend(file.functions());
    outside.bases.extend(pointers::slot_table(file));
    if !file.movable {
        outside.bases.push(0);
    }
    for name in [".got", ".got.plt"] {
        let slots = file.section(name).map(|s| Span { start: s.address, end: s.address + s.size });
        outside.slots.extend(slots);
    }
    Ok(outside)
}

/// Adds the targets of tables that instructions address.
fn add_tables(file: &File, control: &ControlFlow, outside: &mut Outside) {
    let code = file.code();
    let targets = control
        .named
        .iter()
        .flat_map(|table| pointers::offsets(file, &code, *table, *table, usize::MAX));
    outside.possible.extend(targets);
}

/// Adds the targets of tables of distances from own addresses. Those of distances from
/// the table of slots are found without their address.
fn add_reckoned(file: &File, control: &ControlFlow, outside: &mut Outside) {
    let slots = pointers::slot_table(file);
    let tables = control.reckoned.iter().copied().filter(|(_, base)| slots != Some(*base));
    outside.possible.extend(bounded(file, control, tables));
}

/// The targets of tables of distances from a base, each read no further than to the next
/// address that an instruction names: what follows belongs to another table, and leads
/// between lines.
fn bounded(
    file: &File,
    control: &ControlFlow,
    tables: impl Iterator<Item = (u64, u64)>,
) -> Vec<u64> {
    let code = file.code();
    let targets = tables.flat_map(|(table, base)| {
        let next = control.named.partition_point(|named| *named <= table);
        let end = control.named.get(next).copied().unwrap_or(u64::MAX);
        let most = usize::try_from((end - table).div_ceil(4)).unwrap_or(usize::MAX);
        pointers::offsets(file, &code, table, base, most)
    });
    targets.collect()
}

/// Adds what runs from entries that the text does not show.
fn add_hidden(
    file: &File,
    text: &Disassembly,
    control: &ControlFlow,
    outside: &mut Outside,
) -> Result<(), String> {
    let functions = outside.functions.iter().map(|span| span.start);
    let shown = control.targets.iter().chain(&control.named).chain(&control.unseen);
    let known = outside.entries.iter().chain(&outside.possible);
    let wide = control
        .unclear
        .iter()
        .filter_map(|address| control_flow::wide_target(file.code_at(*address)?, *address));
    let starts = shown.chain(known).copied().chain(functions).chain(wide);
    let tables = control.named.iter().map(|table| (*table, *table));
    let starts = starts.chain(bounded(file, control, tables));
    let is_hidden = |at: &u64| text.line_at(*at).is_err() && file.code_at(*at).is_some();
    let starts = starts.filter(is_hidden).collect();
    hidden::follow(text, outside, starts, &|places| objdump::runs(file, places))
}

const TEXT_ALONE: &str = "from the text alone: landing pads, tables and pointers to code, and \
    whether the file is linked, are not known";

const NO_BYTES: &str = "without the bytes of instructions (--show-raw-insn): data among the \
    code, what is left out, and prefixes that are not shown, are not known";

impl Input {
    pub fn read(path: &str, kind: Kind) -> Result<Input, String> {
        let bytes = content(path)?;
        let text = match kind {
            Kind::Text => String::from_utf8_lossy(&bytes).into_owned(),
            Kind::Linked => {
                elf::read(&bytes)?;
                disassembled(path, &bytes, objdump::disassembled)?
            }
            Kind::Raw { bits, base } => {
                let raw = |path: &str| objdump::disassembled_raw(path, bits, base);
                disassembled(path, &bytes, raw)?
            }
        };
        Ok(Input { kind, bytes, text })
    }

    pub fn program(&self, hints: &Hints) -> Result<Program<'_>, String> {
        match self.kind {
            Kind::Text => Ok(of_text(text::read(&self.text, None)?)),
            Kind::Linked => of_file(&elf::read(&self.bytes)?, text::read(&self.text, None)?, hints),
            Kind::Raw { bits, base } => {
                let file = elf::raw(&self.bytes, bits, base);
                let mut program = of_file(&file, text::read(&self.text, Some(bits))?, hints)?;
                let what =
                    format!("the image is {}-bit code, loaded at {base:#x}", 8 * bits.word());
                program.assumed.push(Assumption::plain(&what));
                program.assumed.push(Assumption::plain(ENTERED));
                Ok(program)
            }
        }
    }
}

const ENTERED: &str =
    "nothing outside the image enters it but at its first byte and where the user says";

fn of_file<'a>(file: &File, text: Disassembly<'a>, hints: &Hints) -> Result<Program<'a>, String> {
    let mut outside = outside(file)?;
    let assumed = add_hints(file, &text, hints, &mut outside)?;
    let control = control_flow::read(&text, &outside);
    add_reckoned(file, &control, &mut outside);
    add_hidden(file, &text, &control, &mut outside)?;
    add_tables(file, &control, &mut outside);
    let mut program = program(text, control, outside, Vec::new());
    program.assumed.extend(assumed);
    Ok(program)
}

/// Adds what the user says, and gives it as assumptions.
fn add_hints(
    file: &File,
    text: &Disassembly,
    hints: &Hints,
    outside: &mut Outside,
) -> Result<Vec<Assumption>, String> {
    let code = file.code();
    let inside = |address: &u64| code.iter().any(|span| span.holds(*address));
    let mut named = hints.functions.iter().chain(&hints.entries);
    if let Some(address) = named.find(|address| !inside(address)) {
        return Err(format!("{address:x}, which the user names, is no address of its code"));
    }
    let calls = if hints.calls { control_flow::call_targets(text) } else { Vec::new() };
    let calls: Vec<u64> = calls.into_iter().filter(inside).collect();
    let starts = hints.functions.iter().chain(&calls);
    outside.functions.extend(starts.map(|start| Span { start: *start, end: *start }));
    outside.entries.extend(&hints.entries);
    let said = [
        (hints.functions.len(), "functions start where the user says"),
        (hints.entries.len(), "what the user names is entered besides"),
        (calls.len(), "functions start where direct calls go"),
    ];
    let said = said.into_iter().filter(|(times, _)| *times > 0);
    Ok(said.map(|(times, what)| Assumption::counted(what, times)).collect())
}

pub fn of_text(text: Disassembly) -> Program {
    let mut outside = Outside { bases: vec![0], ..Outside::default() };
    let control = control_flow::read(&text, &outside);
    outside.opens = unseen(&text, &control);
    let notes = if text.with_bytes { vec![TEXT_ALONE] } else { vec![TEXT_ALONE, NO_BYTES] };
    program(text, control, outside, notes)
}

fn program<'a>(
    text: Disassembly<'a>,
    control: ControlFlow,
    outside: Outside,
    notes: Vec<&'static str>,
) -> Program<'a> {
    let leaders = leaders(&text, &control, &outside);
    let assumed = assumptions::stated(&text, &control);
    Program { text, control, outside, leaders, notes, assumed }
}

/// Places among the lines where code may run that they do not show.
fn unseen(text: &Disassembly, control: &ControlFlow) -> Vec<u64> {
    let places = control.named.iter().chain(&control.unseen).copied();
    places.filter(|place| text.reaches(*place) && text.line_at(*place).is_err()).collect()
}

/// What objdump writes of a file, or of a copy where it is the standard input.
fn disassembled(
    path: &str,
    bytes: &[u8],
    objdump: impl Fn(&str) -> Result<String, String>,
) -> Result<String, String> {
    match path {
        "-" => objdump(objdump::Copy::new("input", bytes)?.path()?),
        _ => objdump(path),
    }
}

/// The bytes of a file, or of the standard input for `-`.
pub fn content(path: &str) -> Result<Vec<u8>, String> {
    let mut bytes = Vec::new();
    let read = match path {
        "-" => io::stdin().read_to_end(&mut bytes).map(|_| bytes),
        _ => fs::read(path),
    };
    read.map_err(|error| error.to_string())
}

impl Program<'_> {
    /// Where the function with this address starts, by labels and by the file.
    pub fn start_of_function(&self, address: u64) -> u64 {
        let labels = self.text.labels.iter().map(|label| label.address);
        let functions = self.outside.functions.iter().map(|span| span.start);
        labels.chain(functions).filter(|start| *start <= address).max().unwrap_or(address)
    }
}
