//! Whether a return is one, or a jump to an address that the code before it has
//! put on the stack.
//!
//! From the return backwards, as far as control goes on from line to line, the
//! place of the return address is followed as a distance from rsp, or from rbp
//! where rsp is taken from it. The return is a jump if something is pushed or
//! stored in that place, if the distance is lost, or if it is not 0 at the start
//! of a function.

use crate::disassembly::bits::Bits;
use crate::disassembly::instruction::{listed, Standing};
use crate::disassembly::operand::{general, parts, Operand, Parts};
use crate::disassembly::steps::changes;
use crate::disassembly::table::{is_string, RBP, RDI, RSP};
use crate::disassembly::text::Line;

/// An address relative to a register; no offset where an index is added.
#[derive(Clone, Copy, Debug, PartialEq, Eq)]
struct Place {
    base: u8,
    offset: Option<i64>,
}

impl Place {
    fn plus(self, offset: Option<i64>) -> Place {
        let sum = self.offset.zip(offset).and_then(|(a, b)| a.checked_add(b));
        Place { base: self.base, offset: sum }
    }
}

#[derive(Clone, Copy, Debug)]
struct Store {
    place: Place,
    size: i64,
}

impl Store {
    /// Whether it may write to the bytes of a place at `offset` from the same base.
    fn reaches(&self, offset: i64, size: i64) -> bool {
        let Some(at) = self.place.offset else {
            return true;
        };
        at < offset.saturating_add(size) && offset < at.saturating_add(self.size)
    }
}

/// Where the return address is, before a line.
struct Slot {
    bits: Bits,
    base: u8,
    offset: i64,
    /// It may be higher: a called function of 32-bit code may take its arguments off the
    /// stack.
    or_higher: bool,
    /// The saved rbp is right below it: rbp + 8 is its place if rbp is the frame's.
    frame: bool,
    /// What later lines store relative to other registers.
    stores: Vec<Store>,
}

/// The return address's place is lost, or something else is stored there.
struct Jump;

const PUSHES: &[&str] = &["push", "pushf", "pushfq", "pusha"];
const POPS: &[&str] = &["pop", "popf", "popfq", "popa"];

/// How many registers pusha and popa have on the stack.
const ALL_REGISTERS: i64 = 8;

/// Instructions that read their first operand, or address it only.
const READERS: &[&str] = &[
    "cmp", "test", "bt", "mul", "imul", "div", "idiv", "nop", "call", "jmp", "push", "comiss",
    "comisd", "ucomiss", "ucomisd", "vcomiss", "vcomisd", "vucomiss", "vucomisd", "ptest",
    "vptest", "ldmxcsr", "vldmxcsr", "fld", "fild", "fldcw", "fldenv", "frstor", "fadd", "fiadd",
    "fsub", "fisub", "fsubr", "fisubr", "fmul", "fimul", "fdiv", "fidiv", "fdivr", "fidivr",
    "fcom", "fcomp", "ficom", "ficomp",
];

/// Instructions that change an address by some distance.
const CHANGES: &[&str] = &["add", "sub", "inc", "dec", "and", "or"];

/// Whether the return at the end of `lines` is a jump. `goes_on` says of a line's
/// number whether control goes on from it to the next, `starts` whether a known
/// function starts at an address.
pub fn is_jump(
    bits: Bits,
    lines: &[Line],
    goes_on: impl Fn(usize) -> bool,
    starts: impl Fn(u64) -> bool,
) -> bool {
    let (or_higher, frame, stores) = (false, false, Vec::new());
    let mut slot = Slot { bits, base: RSP, offset: 0, or_higher, frame, stores };
    let mut number = lines.len() - 1;
    loop {
        let at_start = starts(lines[number].address);
        if at_start && (slot.base, slot.offset) != (RSP, 0) {
            return true;
        }
        if number == 0 || lines[number].after_gap || !goes_on(number - 1) {
            return false;
        }
        number -= 1;
        if slot.before(&lines[number]).is_err() {
            return true;
        }
    }
}

impl Slot {
    /// Goes back over a line.
    fn before(&mut self, line: &Line) -> Result<(), Jump> {
        let parts = parts(line.text);
        let listed = listed(line);
        if let Standing::Unknown(_) = listed.standing {
            return Err(Jump);
        }
        if listed.instruction.call_like {
            // What is called, or the system, leaves rsp and rbp as they were, and may
            // write below the stack.
            self.or_higher |= self.base == RSP && self.bits == Bits::B32;
            return if self.base == RSP && self.offset < 0 { Err(Jump) } else { Ok(()) };
        }
        stores(&parts).into_iter().try_for_each(|store| self.store(store))?;
        let written = changes(&listed.instruction).registers;
        self.through(&parts, written)?;
        if written >> RSP & 1 != 0 {
            self.moved(&parts, written >> RBP & 1 != 0)?;
        } else if written >> RBP & 1 != 0 {
            self.frame_set(&parts)?;
        }
        Ok(())
    }

    fn store(&mut self, store: Store) -> Result<(), Jump> {
        let base = store.place.base;
        let word = self.word();
        let in_frame = self.frame && base == RBP && store.reaches(word, word);
        let size = if self.or_higher { i64::MAX } else { word };
        if in_frame || (base == self.base && store.reaches(self.offset, size)) {
            return Err(Jump);
        }
        if base != RSP && base != RBP {
            self.stores.push(store);
        }
        Ok(())
    }

    /// Stores through registers that this line writes: it may give them an address of
    /// the stack.
    fn through(&mut self, parts: &Parts, written: u16) -> Result<(), Jump> {
        let from = source(parts, self.bits);
        for mut store in std::mem::take(&mut self.stores) {
            let Place { base, offset } = store.place;
            if written >> base & 1 != 0 {
                store.place = match from {
                    Some(from) => from.plus(offset),
                    None if CHANGES.contains(&parts.mnemonic) => Place { base, offset: None },
                    None => continue,
                };
            }
            self.store(store)?;
        }
        Ok(())
    }

    /// Goes back over a change of rsp.
    fn moved(&mut self, parts: &Parts, frame: bool) -> Result<(), Jump> {
        let name = parts.mnemonic;
        if name == "leave" && self.base == RSP {
            return self.rebase(Place { base: RBP, offset: Some(self.word()) });
        }
        if PUSHES.contains(&name) || POPS.contains(&name) {
            return self.pushed(parts);
        }
        self.frame &= !frame;
        if self.base != RSP {
            return if frame { Err(Jump) } else { Ok(()) };
        }
        match (name, parts.operands.as_slice()) {
            ("add", [_, Operand::Immediate(by)]) => self.by(self.bits.distance(*by)),
            ("sub", [_, Operand::Immediate(by)]) => self.by(self.bits.distance(*by).wrapping_neg()),
            ("mov" | "lea", [Operand::General(to), _]) if is_address(to.size, self.bits) => {
                self.rebase(source(parts, self.bits).ok_or(Jump)?)
            }
            _ => Err(Jump),
        }
    }

    fn pushed(&mut self, parts: &Parts) -> Result<(), Jump> {
        let short = parts.words.first().is_some_and(|word| {
            word.starts_with("WORD") || general(word).is_some_and(|register| register.size == 16)
        });
        let to = match parts.operands.first() {
            Some(Operand::General(register)) => Some(register.index),
            _ => None,
        };
        let size = match parts.mnemonic {
            "pusha" | "popa" => ALL_REGISTERS * self.word(),
            _ if short => 2,
            _ => self.word(),
        };
        if PUSHES.contains(&parts.mnemonic) {
            let store = Store { place: Place { base: RSP, offset: Some(0) }, size };
            self.store(store)?;
            return if self.base == RSP { self.by(-size) } else { Ok(()) };
        }
        let frame = to == Some(RBP) || parts.mnemonic == "popa";
        if to == Some(RSP) || (frame && self.base == RBP) {
            return Err(Jump);
        }
        if frame {
            self.frame = to == Some(RBP) && self.base == RSP && self.offset == 0;
        }
        match self.base {
            RSP => self.by(size),
            _ => Ok(()),
        }
    }

    /// Goes back over a change of rbp alone.
    fn frame_set(&mut self, parts: &Parts) -> Result<(), Jump> {
        self.frame = false;
        match (self.base, parts.mnemonic) {
            (RBP, "mov" | "lea") => self.rebase(source(parts, self.bits).ok_or(Jump)?),
            (RBP, _) => Err(Jump),
            _ => Ok(()),
        }
    }

    /// Bytes of a return address.
    fn word(&self) -> i64 {
        self.bits.word() as i64
    }

    fn by(&mut self, distance: i64) -> Result<(), Jump> {
        self.offset = self.offset.checked_add(distance).ok_or(Jump)?;
        Ok(())
    }

    /// The base is worked out from another register, by its place.
    fn rebase(&mut self, from: Place) -> Result<(), Jump> {
        if from.base != RSP && from.base != RBP {
            return Err(Jump);
        }
        self.base = from.base;
        self.by(from.offset.ok_or(Jump)?)
    }
}

fn is_address(size: u8, bits: Bits) -> bool {
    usize::from(size) == 8 * bits.word()
}

/// The address that a mov of a register or a lea gives.
fn source(parts: &Parts, bits: Bits) -> Option<Place> {
    match (parts.mnemonic, parts.operands.as_slice(), parts.words.as_slice()) {
        ("mov", [_, Operand::General(register)], _) => {
            let offset = is_address(register.size, bits).then_some(0);
            Some(Place { base: register.index, offset })
        }
        ("lea", [_, Operand::Memory], [_, word]) => place(word),
        _ => None,
    }
}

/// What an instruction stores relative to a register.
fn stores(parts: &Parts) -> Vec<Store> {
    if is_string(parts.mnemonic) {
        let place = Place { base: RDI, offset: None };
        return vec![Store { place, size: 1 }];
    }
    let written = match parts.mnemonic {
        name if READERS.contains(&name) || name.starts_with("prefetch") => 0,
        "xchg" | "xadd" => 2,
        _ => 1,
    };
    let words = parts.words.iter().take(written).filter(|word| word.contains('['));
    words.filter_map(|word| Some(Store { place: place(word)?, size: size(word) })).collect()
}

/// How many bytes are written: as the operand says, or as many as may be.
fn size(word: &str) -> i64 {
    match word.split_once(" PTR ").map_or("", |(name, _)| name) {
        "BYTE" => 1,
        "WORD" => 2,
        "DWORD" => 4,
        "QWORD" => 8,
        "XMMWORD" => 16,
        "YMMWORD" => 32,
        "ZMMWORD" => 64,
        _ => 1_024,
    }
}

/// The place of an operand in memory, by its text: `[rsp+rax*8-0x8]`.
fn place(word: &str) -> Option<Place> {
    let inside = word.split_once('[')?.1.split(']').next()?;
    let end = inside.find(['+', '-', '*']).unwrap_or(inside.len());
    let base = general(&inside[..end])?;
    let rest = &inside[end..];
    let number = |digits: &str| i64::from_str_radix(digits, 16).ok();
    let offset = match (rest.strip_prefix("+0x"), rest.strip_prefix("-0x")) {
        // An address of 16 bits is a part of the register.
        _ if base.size < 32 => None,
        _ if rest.is_empty() => Some(0),
        (Some(digits), _) => number(digits),
        (_, Some(digits)) => number(digits).map(i64::wrapping_neg),
        _ => None,
    };
    Some(Place { base: base.index, offset })
}
