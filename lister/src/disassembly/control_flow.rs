//! Where control goes in the whole text: after each line, and to which
//! addresses from anywhere.

use crate::disassembly::bits::Bits;
use crate::disassembly::distances;
use crate::disassembly::elf::Span;
use crate::disassembly::instruction::{listed, Flow, Standing};
use crate::disassembly::operand::{parts, Operand, Parts};
use crate::disassembly::returns;
use crate::disassembly::text::{Disassembly, Line};
use std::collections::HashSet;

/// Where control goes after a line, and what tells padding and calls apart.
#[derive(Clone, Copy, Debug, PartialEq, Eq)]
pub struct Step {
    pub flow: Flow,
    pub padding: bool,
    pub call: bool,
}

/// What is known of the code from outside the text.
#[derive(Debug, Default)]
pub struct Outside {
    /// Ranges of functions; empty ones where only the start is known.
    pub functions: Vec<Span>,
    /// Ranges in which there are entries that could not be read.
    pub unread: Vec<Span>,
    /// Places that are entered.
    pub entries: Vec<u64>,
    /// Places that may be entered; some of them may be no instructions.
    pub possible: Vec<u64>,
    /// Where the loader stores the addresses of functions for jumps through them.
    pub slots: Vec<Span>,
    /// Code that is run and that the text does not show.
    pub hidden: Vec<Span>,
    /// Jumps of such code, from and to.
    pub joins: Vec<(u64, u64)>,
    /// Where it goes to an address that is not known.
    pub opens: Vec<u64>,
    /// What numbers in operands may be distances from: 0 where they may be addresses.
    pub bases: Vec<u64>,
}

impl Outside {
    /// The known ends of functions.
    pub fn ends(&self) -> HashSet<u64> {
        let whole = self.functions.iter().filter(|span| span.end > span.start);
        whole.map(|span| span.end).collect()
    }
}

#[derive(Debug, Default)]
pub struct ControlFlow {
    pub steps: Vec<Step>,
    /// Where jumps and calls go.
    pub targets: Vec<u64>,
    /// Other addresses that instructions name: immediates, and what they address
    /// relative to rip.
    pub named: Vec<u64>,
    /// Addresses that 32-bit code gives as distances, and what from.
    pub reckoned: Vec<(u64, u64)>,
    /// Lines that the processor may read otherwise than they are shown.
    pub unclear: Vec<u64>,
    /// Where code may go on that is not shown.
    pub unseen: Vec<u64>,
    /// Returns that are taken for jumps.
    pub returns: usize,
}

/// The longest instruction.
pub const LONGEST: u64 = 15;

pub fn read(text: &Disassembly, outside: &Outside) -> ControlFlow {
    let mut control = ControlFlow::default();
    for line in &text.lines {
        let parts = parts(line.text);
        let step = step(line, &parts);
        match step.flow {
            Flow::Branch(target) | Flow::Jump(target) => control.targets.push(target),
            _ if goes_to(&parts) => control.targets.extend(parts.target()),
            _ => control.named.extend(addresses(&parts, 0, text.bits, outside)),
        }
        if is_unclear(line, &parts) {
            control.unclear.push(line.address);
            let end = line.address.wrapping_add(line.size.max(1));
            control.unseen.extend((line.address + 1..=line.address + LONGEST).chain([end + 2]));
        }
        control.steps.push(through_slot(text, outside, line, &parts, step));
    }
    control.reckoned = distances::from_own_address(text, outside);
    control.named.extend(control.reckoned.iter().map(|(address, _)| address));
    returns_as_jumps(text, outside, &mut control);
    control.unseen.extend(ends_of_runs(text, &control.steps));
    for list in [&mut control.targets, &mut control.named, &mut control.unseen] {
        list.sort_unstable();
        list.dedup();
    }
    control
}

fn step(line: &Line, parts: &Parts) -> Step {
    let listed = listed(line);
    let padding = match (parts.mnemonic, parts.operands.as_slice()) {
        ("nop" | "int3", _) => true,
        ("xchg", [a, b]) => a == b,
        _ => false,
    };
    Step { flow: listed.flow, padding, call: matches!(listed.standing, Standing::Call(_)) }
}

fn goes_to(parts: &Parts) -> bool {
    ["call", "jmp"].contains(&parts.mnemonic) && parts.target().is_some()
}

/// The addresses that an instruction may name. Those that objdump works out from
/// the instruction's own are too high by `moved`.
pub fn addresses(parts: &Parts, moved: u64, bits: Bits, outside: &Outside) -> Vec<u64> {
    let immediates = parts.operands.iter().filter_map(|operand| match operand {
        Operand::Immediate(value) => Some(*value),
        _ => None,
    });
    let worked_out = parts.shown.into_iter().chain(parts.target());
    let worked_out = worked_out.map(|address| address.wrapping_sub(moved));
    let from = |base: &u64| {
        let base = *base;
        distances::numbers(parts).map(move |number| base.wrapping_add(number))
    };
    let distances = outside.bases.iter().flat_map(from);
    let all = immediates.chain(worked_out).chain(distances);
    all.map(|address| bits.address(address)).collect()
}

/// Bytes that objdump cannot decode, prefixes with no instruction behind them, and
/// near branches with 66 before them, whose length and target depend on the
/// processor.
fn is_unclear(line: &Line, parts: &Parts) -> bool {
    let no_code = line.text.contains("(bad)") || ["", ".byte"].contains(&parts.mnemonic);
    no_code || is_short_branch(line, parts)
}

/// Whether it is a near branch with 66 before it and no REX.W.
pub fn is_short_branch(line: &Line, parts: &Parts) -> bool {
    let name = parts.mnemonic;
    let branch = ["j", "loop", "call", "ret"].iter().any(|start| name.starts_with(start));
    let far = name.starts_with("retf");
    let wide = parts.prefixes.iter().any(|prefix| prefix.starts_with("rex.W"));
    branch && !far && !wide && (has_operand_prefix(line.bytes) || shows_operand_prefix(parts))
}

fn shows_operand_prefix(parts: &Parts) -> bool {
    parts.prefixes.contains(&"data16") || ["jmpw", "callw", "retw"].contains(&parts.mnemonic)
}

const OTHER_PREFIXES: [u8; 10] = [0x67, 0xf2, 0xf3, 0x2e, 0x36, 0x3e, 0x26, 0x64, 0x65, 0xf0];

/// Where a branch with 66 before it goes that is read with a distance of four bytes,
/// as by Intel's processors.
pub fn wide_target(code: &[u8], address: u64) -> Option<u64> {
    let is_prefix = |byte: &&u8| **byte == 0x66 || OTHER_PREFIXES.contains(*byte);
    let prefixes = code.iter().take_while(is_prefix).count();
    let opcode = match code.get(prefixes..)? {
        [0xe8 | 0xe9, ..] => 1,
        [0x0f, 0x80..=0x8f, ..] => 2,
        _ => return None,
    };
    let at = prefixes + opcode;
    let distance = i32::from_le_bytes(code.get(at..at + 4)?.try_into().ok()?);
    Some(address.wrapping_add(at as u64 + 4).wrapping_add_signed(i64::from(distance)))
}

/// Whether 66 is among the prefixes before the first other byte.
fn has_operand_prefix(bytes: &str) -> bool {
    let bytes = bytes.split(' ').map_while(|byte| u8::from_str_radix(byte, 16).ok());
    let mut prefixes = bytes.take_while(|byte| *byte == 0x66 || OTHER_PREFIXES.contains(byte));
    prefixes.any(|byte| byte == 0x66)
}

/// Where direct calls go.
pub fn call_targets(text: &Disassembly) -> Vec<u64> {
    let calls = text.lines.iter().map(|line| parts(line.text));
    let calls = calls.filter(|parts| parts.mnemonic == "call");
    let mut targets: Vec<u64> = calls.filter_map(|parts| parts.target()).collect();
    targets.sort_unstable();
    targets.dedup();
    targets
}

/// A return whose address was put on the stack by the code before it is a jump.
fn returns_as_jumps(text: &Disassembly, outside: &Outside, control: &mut ControlFlow) {
    let functions = outside.functions.iter().map(|span| span.start);
    let starts: HashSet<u64> = functions.chain(call_targets(text)).collect();
    let ends = outside.ends();
    let goes_on = |steps: &[Step], number: usize| {
        goes_on(steps[number], ends.contains(&text.lines[number + 1].address))
    };
    for (number, line) in text.lines.iter().enumerate() {
        let is_return = parts(line.text).mnemonic == "ret";
        let lines = &text.lines[..=number];
        let on = |at: usize| goes_on(&control.steps, at);
        let is_start = |address| starts.contains(&address);
        if is_return && returns::is_jump(text.bits, lines, on, is_start) {
            control.steps[number].flow = Flow::IndirectJump;
            control.returns += 1;
        }
    }
}

/// A call that ends a function is one that does not return.
pub fn goes_on(step: Step, function_ends: bool) -> bool {
    match step.flow {
        Flow::Next => !(step.call && function_ends),
        Flow::Branch(_) => true,
        _ => false,
    }
}

/// Where control goes on behind a line, and the text does not.
fn ends_of_runs(text: &Disassembly, steps: &[Step]) -> Vec<u64> {
    let nexts = text.lines.iter().skip(1).map(|next| !next.after_gap).chain([false]);
    let lines = text.lines.iter().zip(steps).zip(nexts);
    let last = lines.filter(|((_, step), shown)| !shown && goes_on(**step, false));
    last.filter_map(|((line, _), _)| line.end()).collect()
}

/// A jump of a linkage stub, or through a slot that the loader fills, goes to
/// the start of a function.
fn through_slot(
    text: &Disassembly,
    outside: &Outside,
    line: &Line,
    parts: &Parts,
    step: Step,
) -> Step {
    let slot = parts.operands == [Operand::Memory]
        && parts.shown.is_some_and(|at| outside.slots.iter().any(|slot| slot.holds(at)));
    match step.flow {
        Flow::IndirectJump if slot || text.in_stub(line.address) => {
            Step { flow: Flow::Ends, ..step }
        }
        _ => step,
    }
}
