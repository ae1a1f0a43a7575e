//! Addresses that 32-bit code gives as distances from its own address, since it has no
//! operands relative to the instruction: `call` to the next line and `pop`, or a call of a
//! function that hands its return address back.

use crate::disassembly::bits::Bits;
use crate::disassembly::control_flow::Outside;
use crate::disassembly::operand::{displacement, parts, Operand, Parts};
use crate::disassembly::text::{Disassembly, Line};
use std::collections::HashSet;

/// How many lines behind the call a number may be added to the own address.
const NEAR: usize = 8;

/// What numbers are distances from, as far as it is known: the own address, or the one
/// that was made of it by an addition; its register; and the lines in which that may be.
#[derive(Clone, Copy)]
struct Base<'a> {
    address: u64,
    register: &'a str,
    left: usize,
}

/// The numbers of an instruction that may be addresses, or distances of addresses. Those
/// that move the stack are none.
pub fn numbers<'a>(parts: &'a Parts) -> impl Iterator<Item = u64> + 'a {
    let on_stack = |word: &str| ["rsp", "esp"].iter().any(|base| word.contains(base));
    let moves_stack = parts.words.first().is_some_and(|word| ["rsp", "esp"].contains(word));
    let operands = parts.operands.iter().zip(&parts.words).filter(move |_| !moves_stack);
    operands.filter_map(move |(operand, word)| match operand {
        Operand::Immediate(value) if parts.mnemonic == "sub" => Some(value.wrapping_neg()),
        Operand::Immediate(value) => Some(*value),
        Operand::Memory if on_stack(word) => None,
        Operand::Memory | Operand::Unclear => displacement(word),
        _ => None,
    })
}

/// The addresses that 32-bit code names by distances from its own, and what each is
/// reckoned from.
pub fn from_own_address(text: &Disassembly, outside: &Outside) -> Vec<(u64, u64)> {
    let mut found = Vec::new();
    if text.bits == Bits::B64 {
        return found;
    }
    let labels = text.labels.iter().map(|label| label.address);
    let functions = outside.functions.iter().map(|span| span.start);
    let starts: HashSet<u64> = labels.chain(functions).collect();
    let mut base: Option<Base> = None;
    for (number, line) in text.lines.iter().enumerate() {
        let kept = base.filter(|_| !starts.contains(&line.address));
        let parts = parts(line.text);
        if let Some(Base { address, .. }) = kept {
            let named = numbers(&parts).map(|n| text.bits.address(n.wrapping_add(address)));
            found.extend(named.map(|named| (named, text.bits.address(address))));
        }
        base = own_address(text, number, &parts).or(kept.map(|base| base.behind(&parts)));
    }
    found
}

impl Base<'_> {
    /// Behind a line.
    fn behind(mut self, parts: &Parts) -> Self {
        let added = match (parts.mnemonic, parts.operands.as_slice()) {
            _ if self.left == 0 || parts.words.first() != Some(&self.register) => None,
            ("add", [_, Operand::Immediate(value)]) => Some(*value),
            ("sub", [_, Operand::Immediate(value)]) => Some(value.wrapping_neg()),
            _ => None,
        };
        self.left = if added.is_some() { 0 } else { self.left.saturating_sub(1) };
        self.address = self.address.wrapping_add(added.unwrap_or(0));
        self
    }
}

/// The address behind the call of a line, if what follows has it in a register.
fn own_address<'a>(text: &Disassembly<'a>, number: usize, parts: &Parts) -> Option<Base<'a>> {
    let target = parts.target().filter(|_| parts.mnemonic == "call")?;
    let next = text.lines.get(number + 1)?;
    let register = match target == next.address {
        true => popped(next)?,
        false => handed_back(text, target)?,
    };
    Some(Base { address: next.address, register, left: NEAR })
}

fn popped<'a>(line: &Line<'a>) -> Option<&'a str> {
    let parts = parts(line.text);
    parts.words.first().copied().filter(|_| parts.mnemonic == "pop")
}

/// The register in which the function at an address has its return address.
fn handed_back<'a>(text: &Disassembly<'a>, target: u64) -> Option<&'a str> {
    let number = text.line_at(target).ok()?;
    let parts = parts(text.lines[number].text);
    match parts.words[..] {
        [register, "DWORD PTR [esp]"] if parts.mnemonic == "mov" => Some(register),
        _ => None,
    }
}
