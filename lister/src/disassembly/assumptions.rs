//! What a report takes for granted: docs/LISTER.md, "What no lister can see". Only
//! what the file gives occasion to is named, with how often it does.

use crate::disassembly::control_flow::{ControlFlow, Step};
use crate::disassembly::instruction::Flow;
use crate::disassembly::operand::{parts, Operand};
use crate::disassembly::text::Disassembly;
use std::fmt;

#[derive(Clone, Debug, PartialEq, Eq)]
pub struct Assumption {
    pub what: String,
    /// How often there is occasion to it; nothing where that is not counted.
    pub times: Option<usize>,
}

impl Assumption {
    pub fn plain(what: &str) -> Assumption {
        Assumption { what: what.to_string(), times: None }
    }

    pub fn counted(what: &str, times: usize) -> Assumption {
        Assumption { what: what.to_string(), times: Some(times) }
    }
}

impl fmt::Display for Assumption {
    fn fmt(&self, out: &mut fmt::Formatter) -> fmt::Result {
        match self.times {
            Some(times) => write!(out, "{}: {times}", self.what),
            None => write!(out, "{}", self.what),
        }
    }
}

#[derive(Default)]
struct Occasions {
    jumps: usize,
    through_slots: usize,
    calls: usize,
    returns: usize,
}

pub fn stated(text: &Disassembly, control: &ControlFlow) -> Vec<Assumption> {
    let mut seen = Occasions::default();
    for (line, step) in text.lines.iter().zip(&control.steps) {
        seen.take(line.text, *step);
    }
    let always = "code is not changed, and nothing but the program changes its registers";
    let counted = [
        (seen.jumps, "indirect jumps stay in their functions or go to known entries"),
        (seen.through_slots, "jumps through slots that the loader fills go to functions"),
        (seen.calls, "indirect calls go to known entries"),
        (seen.returns, "returns go behind their calls"),
    ];
    let counted = counted.into_iter().filter(|(times, _)| *times > 0);
    let counted = counted.map(|(times, what)| Assumption::counted(what, times));
    [Assumption::plain(always)].into_iter().chain(counted).collect()
}

impl Occasions {
    fn take(&mut self, text: &str, step: Step) {
        let parts = parts(text);
        let through = matches!(parts.operands[..], [Operand::Memory | Operand::General(_)]);
        match (parts.mnemonic, step.flow) {
            ("ret", Flow::Ends) => self.returns += 1,
            ("ret", _) => {}
            (_, Flow::IndirectJump) => self.jumps += 1,
            ("jmp", Flow::Ends) => self.through_slots += 1,
            ("call", _) if through => self.calls += 1,
            _ => {}
        }
    }
}
