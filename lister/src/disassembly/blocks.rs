//! Basic blocks: where they start decides whether their verdicts are true.

use crate::disassembly::control_flow::{ControlFlow, Outside};
use crate::disassembly::functions::open_lines;
use crate::disassembly::instruction::Flow;
use crate::disassembly::text::Disassembly;
use std::ops::Range;

/// For each line, whether a block starts there; and whether any line of its
/// function may be entered.
pub struct Leaders {
    pub leads: Vec<bool>,
    pub open: Vec<bool>,
}

pub fn leaders(text: &Disassembly, control: &ControlFlow, outside: &Outside) -> Leaders {
    let open = open_lines(text, control, outside);
    let mut leads = open.clone();
    let labels = text.labels.iter().map(|label| label.address);
    let functions = outside.functions.iter().map(|span| span.start);
    let entries = outside.entries.iter().chain(&outside.possible).copied();
    let named = control.targets.iter().chain(&control.named).copied();
    for address in labels.chain(functions).chain(entries).chain(named) {
        if let Ok(number) = text.line_at(address) {
            leads[number] = true;
        }
    }
    for (number, line) in text.lines.iter().enumerate() {
        let goes_on = number > 0 && control.steps[number - 1].flow == Flow::Next;
        if !goes_on || line.after_gap || line.text.starts_with("endbr") {
            leads[number] = true;
        }
    }
    Leaders { leads, open }
}

/// The blocks of some lines, as ranges of line numbers.
pub fn blocks(leads: &[bool], lines: Range<usize>) -> Vec<Range<usize>> {
    let starts: Vec<usize> =
        lines.clone().filter(|number| leads[*number] || *number == lines.start).collect();
    let ends = starts.iter().skip(1).copied().chain([lines.end]);
    starts.iter().copied().zip(ends).map(|(start, end)| start..end).collect()
}
