//! Which parts of the code belong to one function, and in which of them any
//! instruction may be entered.
//!
//! The code is cut at labels and at the ends of known functions. Two parts are
//! joined where control can go from one into the other, but for calls and jumps
//! to the start of a function. A part is open, and all that is joined
//! with it, if it has a jump to an address that is not in the text, is entered
//! between two of the instructions that are shown by a jump or as a function, or has
//! bytes that the processor may read otherwise.

use crate::disassembly::control_flow::{goes_on, ControlFlow, Outside, Step};
use crate::disassembly::elf::Span;
use crate::disassembly::instruction::Flow;
use crate::disassembly::text::Disassembly;
use std::collections::{HashMap, HashSet};

/// Parts of the code, each with the one that stands for all it is joined with.
struct CodeParts {
    starts: Vec<u64>,
    parent: Vec<usize>,
}

impl CodeParts {
    fn new(mut starts: Vec<u64>) -> CodeParts {
        starts.sort_unstable();
        starts.dedup();
        let parent = (0..starts.len()).collect();
        CodeParts { starts, parent }
    }

    /// The part with this address; the first for what comes before it.
    fn of(&self, address: u64) -> usize {
        self.starts.partition_point(|start| *start <= address).saturating_sub(1)
    }

    fn top(&mut self, part: usize) -> usize {
        let mut at = part;
        while self.parent[at] != at {
            self.parent[at] = self.parent[self.parent[at]];
            at = self.parent[at];
        }
        at
    }

    fn join(&mut self, a: usize, b: usize) {
        let (a, b) = (self.top(a), self.top(b));
        self.parent[a] = b;
    }

    fn join_span(&mut self, span: Span) {
        let (first, last) = (self.of(span.start), self.of(span.end.max(span.start + 1) - 1));
        (first..last).for_each(|part| self.join(part, part + 1));
    }
}

/// For each line, whether it stands in an open part.
pub fn open_lines(text: &Disassembly, control: &ControlFlow, outside: &Outside) -> Vec<bool> {
    let labels = text.labels.iter().map(|label| label.address);
    let ends = outside.functions.iter().flat_map(|span| [span.start, span.end]);
    let first = text.lines.first().map(|line| line.address);
    let mut parts = CodeParts::new(labels.chain(ends).chain(first).collect());
    outside.functions.iter().for_each(|span| parts.join_span(*span));
    join_cold(text, &mut parts);
    join_following(text, &control.steps, outside, &mut parts);
    join_jumps(text, &control.steps, outside, &mut parts);
    let open = open_parts(text, control, outside, &parts);
    let open: HashSet<usize> = open.into_iter().map(|part| parts.top(part)).collect();
    let mut is_open = |address: u64| {
        let part = parts.of(address);
        open.contains(&parts.top(part))
    };
    text.lines.iter().map(|line| is_open(line.address)).collect()
}

/// Joins what the compiler has moved away from a function, by its name.
fn join_cold(text: &Disassembly, parts: &mut CodeParts) {
    let mut cold: HashMap<&str, Vec<u64>> = HashMap::new();
    for label in &text.labels {
        if let Some((name, _)) = label.name.split_once(".cold") {
            cold.entry(name).or_default().push(label.address);
        }
    }
    for label in &text.labels {
        for address in cold.get(label.name).into_iter().flatten() {
            parts.join(parts.of(*address), parts.of(label.address));
        }
    }
}

/// Joins a part with the next where control goes on from one to the other.
fn join_following(text: &Disassembly, steps: &[Step], outside: &Outside, parts: &mut CodeParts) {
    let ends = outside.ends();
    let mut last = None;
    for (number, line) in text.lines.iter().enumerate() {
        let part = parts.of(line.address);
        if let Some((before, step)) = last {
            if before != part
                && !line.after_gap
                && goes_on(step, ends.contains(&parts.starts[part]))
            {
                parts.join(before, part);
            }
        }
        // Padding takes the place of code before it only in a part of its own.
        let same = last.is_some_and(|(before, _)| before == part);
        if !(same && steps[number].padding) {
            last = Some((part, steps[number]));
        }
    }
}

/// Joins two parts where one jumps into the other. A jump to the start of a
/// known function, or to a linkage stub, is a call that does not come back.
fn join_jumps(text: &Disassembly, steps: &[Step], outside: &Outside, parts: &mut CodeParts) {
    let starts: HashSet<u64> = outside.functions.iter().map(|span| span.start).collect();
    let shown = text.lines.iter().zip(steps).filter_map(|(line, step)| match step.flow {
        Flow::Jump(target) if starts.contains(&target) => None,
        Flow::Jump(target) | Flow::Branch(target) => Some((line.address, target)),
        _ => None,
    });
    let hidden = outside.joins.iter().copied().filter(|(_, target)| !starts.contains(target));
    for (from, target) in shown.chain(hidden) {
        if text.reaches(target) && !text.in_stub(target) {
            parts.join(parts.of(from), parts.of(target));
        }
    }
}

fn open_parts(
    text: &Disassembly,
    control: &ControlFlow,
    outside: &Outside,
    parts: &CodeParts,
) -> HashSet<usize> {
    let steps = text.lines.iter().zip(&control.steps);
    let indirect = steps.filter(|(_, step)| step.flow == Flow::IndirectJump);
    let mut open: HashSet<usize> = indirect.map(|(line, _)| parts.of(line.address)).collect();
    // An entry between two lines starts other code than the text shows.
    let between = |address: &u64| text.reaches(*address) && text.line_at(*address).is_err();
    let starts = outside.functions.iter().map(|span| span.start);
    let entries = control.targets.iter().chain(&outside.entries).copied().chain(starts);
    open.extend(entries.filter(between).map(|address| parts.of(address)));
    open.extend(control.unclear.iter().chain(&outside.opens).map(|address| parts.of(*address)));
    for span in &outside.unread {
        open.extend(parts.of(span.start)..=parts.of(span.end.max(span.start + 1) - 1));
    }
    open
}
