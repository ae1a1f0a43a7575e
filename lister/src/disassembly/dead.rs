//! What is not run because of the verdicts. A line runs where control comes to it from a
//! place that is entered; it is dead where it would run if nothing were decided, and does
//! not as things are.

use crate::disassembly::elf::Span;
use crate::disassembly::instruction::Flow;
use crate::disassembly::listing::Branch;
use crate::disassembly::operand::parts;
use crate::disassembly::program::Program;
use std::collections::BTreeMap;
use std::ops::Range;

type Branches = BTreeMap<u64, Branch>;

/// The dead lines, as ranges of line numbers.
pub fn ranges(program: &Program, branches: &Branches) -> Vec<Range<usize>> {
    if branches.is_empty() {
        return Vec::new();
    }
    let undecided = run(program, &Branches::new());
    let decided = run(program, branches);
    let mut ranges: Vec<Range<usize>> = Vec::new();
    for number in (0..decided.len()).filter(|number| undecided[*number] && !decided[*number]) {
        match ranges.last_mut() {
            Some(range) if range.end == number && !program.text.lines[number].after_gap => {
                range.end += 1;
            }
            _ => ranges.push(number..number + 1),
        }
    }
    ranges
}

/// For each line, whether it may be run.
fn run(program: &Program, branches: &Branches) -> Vec<bool> {
    let text = &program.text;
    let mut runs = vec![false; text.lines.len()];
    let mut waiting = entered(program);
    while let Some(number) = waiting.pop() {
        if std::mem::replace(&mut runs[number], true) {
            continue;
        }
        let target = |address: u64| text.line_at(address).ok();
        let next = (number + 1 < text.lines.len()).then_some(number + 1);
        let decided = branches.get(&text.lines[number].address).map(|branch| branch.always);
        match (program.control.steps[number].flow, decided) {
            (Flow::Branch(to), Some(true)) | (Flow::Jump(to), _) => waiting.extend(target(to)),
            (Flow::Branch(_), Some(false)) | (Flow::Next, _) => waiting.extend(next),
            (Flow::Branch(to), None) => waiting.extend(target(to).into_iter().chain(next)),
            (Flow::IndirectJump | Flow::Ends, _) => {}
        }
    }
    runs
}

/// The lines that are entered other than by jumps and from the line before.
fn entered(program: &Program) -> Vec<usize> {
    let Program { text, control, outside, leaders, .. } = program;
    let labels = text.labels.iter().map(|label| label.address);
    let functions = outside.functions.iter().map(|span| span.start);
    let entries = outside.entries.iter().chain(&outside.possible).chain(&control.named);
    let addresses = labels.chain(functions).chain(entries.copied()).chain(calls(program));
    let mut entered: Vec<usize> = addresses.filter_map(|at| text.line_at(at).ok()).collect();
    // The bytes of these lines are also run as other instructions.
    let up_to = |address: u64| text.lines.partition_point(|line| line.address < address);
    let lines = |span: &Span| up_to(span.start + 1).saturating_sub(1)..up_to(span.end);
    entered.extend(outside.hidden.iter().flat_map(lines));
    let by_itself = text.lines.iter().enumerate().filter(|(number, line)| {
        leaders.open[*number] || line.after_gap || line.text.starts_with("endbr")
    });
    entered.extend(by_itself.map(|(number, _)| number));
    entered
}

/// Where calls go.
fn calls<'a>(program: &'a Program) -> impl Iterator<Item = u64> + 'a {
    let lines = program.text.lines.iter().zip(&program.control.steps);
    lines.filter(|(_, step)| step.call).filter_map(|(line, _)| parts(line.text).target())
}
