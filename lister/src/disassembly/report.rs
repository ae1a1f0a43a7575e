//! The report of a listing as text.

use crate::disassembly::judge::verdict;
use crate::disassembly::listing::{Branch, Listing};
use crate::disassembly::operand::parts;
use crate::disassembly::program::Program;
use crate::disassembly::undecided::Cause;
use std::collections::BTreeMap;

pub fn lines(program: &Program, listing: &Listing) -> Vec<String> {
    let mut lines = head(program);
    for (site, branch) in &listing.branches {
        lines.extend(decided(program, *site, branch));
    }
    lines.extend(totals(listing));
    lines.extend(verdicts(program, listing));
    lines
}

/// What is not known, and what is assumed.
pub fn head(program: &Program) -> Vec<String> {
    let mut lines: Vec<String> = program.notes.iter().map(|note| note.to_string()).collect();
    lines.push("assumed:".to_string());
    lines.extend(program.assumed.iter().map(|assumption| format!("  {assumption}")));
    if program.control.returns > 0 {
        let returns = program.control.returns;
        lines.push(format!("returns that are taken for indirect jumps: {returns}"));
    }
    lines
}

/// A branch as objdump shows it, its verdict, and the instructions that decide it.
fn decided(program: &Program, site: u64, branch: &Branch) -> Vec<String> {
    let text = &program.text;
    let name = parts(text_at(program, site)).mnemonic;
    let (from, to) = (text.shown(site), text.shown(branch.target));
    let mut lines = vec![format!("{from} {name} {to} {}", verdict(branch.always))];
    lines.extend(branch.by.iter().map(|by| format!("  by {by:x} {}", text_at(program, *by))));
    lines
}

/// The instruction at an address.
pub fn text_at<'a>(program: &'a Program, address: u64) -> &'a str {
    program.text.line_at(address).map_or("", |number| program.text.lines[number].text)
}

fn totals(listing: &Listing) -> Vec<String> {
    let counts = &listing.counts;
    vec![
        format!("functions {}, in {} sheets", counts.functions, listing.sheets),
        format!("  with no instruction: {}", counts.empty),
        format!("  any instruction may be entered: {}", counts.open),
        format!("instructions {}", counts.instructions),
        format!("  calls, returns, indirect jumps, traps: {}", by_name(&counts.calls)),
        format!("  not known, listed as call-like: {}", by_name(&counts.unknown)),
        format!("blocks cut because they are longer than a sheet: {}", counts.cut),
    ]
}

fn verdicts(program: &Program, listing: &Listing) -> Vec<String> {
    let always = listing.branches.values().filter(|branch| branch.always).count();
    let never = listing.branches.len() - always;
    let undecided = listing.counts.branches - listing.branches.len();
    let mut lines = vec![
        format!("conditional branches {}", listing.counts.branches),
        format!("  always {always}, never {never}, undecided {undecided}"),
    ];
    for (cause, name) in Cause::ALL {
        let count = listing.undecided.get(&cause).copied().unwrap_or(0);
        lines.push(format!("    by {name}: {count}"));
    }
    let dead: usize = listing.dead.iter().map(|range| range.len()).sum();
    lines.push(format!(
        "dead by the verdicts: {dead} instructions in {} ranges",
        listing.dead.len()
    ));
    let spans = listing.dead_spans(program).into_iter();
    lines.extend(
        spans.map(|span| format!("  {} to {:x}", program.text.shown(span.start), span.end)),
    );
    lines
}

/// How many there are, and how many of each name, the most frequent first.
fn by_name(counts: &BTreeMap<String, usize>) -> String {
    let mut list: Vec<(&String, &usize)> = counts.iter().collect();
    list.sort_by_key(|(_, count)| std::cmp::Reverse(**count));
    let words: Vec<String> = list.iter().map(|(name, count)| format!("{name} {count}")).collect();
    let all: usize = counts.values().sum();
    match words.as_slice() {
        [] => format!("{all}"),
        _ => format!("{all} ({})", words.join(", ")),
    }
}
