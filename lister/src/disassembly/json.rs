//! The listing as JSON. Addresses are text, `"0x113e"`: many readers of JSON keep no
//! number of 64 bits.

use crate::disassembly::elf::Span;
use crate::disassembly::judge::verdict;
use crate::disassembly::listing::{Branch, Listing};
use crate::disassembly::operand::parts;
use crate::disassembly::program::Program;
use crate::disassembly::report::text_at;
use crate::disassembly::undecided::Cause;

/// The number of this form; another one where a field is taken away or means
/// something else.
const FORM: usize = 1;

pub fn lines(program: &Program, listing: &Listing) -> Vec<String> {
    let assumed = program.assumed.iter().map(|assumption| text(&assumption.to_string()));
    let notes = program.notes.iter().map(|note| text(note));
    let branches = listing.branches.iter().map(|(site, branch)| decided(program, *site, branch));
    let dead = listing.dead_spans(program);
    let dead = dead
        .iter()
        .map(|Span { start, end }| object(&[("from", address(*start)), ("to", address(*end))]));
    let undecided = Cause::ALL.map(|(cause, name)| {
        (name, listing.undecided.get(&cause).copied().unwrap_or(0).to_string())
    });
    let counts = &listing.counts;
    let counts = [
        ("functions", counts.functions.to_string()),
        ("sheets", listing.sheets.to_string()),
        ("instructions", counts.instructions.to_string()),
        ("branches", counts.branches.to_string()),
    ];
    let fields = [
        ("form", FORM.to_string()),
        ("notes", list(notes)),
        ("assumed", list(assumed)),
        ("branches", list(branches)),
        ("dead", list(dead)),
        ("undecided", object(&undecided)),
        ("counts", object(&counts)),
    ];
    let last = fields.len() - 1;
    let line = |(number, (name, value)): (usize, &(&str, String))| {
        format!("{}: {value}{}", text(name), if number < last { "," } else { "" })
    };
    let fields = fields.iter().enumerate().map(line);
    ["{".to_string()].into_iter().chain(fields).chain(["}".to_string()]).collect()
}

fn decided(program: &Program, site: u64, branch: &Branch) -> String {
    let jump = parts(text_at(program, site)).mnemonic;
    object(&[
        ("address", address(site)),
        ("shown", text(&program.text.shown(site))),
        ("function", address(program.start_of_function(site))),
        ("jump", text(jump)),
        ("target", address(branch.target)),
        ("verdict", text(verdict(branch.always))),
        (
            "by",
            format!("[{}]", branch.by.iter().map(|at| address(*at)).collect::<Vec<_>>().join(", ")),
        ),
    ])
}

fn address(address: u64) -> String {
    format!("\"{address:#x}\"")
}

fn object(fields: &[(&str, String)]) -> String {
    let fields = fields.iter().map(|(name, value)| format!("{}: {value}", text(name)));
    format!("{{{}}}", fields.collect::<Vec<_>>().join(", "))
}

/// One item a line.
fn list(items: impl Iterator<Item = String>) -> String {
    let items: Vec<String> = items.map(|item| format!("\n  {item}")).collect();
    format!("[{}]", items.join(","))
}

fn text(words: &str) -> String {
    let mut out = String::from("\"");
    for c in words.chars() {
        match c {
            '"' | '\\' => out.extend(['\\', c]),
            c if c < ' ' => out += &format!("\\u{:04x}", c as u32),
            c => out.push(c),
        }
    }
    out + "\""
}
