//! The dump: from bytes to text, or for a refused sheet the refusal with the
//! bytes around its place.

use crate::sheets::names::{flag, mnemonic, operator, refusal, value_type};
use crate::sheets::reader::{read, Refusal};
use crate::sheets::syntax::*;
use std::fmt::Write;

pub fn dump(bytes: &[u8]) -> String {
    match read(bytes) {
        Ok(accepted) => text(&accepted.sheet),
        Err(refusal) => refused(bytes, refusal),
    }
}

/// The text from which the writer makes the sheet again.
pub fn text(sheet: &Sheet) -> String {
    let mut lines = Vec::new();
    lines.extend(sheet.instructions.iter().map(instruction));
    lines.extend(
        sheet.blocks.iter().map(|block| format!("block {:#x} {:#x}", block.from, block.to)),
    );
    for node in &sheet.nodes {
        node_lines(node, &mut lines);
    }
    lines.iter().map(|line| format!("{line}\n")).collect()
}

fn instruction(insn: &Instruction) -> String {
    let mut words = vec![
        "insn".to_string(),
        format!("{:#x}", insn.address),
        mnemonic::NAMES[insn.mnemonic as usize].to_string(),
    ];
    if insn.call_like {
        words.push("call".to_string());
    }
    if let Some(target) = insn.target {
        words.push(format!("target {target:#x}"));
    }
    words.extend([insn.first, insn.second].into_iter().flatten().map(operand));
    if let Some(list) = &insn.written {
        words.push("writes".to_string());
        words.extend(list.iter().map(|r| register(*r)));
    }
    if let Some(flags) = insn.flags {
        words.push("flags".to_string());
        let named = flag::NAMES.iter().enumerate().filter(|(bit, _)| flags >> bit & 1 == 1);
        words.extend(named.map(|(_, name)| name.to_string()));
    }
    words.join(" ")
}

fn operand(operand: Operand) -> String {
    match operand {
        Operand::Register(r) => register(r),
        Operand::Immediate(value) => format!("{value:#x}"),
        Operand::Memory => "mem".to_string(),
        Operand::Unknown(code) => format!("operand {code}"),
    }
}

fn register(r: Register) -> String {
    match register_name(r) {
        Some(name) => name.to_string(),
        None => format!("reg({},{},{},{})", r.class, r.index, r.size, r.offset),
    }
}

fn type_name(code: u8) -> &'static str {
    value_type::NAMES[code as usize]
}

fn node_lines(node: &Node, lines: &mut Vec<String>) {
    lines.push("node".to_string());
    let list = |name: &str, words: Vec<String>| format!("  {name} {}", words.join(" "));
    if !node.variables.is_empty() {
        let types = node.variables.iter().map(|code| type_name(*code).to_string());
        lines.push(list("vars", types.collect()));
    }
    for statement in &node.statements {
        lines.push(match statement {
            Statement::Assign { variable, value } => {
                format!("  assign v{variable} {}", expression(value))
            }
            Statement::Other => "  other".to_string(),
        });
    }
    lines.push(format!("  cond {}", expression(&node.condition)));
    if !node.addresses.is_empty() {
        let addresses = node.addresses.iter().map(|address| format!("{address:#x}"));
        lines.push(list("addresses", addresses.collect()));
    }
}

/// A prefix tree from the records of one tree.
fn expression(records: &[Record]) -> String {
    let mut stack: Vec<String> = Vec::new();
    for record in records {
        let children = stack.split_off(stack.len() - record.children());
        let head = match *record {
            Record::Variable(number) => format!("v{number}"),
            Record::Constant { width, value } => format!("{value}:{width}"),
            Record::True => "true".to_string(),
            Record::False => "false".to_string(),
            Record::Effect(code) => format!("(effect {})", type_name(code)),
            Record::Load(code) => format!("load {}", type_name(code)),
            Record::Cast(code) => format!("cast {}", type_name(code)),
            Record::Binary(code) => operator::NAMES[code as usize].to_string(),
            Record::Ternary => "?".to_string(),
            Record::Unknown(kind) => format!("(kind {kind})"),
        };
        let leaf = children.is_empty();
        stack.push(if leaf { head } else { format!("({head} {})", children.join(" ")) });
    }
    stack.join(" ")
}

/// What a refusal's number means, for a person who writes sheets.
pub fn meaning(number: u8) -> &'static str {
    match number {
        refusal::ENDED => {
            "the sheet ends inside the field at this offset, or bytes are left over from here on"
        }
        refusal::CODE => "the code, map byte or variable number at this offset is not in its table",
        refusal::COUNT => "the count at this offset is outside its limits",
        refusal::ADDRESS => "the address at this offset is not above that of the instruction before",
        refusal::REGISTER => {
            "the class 1 register at this offset has an index, size or offset that does not exist"
        }
        refusal::MODELLED => {
            "the instruction at this offset is modelled, and its registers' sizes or classes or its \
              declared flags do not fit its mnemonic"
        }
        refusal::TREE => {
            "the records are not one tree: the one at this offset lacks a child, or the expression \
              that ends before it is not exactly one tree"
        }
        refusal::CONSTANT => "the constant at this offset does not fit its width",
        refusal::TYPE => "the assignment at this offset gives its variable a value of another type",
        _ => "a number that reading does not give",
    }
}

const ROW: usize = 16;

/// The refusal, its meaning, and three rows of bytes with a mark under the place.
pub fn refused(bytes: &[u8], refusal: Refusal) -> String {
    let mut out = format!("{refusal}\n{}\n", meaning(refusal.number));
    let row_of_place = refusal.place / ROW;
    let first = row_of_place.saturating_sub(1);
    for row in first..=row_of_place + 1 {
        let start = row * ROW;
        let part = bytes.get(start..bytes.len().min(start + ROW)).unwrap_or(&[]);
        if part.is_empty() && row != row_of_place {
            continue;
        }
        let digits: Vec<String> = part.iter().map(|byte| format!("{byte:02x}")).collect();
        writeln!(out, "{}", format!("{start:8}  {}", digits.join(" ")).trim_end()).unwrap();
        if row == row_of_place {
            writeln!(out, "{}^^", " ".repeat(10 + 3 * (refusal.place % ROW))).unwrap();
        }
    }
    out
}
