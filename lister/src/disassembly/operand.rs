//! An instruction's text cut into prefixes, mnemonic and operands.

use crate::sheets::syntax::{named_registers, Register};
use crate::sheets::words::parse_number;
use std::collections::HashMap;
use std::sync::OnceLock;

#[derive(Clone, Copy, Debug, PartialEq, Eq)]
pub enum Operand {
    General(Register),
    /// A vector, mask, x87 or MMX register.
    Vector,
    Segment,
    /// A control or debug register.
    Control,
    Immediate(u64),
    Memory,
    /// A number without 0x: where a jump goes, if that has a name, or the 1 of a
    /// shift.
    Bare(u64),
    Unclear,
}

#[derive(Clone, Debug, PartialEq, Eq)]
pub struct Parts<'a> {
    pub prefixes: Vec<&'a str>,
    pub mnemonic: &'a str,
    pub operands: Vec<Operand>,
    /// The operands as they are written.
    pub words: Vec<&'a str>,
    /// The address that objdump works out for an operand relative to rip.
    pub shown: Option<u64>,
    /// The name behind a jump's target, with its offset.
    pub symbol: Option<&'a str>,
}

impl Parts<'_> {
    /// The one operand of a jump or call that names its target.
    pub fn target(&self) -> Option<u64> {
        match self.operands.as_slice() {
            [Operand::Bare(target) | Operand::Immediate(target)] => Some(*target),
            _ => None,
        }
    }
}

/// What objdump prints in front of a mnemonic.
const PREFIXES: &[&str] = &[
    "lock", "rep", "repz", "repnz", "bnd", "notrack", "data16", "addr16", "addr32", "cs", "ds",
    "es", "fs", "gs", "ss", "xacquire", "xrelease",
];

fn is_prefix(word: &str) -> bool {
    PREFIXES.contains(&word) || word == "rex" || word.starts_with("rex.") || word.starts_with('{')
}

pub fn parts(text: &str) -> Parts<'_> {
    let (text, shown) = without_comment(text);
    let (text, symbol) = without_symbol(text);
    let mut rest = text.trim();
    let mut prefixes = Vec::new();
    loop {
        let (word, behind) = rest.split_once(' ').unwrap_or((rest, ""));
        if !is_prefix(word) {
            let words: Vec<&str> = split(behind.trim()).collect();
            let operands = words.iter().map(|word| operand(word)).collect();
            return Parts { prefixes, mnemonic: word, operands, words, shown, symbol };
        }
        prefixes.push(word);
        rest = behind.trim_start();
    }
}

/// A comment is `# ADDRESS <NAME>`, or `# ADDRESS`.
fn without_comment(text: &str) -> (&str, Option<u64>) {
    let Some((text, comment)) = text.split_once(" # ") else {
        return (text, None);
    };
    let word = comment.split_whitespace().next().unwrap_or("");
    (text, u64::from_str_radix(word.trim_start_matches("0x"), 16).ok())
}

fn without_symbol(text: &str) -> (&str, Option<&str>) {
    match text.split_once(" <") {
        Some((text, symbol)) => (text, symbol.strip_suffix('>')),
        None => (text, None),
    }
}

/// The operands between the commas that stand in no bracket.
fn split(text: &str) -> impl Iterator<Item = &str> {
    let mut depth = 0;
    let commas = move |c: char| {
        match c {
            '[' | '(' | '{' => depth += 1,
            ']' | ')' | '}' => depth -= 1,
            _ => {}
        }
        c == ',' && depth == 0
    };
    text.split(commas).map(str::trim).filter(|word| !word.is_empty())
}

fn operand(word: &str) -> Operand {
    if word.contains('[') || word.contains(" PTR ") || segmented(word) {
        return Operand::Memory;
    }
    if let Some(register) = general(word) {
        return Operand::General(register);
    }
    if let Some(kind) = other_register(word) {
        return kind;
    }
    if word.starts_with("0x") {
        return parse_number(word).map_or(Operand::Unclear, Operand::Immediate);
    }
    u64::from_str_radix(word, 16).map_or(Operand::Unclear, Operand::Bare)
}

/// The number in the text of an address: `0x804a000` of `[eax*4+0x804a000]` and of
/// `ds:0x804a000`, the complement of `0x8` in `[ebx-0x8]`; that behind the colon in
/// `0x23:0x8049000`.
pub fn displacement(word: &str) -> Option<u64> {
    let at = word.rfind("0x")?;
    let digits = word[at + 2..].trim_end_matches(']');
    let number = u64::from_str_radix(digits, 16).ok()?;
    Some(if word[..at].ends_with('-') { number.wrapping_neg() } else { number })
}

const SEGMENTS: &[&str] = &["cs", "ds", "es", "fs", "gs", "ss"];

/// An address in a segment, as `fs:0x28`.
fn segmented(word: &str) -> bool {
    word.split_once(':').is_some_and(|(segment, _)| SEGMENTS.contains(&segment))
}

pub fn general(word: &str) -> Option<Register> {
    static TABLE: OnceLock<HashMap<&str, Register>> = OnceLock::new();
    TABLE.get_or_init(|| named_registers().collect()).get(word).copied()
}

/// Registers outside class 1, by the letters before their number. A vector
/// register may have masks behind it, as `zmm0{k1}{z}`.
fn other_register(word: &str) -> Option<Operand> {
    if SEGMENTS.contains(&word) {
        return Some(Operand::Segment);
    }
    let name = word.split('{').next().unwrap_or("");
    if name == "st" || name.starts_with("st(") {
        return Some(Operand::Vector);
    }
    let letters = name.trim_end_matches(|c: char| c.is_ascii_digit());
    if letters.len() == name.len() {
        return None;
    }
    match letters {
        "xmm" | "ymm" | "zmm" | "mm" | "k" => Some(Operand::Vector),
        "cr" | "dr" => Some(Operand::Control),
        _ => None,
    }
}
