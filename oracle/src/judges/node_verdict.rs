//! The verdict on a node, from the description alone: the given source has no
//! part in it, so that it also judges nodes on which that source takes too long.

use crate::answers::{self, Answer, Decided};
use crate::judges::node_limits::{children, condition, has_effect, is_constant, parity, Poly};
use crate::judges::reader::read;
use crate::judges::substitution::Rule;
use crate::sheets::names::operator::*;
use crate::sheets::names::value_type::{POINTER, U8};
use crate::sheets::syntax::{Node, Record};

/// The numbers of reasons.
const SAME: u8 = 2;
const WRITTEN: u8 = 3;
const UNSIGNED: u8 = 4;
const EXACT: u8 = 5;
const PARITY: u8 = 6;
const BOTH_HALVES: u8 = 7;

/// Which entries of docs/DIFFERENCES.md hold: the first by the rule of
/// substitution, the second where equal sides with an effect do not fold.
#[derive(Clone, Copy)]
pub struct Entries {
    pub rule: Rule,
    pub folds_effects: bool,
}

/// Both entries: what is due.
pub const BOTH_ENTRIES: Entries = Entries { rule: Rule::Ours, folds_effects: false };

/// None of them: what the given source answers, where it is not refused here.
pub const NO_ENTRY: Entries = Entries { rule: Rule::Given, folds_effects: true };

pub fn verdict(node: &Node) -> Answer {
    verdict_by(node, BOTH_ENTRIES)
}

pub fn verdict_by(node: &Node, entries: Entries) -> Answer {
    match condition(node, entries.rule) {
        Ok(condition) => {
            decide(&condition, entries.folds_effects).map_or(Answer::Undecided, Answer::Decided)
        }
        Err(number) => Answer::Refused(number),
    }
}

/// The answers for all nodes of a sheet, or its refusal.
pub fn line(bytes: &[u8]) -> String {
    let sheet = match read(bytes) {
        Ok(accepted) => accepted.sheet,
        Err(refusal) => return refusal.to_string(),
    };
    answers::line("nodes", &sheet.nodes.iter().map(verdict).collect::<Vec<Answer>>())
}

fn decided(holds: bool, reason: u8) -> Option<Decided> {
    Some(Decided { holds, reason })
}

fn decide(condition: &[Record], folds_effects: bool) -> Option<Decided> {
    match (condition.last(), children(condition).as_slice()) {
        (Some(Record::True), _) => decided(true, WRITTEN),
        (Some(Record::False), _) => decided(false, WRITTEN),
        (Some(Record::Binary(operator @ EQUAL..=GREATER_EQUAL)), [left, right]) => {
            if left == right && (folds_effects || !has_effect(left)) {
                return decided(matches!(*operator, EQUAL | LESS_EQUAL | GREATER_EQUAL), SAME);
            }
            compared(left, *operator, right)
        }
        (Some(Record::Binary(operator @ (BOTH | EITHER))), [left, right]) => {
            let half = |part: &[Record]| decide(part, folds_effects);
            halves(*operator == BOTH, half(left), half(right))
        }
        _ => None,
    }
}

fn compared(left: &[Record], operator: u8, right: &[Record]) -> Option<Decided> {
    match operator {
        EQUAL => equal(left, right),
        NOT_EQUAL => {
            equal(left, right).map(|Decided { holds, reason }| Decided { holds: !holds, reason })
        }
        // Against 0 on the right, then on the left with the relation turned.
        GREATER_EQUAL if is_constant(right, 0) => unsigned(left, true),
        LESS if is_constant(right, 0) => unsigned(left, false),
        _ if is_constant(right, 0) => None,
        LESS_EQUAL if is_constant(left, 0) => unsigned(right, true),
        GREATER if is_constant(left, 0) => unsigned(right, false),
        _ => None,
    }
}

/// A cast to an unsigned type or a pointer is never below 0.
fn unsigned(side: &[Record], holds: bool) -> Option<Decided> {
    match side.last() {
        Some(Record::Cast(U8..=POINTER)) => decided(holds, UNSIGNED),
        _ => None,
    }
}

/// One half that settles the whole does so with its own reason, the left one
/// first; otherwise both are needed.
fn halves(both: bool, left: Option<Decided>, right: Option<Decided>) -> Option<Decided> {
    let settles = |half: &Decided| half.holds != both;
    match (left, right) {
        (Some(half), _) if settles(&half) => Some(half),
        (_, Some(half)) if settles(&half) => Some(half),
        (Some(_), Some(_)) => decided(both, BOTH_HALVES),
        _ => None,
    }
}

fn equal(left: &[Record], right: &[Record]) -> Option<Decided> {
    if let (Some(a), Some(b)) = (exact(left), exact(right)) {
        if !a.as_written || !b.as_written {
            return decided(a.value == b.value, EXACT);
        }
    }
    let mut atoms = Vec::new();
    let sides = [left, right].map(|side| within(parity(side, &mut atoms)));
    let differ: Poly = sides[0].symmetric_difference(&sides[1]).copied().collect();
    if differ == Poly::from([0]) {
        return decided(false, PARITY);
    }
    None
}

/// A polynomial of a node that was not refused.
fn within<E>(poly: Result<Poly, E>) -> Poly {
    poly.unwrap_or_else(|_| unreachable!("larger polynomials were refused"))
}

/// The value of a side that is known, and whether it is a constant as written.
struct Exact {
    value: u64,
    as_written: bool,
}

fn exact(side: &[Record]) -> Option<Exact> {
    let zero = Exact { value: 0, as_written: false };
    match (side.last(), children(side).as_slice()) {
        (Some(Record::Constant { value, .. }), _) => {
            Some(Exact { value: *value, as_written: true })
        }
        (Some(Record::Cast(_)), [child]) => exact(child).filter(|found| found.value <= 1),
        (Some(Record::Binary(AND)), [left, right]) if is_constant(right, 1) => low(left),
        (Some(Record::Binary(AND)), [left, right]) if is_constant(left, 1) => low(right),
        (Some(Record::Binary(REM)), [left, right]) if is_constant(right, 2) => {
            low(left).filter(|found| found.value == 0)
        }
        (Some(Record::Binary(SUB | XOR)), [left, right]) if left == right && !has_effect(left) => {
            Some(zero)
        }
        (Some(Record::Binary(AND | MUL)), [left, right])
            if is_constant(left, 0) || is_constant(right, 0) =>
        {
            Some(zero)
        }
        _ => None,
    }
}

/// The low bit, if it is the same for all bits of the atoms.
fn low(part: &[Record]) -> Option<Exact> {
    let poly = within(parity(part, &mut Vec::new()));
    let value = match poly {
        _ if poly.is_empty() => 0,
        _ if poly == Poly::from([0]) => 1,
        _ => return None,
    };
    Some(Exact { value, as_written: as_written(part) })
}

/// Whether a part is a constant inside casts, `& 1` and `% 2`.
fn as_written(part: &[Record]) -> bool {
    match (part.last(), children(part).as_slice()) {
        (Some(Record::Constant { .. }), _) => true,
        (Some(Record::Cast(_)), [child]) => as_written(child),
        (Some(Record::Binary(AND)), [left, right]) if is_constant(right, 1) => as_written(left),
        (Some(Record::Binary(AND)), [left, right]) if is_constant(left, 1) => as_written(right),
        (Some(Record::Binary(REM)), [left, right]) if is_constant(right, 2) => as_written(left),
        _ => false,
    }
}
