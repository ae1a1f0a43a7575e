//! Which nodes are refused as 10 or 11: expressions that grow too long, and
//! low-bit polynomials that grow too large.

use crate::judges::substitution::{substitute, Rule};
use crate::sheets::names::operator::*;
use crate::sheets::names::refusal;
use crate::sheets::names::value_type::BOOL;
use crate::sheets::syntax::{Expression, Node, Record};
use std::collections::BTreeSet;

/// Records of a substituted value or condition.
const MOST_RECORDS: usize = 128;

/// Terms of a polynomial, and of two multiplied before equal ones cancel.
const MOST_TERMS: usize = 256;
const MOST_PRODUCT: usize = 4_096;

/// The number that the node verdict is refused with, if it is.
pub fn refusal(node: &Node) -> Option<u8> {
    condition(node, Rule::Ours).err()
}

/// The substituted condition, or the number of the refusal.
pub fn condition(node: &Node, rule: Rule) -> Result<Expression, u8> {
    match substitute(node, rule, MOST_RECORDS) {
        None => Err(refusal::RECORDS),
        Some(found) if passes(&found.condition) => Err(refusal::TERMS),
        Some(found) => Ok(found.condition),
    }
}

/// A polynomial passed a limit.
#[derive(Debug)]
pub struct Passed;

/// Terms are sets of atoms, as bits.
pub type Poly = BTreeSet<u128>;

/// Whether a limit is passed at an equality reached through logic alone.
fn passes(condition: &[Record]) -> bool {
    match (condition.last(), children(condition).as_slice()) {
        (Some(Record::Binary(BOTH | EITHER)), [left, right]) => passes(left) || passes(right),
        (Some(Record::Binary(EQUAL | NOT_EQUAL)), [left, right]) => equality(left, right).is_err(),
        _ => false,
    }
}

fn equality(left: &[Record], right: &[Record]) -> Result<(), Passed> {
    exact(left)?;
    exact(right)?;
    let mut atoms = Vec::new();
    let sum = plus(parity(left, &mut atoms)?, &parity(right, &mut atoms)?);
    checked(sum).map(|_| ())
}

pub fn is_constant(records: &[Record], wanted: u64) -> bool {
    matches!(records, [Record::Constant { value, .. }] if *value == wanted)
}

/// The low bits that the step for exact sides looks at.
fn exact(side: &[Record]) -> Result<(), Passed> {
    let subject = match (side.last(), children(side).as_slice()) {
        (Some(Record::Cast(_)), [child]) => return exact(child),
        (Some(Record::Binary(AND)), [left, right]) if is_constant(right, 1) => *left,
        (Some(Record::Binary(AND)), [left, right]) if is_constant(left, 1) => *right,
        (Some(Record::Binary(REM)), [left, right]) if is_constant(right, 2) => *left,
        _ => return Ok(()),
    };
    parity(subject, &mut Vec::new()).map(|_| ())
}

fn checked(poly: Poly) -> Result<Poly, Passed> {
    if poly.len() > MOST_TERMS {
        Err(Passed)
    } else {
        Ok(poly)
    }
}

/// The low bit of a part, and of each part that it enters on the way.
pub fn parity<'a>(part: &'a [Record], atoms: &mut Vec<&'a [Record]>) -> Result<Poly, Passed> {
    let poly = match (part.last(), children(part).as_slice()) {
        (Some(Record::Constant { value, .. }), _) => constant(value % 2 == 1),
        (Some(Record::Cast(code)), [child]) if *code != BOOL => parity(child, atoms)?,
        (Some(Record::Binary(ADD | SUB | XOR)), [left, right]) => {
            plus(parity(left, atoms)?, &parity(right, atoms)?)
        }
        (Some(Record::Binary(MUL | AND)), [left, right]) => {
            times(&parity(left, atoms)?, &parity(right, atoms)?)?
        }
        (Some(Record::Binary(OR)), [left, right]) => {
            let (left, right) = (parity(left, atoms)?, parity(right, atoms)?);
            let product = checked(times(&left, &right)?)?;
            plus(plus(left, &right), &product)
        }
        (Some(Record::Binary(REM)), [left, [Record::Constant { value, .. }]])
            if *value != 0 && value % 2 == 0 =>
        {
            parity(left, atoms)?
        }
        (Some(Record::Binary(SHL)), [left, [Record::Constant { value, .. }]]) if *value < 32 => {
            match value {
                0 => parity(left, atoms)?,
                _ => constant(false),
            }
        }
        _ => atom(part, atoms),
    };
    checked(poly)
}

fn constant(odd: bool) -> Poly {
    if odd {
        Poly::from([0])
    } else {
        Poly::new()
    }
}

pub fn has_effect(part: &[Record]) -> bool {
    part.iter().any(|record| matches!(record, Record::Effect(_)))
}

/// Equal parts are one atom, except that each with an effect is its own.
fn atom<'a>(part: &'a [Record], atoms: &mut Vec<&'a [Record]>) -> Poly {
    let known = if has_effect(part) { None } else { atoms.iter().position(|other| *other == part) };
    let number = known.unwrap_or_else(|| {
        atoms.push(part);
        atoms.len() - 1
    });
    Poly::from([1 << number])
}

fn toggle(poly: &mut Poly, term: u128) {
    if !poly.remove(&term) {
        poly.insert(term);
    }
}

fn plus(mut left: Poly, right: &Poly) -> Poly {
    right.iter().for_each(|term| toggle(&mut left, *term));
    left
}

fn times(left: &Poly, right: &Poly) -> Result<Poly, Passed> {
    if left.len() * right.len() > MOST_PRODUCT {
        return Err(Passed);
    }
    let mut product = Poly::new();
    for a in left {
        right.iter().for_each(|b| toggle(&mut product, a | b));
    }
    Ok(product)
}

/// The parts under the last record, in order.
pub fn children(records: &[Record]) -> Vec<&[Record]> {
    let Some((last, mut before)) = records.split_last() else {
        return Vec::new();
    };
    let mut list = Vec::new();
    for _ in 0..last.children() {
        let (rest, child) = before.split_at(last_start(before));
        list.push(child);
        before = rest;
    }
    list.reverse();
    list
}

/// Where the tree starts that ends with the last record.
fn last_start(records: &[Record]) -> usize {
    let mut wanted = 1;
    for (at, record) in records.iter().enumerate().rev() {
        wanted = wanted - 1 + record.children();
        if wanted == 0 {
            return at;
        }
    }
    0
}
