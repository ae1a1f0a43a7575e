//! Static types of expressions, by the value rules: what a record yields
//! from the types of its children.

use crate::sheets::names::operator;
use crate::sheets::names::value_type::*;
use crate::sheets::syntax::Record;

/// The pointer type counts as unsigned 64.
pub fn plain(code: u8) -> u8 {
    if code == POINTER {
        U64
    } else {
        code
    }
}

/// Width in bits of types 0 to 8; types 0 to 3 are signed, 4 to 7 unsigned.
pub fn bits(code: u8) -> u32 {
    8 << (plain(code) % 4)
}

pub fn unsigned(code: u8) -> bool {
    (U8..=POINTER).contains(&code)
}

/// Below 32 bits, and bool, an operand becomes signed 32.
pub fn promoted(code: u8) -> u8 {
    if code == BOOL || bits(code) < 32 {
        S32
    } else {
        plain(code)
    }
}

/// The common type of two operands: the wider one, unsigned at a tie.
pub fn common(a: u8, b: u8) -> u8 {
    let (a, b) = (promoted(a), promoted(b));
    if bits(a) > bits(b) || (bits(a) == bits(b) && unsigned(a)) {
        a
    } else {
        b
    }
}

fn of_constant(width: u8) -> Option<u8> {
    match width {
        1 => Some(U8),
        2 => Some(U16),
        4 => Some(U32),
        8 => Some(U64),
        _ => None,
    }
}

/// The type of a record whose children have the types `children`; `None`
/// where a code or a variable is outside its table.
pub fn of_record(record: Record, children: &[u8], variables: &[u8]) -> Option<u8> {
    let code = match record {
        Record::Variable(number) => variables.get(number as usize).copied()?,
        Record::Constant { width, .. } => of_constant(width)?,
        Record::True | Record::False => S32,
        Record::Effect(code) | Record::Load(code) | Record::Cast(code) => code,
        Record::Binary(operator::ADD..=operator::XOR) => common(children[0], children[1]),
        Record::Binary(operator::SHL | operator::SHR) => promoted(children[0]),
        Record::Binary(_) => S32,
        Record::Ternary => common(children[1], children[2]),
        Record::Unknown(_) => return None,
    };
    (code <= BOOL).then_some(code)
}

/// The type of an expression that is one tree.
pub fn of_expression(records: &[Record], variables: &[u8]) -> Option<u8> {
    let mut stack: Vec<u8> = Vec::new();
    for record in records {
        let base = stack.len().checked_sub(record.children())?;
        let code = of_record(*record, &stack[base..], variables)?;
        stack.truncate(base);
        stack.push(code);
    }
    if stack.len() == 1 {
        stack.pop()
    } else {
        None
    }
}
