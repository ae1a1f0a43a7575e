//! The evaluation of a node on lent values, written from the value rules. What
//! effects and loads yield comes from a source, so that `node_runs.rs` can run
//! any node.
//!
//! A value is a whole number in the range of its type. Operators work on whole
//! numbers, and their results are wrapped to their types.

use crate::judges::reader::{read, Refusal};
use crate::sheets::encode::encode;
use crate::sheets::names::operator::*;
use crate::sheets::names::refusal;
use crate::sheets::names::value_type::BOOL;
use crate::sheets::syntax::*;
use crate::sheets::types;

/// A run that has no outcome.
#[derive(Clone, Copy, Debug, PartialEq, Eq)]
pub struct DivisionByZero;

pub type Value = Result<i128, DivisionByZero>;

/// Where the values of leaves and loads come from. A record is known by its
/// number in the expression.
pub trait Source {
    fn variable(&self, number: u8) -> i128;
    fn effect(&self, record: usize, code: u8) -> i128;
    fn load(&self, record: usize, code: u8, address: i128) -> i128;
}

/// Values of variables alone: the evaluation refuses nodes that need more.
impl Source for Vec<i128> {
    fn variable(&self, number: u8) -> i128 {
        self[number as usize]
    }

    fn effect(&self, _record: usize, _code: u8) -> i128 {
        unreachable!("refused before the run")
    }

    fn load(&self, _record: usize, _code: u8, _address: i128) -> i128 {
        unreachable!("refused before the run")
    }
}

/// An expression as a tree; each part has its static type, and the number of
/// its record.
pub struct Tree {
    record: Record,
    at: usize,
    code: u8,
    children: Vec<Tree>,
}

impl Tree {
    /// The tree of an accepted expression.
    pub fn of(records: &[Record], variables: &[u8]) -> Tree {
        let mut stack: Vec<Tree> = Vec::new();
        for (at, record) in records.iter().enumerate() {
            let children = stack.split_off(stack.len() - record.children());
            let codes: Vec<u8> = children.iter().map(|child| child.code).collect();
            let code = types::of_record(*record, &codes, variables);
            let code = code.expect("an accepted expression has a type");
            stack.push(Tree { record: *record, at, code, children });
        }
        stack.pop().expect("an accepted expression is one tree")
    }

    fn child_holds(&self, child: usize, source: &impl Source) -> Result<bool, DivisionByZero> {
        Ok(self.children[child].value(source)? != 0)
    }

    pub fn value(&self, source: &impl Source) -> Value {
        let value = match self.record {
            Record::Variable(number) => source.variable(number),
            Record::Constant { value, .. } => i128::from(value),
            Record::True => 1,
            Record::False => 0,
            Record::Cast(_) => self.children[0].value(source)?,
            Record::Binary(BOTH) => {
                let both = self.child_holds(0, source)? && self.child_holds(1, source)?;
                i128::from(both)
            }
            Record::Binary(EITHER) => {
                let either = self.child_holds(0, source)? || self.child_holds(1, source)?;
                i128::from(either)
            }
            Record::Binary(operator) => self.binary(operator, source)?,
            Record::Ternary if self.child_holds(0, source)? => self.children[1].value(source)?,
            Record::Ternary => self.children[2].value(source)?,
            Record::Effect(code) => source.effect(self.at, code),
            Record::Load(code) => source.load(self.at, code, self.children[0].value(source)?),
            Record::Unknown(_) => unreachable!("an accepted record has a known kind"),
        };
        Ok(wrapped(value, self.code))
    }

    /// Operators that need both sides; the caller wraps the result.
    fn binary(&self, operator: u8, source: &impl Source) -> Value {
        let [a, b] = [&self.children[0], &self.children[1]];
        let (x, y) = (a.value(source)?, b.value(source)?);
        if operator == SHL || operator == SHR {
            // The count's value modulo the width is never negative.
            let left = types::promoted(a.code);
            let count = y.rem_euclid(i128::from(types::bits(left)));
            let x = wrapped(x, left);
            return Ok(if operator == SHL { x << count } else { x >> count });
        }
        let code = types::common(a.code, b.code);
        let (x, y) = (wrapped(x, code), wrapped(y, code));
        Ok(match operator {
            ADD => x + y,
            SUB => x - y,
            // Two unsigned values of 64 bits can pass 127 bits; the low 64 stay right.
            MUL => x.wrapping_mul(y),
            DIV | REM if y == 0 => return Err(DivisionByZero),
            DIV => x / y,
            REM => x % y,
            AND => x & y,
            OR => x | y,
            XOR => x ^ y,
            EQUAL => i128::from(x == y),
            NOT_EQUAL => i128::from(x != y),
            LESS => i128::from(x < y),
            LESS_EQUAL => i128::from(x <= y),
            GREATER => i128::from(x > y),
            GREATER_EQUAL => i128::from(x >= y),
            _ => unreachable!("an accepted operator"),
        })
    }
}

/// The number of the type's range that is the same modulo its size; for bool
/// whether the number is not 0.
pub fn wrapped(value: i128, code: u8) -> i128 {
    if code == BOOL {
        return i128::from(value != 0);
    }
    let size = 1 << types::bits(code);
    let low = value.rem_euclid(size);
    if !types::unsigned(code) && low >= size / 2 {
        low - size
    } else {
        low
    }
}

/// How many bits a lent value of this type may have.
pub fn lent_bits(code: u8) -> u32 {
    if code == BOOL {
        1
    } else {
        types::bits(code)
    }
}

/// Whether a lent value has no bits above its type.
fn fits(value: u64, code: u8) -> bool {
    value <= u64::MAX >> (64 - lent_bits(code))
}

/// The bits in which a value of this type is lent.
pub fn lent(value: i128, code: u8) -> u64 {
    wrapped(value, code) as u64 & u64::MAX >> (64 - lent_bits(code))
}

/// The condition's value as an integer. The node has no effect, load or
/// 0-statement, and the values fit.
pub fn run(node: &Node, values: &[u64]) -> Value {
    let types = &node.variables;
    let number = |(value, code): (&u64, &u8)| wrapped(i128::from(*value), *code);
    let mut variables: Vec<i128> = values.iter().zip(types).map(number).collect();
    for statement in &node.statements {
        if let Statement::Assign { variable, value } = statement {
            variables[*variable as usize] = Tree::of(value, types).value(&variables)?;
        }
    }
    Tree::of(&node.condition, types).value(&variables)
}

/// Whether the node has a part that no run on values alone can have.
fn needs_more(node: &Node) -> bool {
    let outside = |records: &Expression| {
        records.iter().any(|record| matches!(record, Record::Effect(_) | Record::Load(_)))
    };
    let statement = |statement: &Statement| match statement {
        Statement::Assign { value, .. } => outside(value),
        Statement::Other => true,
    };
    node.statements.iter().any(statement) || outside(&node.condition)
}

/// The lowest variable without a value that fits.
fn lacking(node: &Node, values: &[u64]) -> Option<usize> {
    let fitting = |number: usize| {
        values.get(number).is_some_and(|value| fits(*value, node.variables[number]))
    };
    (0..node.variables.len()).find(|number| !fitting(*number))
}

/// The first byte of a node: where a sheet without it and those behind it ends.
pub fn place_of_node(sheet: &Sheet, number: usize) -> usize {
    let before = Sheet { nodes: sheet.nodes[..number].to_vec(), ..sheet.clone() };
    encode(&before).bytes.len()
}

pub type Answer = Result<bool, Refusal>;

/// The evaluation of a sheet's node: reading's refusals, then 13, 15, 16, 14.
pub fn evaluation(sheet: &[u8], number: u32, values: &[u64]) -> Answer {
    let sheet = read(sheet)?.sheet;
    let refused = |number: u8, place: usize| Err(Refusal { number, place });
    let Some(node) = sheet.nodes.get(number as usize) else {
        return refused(refusal::NUMBER, 0);
    };
    let place = || place_of_node(&sheet, number as usize);
    if needs_more(node) {
        return refused(refusal::NOT_PLAIN, place());
    }
    if let Some(variable) = lacking(node, values) {
        return refused(refusal::VALUE, variable);
    }
    match run(node, values) {
        Ok(value) => Ok(value != 0),
        Err(DivisionByZero) => refused(refusal::DIVISION, place()),
    }
}

/// The answer in words.
pub fn line(answer: &Answer) -> String {
    match answer {
        Ok(true) => "holds".to_string(),
        Ok(false) => "fails".to_string(),
        Err(refusal) => refusal.to_string(),
    }
}

/// What stands between the answers of one line.
pub const COMMA: &str = ", ";

/// The answers on several sets of values as the line that the test program
/// writes.
pub fn joined<'a>(answers: impl Iterator<Item = &'a Answer>) -> String {
    answers.map(line).collect::<Vec<String>>().join(COMMA)
}

/// The line for one node and several sets.
pub fn evaluations(sheet: &[u8], number: u32, sets: &[Vec<u64>]) -> String {
    let answers: Vec<Answer> = sets.iter().map(|set| evaluation(sheet, number, set)).collect();
    joined(answers.iter())
}
