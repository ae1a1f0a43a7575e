//! Runs of a node: any values of its variables at the start, any memory, any
//! values of effects, and at each 0-statement new values for all variables.
//!
//! In the condition two loads of one type and address agree. In a statement
//! each load has a value of its own, as each effect has everywhere.

use crate::cases::random::Random;
use crate::judges::evaluator::{wrapped, DivisionByZero, Source, Tree};
use crate::sheets::syntax::{Node, Statement};

/// A node made ready for many runs.
pub struct Runs {
    types: Vec<u8>,
    /// An assignment's variable and value; nothing for a 0-statement.
    statements: Vec<Option<(u8, Tree)>>,
    condition: Tree,
}

impl Runs {
    /// The runs of an accepted node.
    pub fn of(node: &Node) -> Runs {
        let types = node.variables.clone();
        let statement = |statement: &Statement| match statement {
            Statement::Assign { variable, value } => Some((*variable, Tree::of(value, &types))),
            Statement::Other => None,
        };
        let statements = node.statements.iter().map(statement).collect();
        let condition = Tree::of(&node.condition, &types);
        Runs { types, statements, condition }
    }

    fn any_values(&self, random: &mut Random) -> Vec<i128> {
        self.types.iter().map(|code| any_value(random.draw(), *code)).collect()
    }

    /// Whether the condition holds at the end of this run, if it has an
    /// outcome.
    pub fn outcome(&self, seed: u64, index: u64) -> Result<bool, DivisionByZero> {
        let mut random = Random::new(seed, index);
        let mut variables = self.any_values(&mut random);
        for statement in &self.statements {
            match statement {
                None => variables = self.any_values(&mut random),
                Some((variable, tree)) => {
                    let salt = random.draw();
                    let value = tree.value(&InStatement { variables: &variables, salt })?;
                    variables[*variable as usize] = value;
                }
            }
        }
        let salt = random.draw();
        Ok(self.condition.value(&InCondition { variables: &variables, salt })? != 0)
    }
}

/// A value of the type, from any bits: often one at which something changes.
fn any_value(bits: u64, code: u8) -> i128 {
    let rest = bits >> 8;
    let chosen = match bits % 8 {
        0 => 0,
        1 => 1,
        2 => u64::MAX,
        3 => 1 << (rest % 64),
        4 | 5 => rest % 16,
        _ => bits.rotate_left(17),
    };
    wrapped(i128::from(chosen), code)
}

/// Bits that depend on all of these numbers.
fn mixed(numbers: [u64; 4]) -> u64 {
    numbers.into_iter().fold(0, |bits, number| Random::new(bits, number).draw())
}

const EFFECT: u64 = 0;
const LOAD: u64 = 1;

struct InStatement<'a> {
    variables: &'a [i128],
    salt: u64,
}

impl Source for InStatement<'_> {
    fn variable(&self, number: u8) -> i128 {
        self.variables[number as usize]
    }

    fn effect(&self, record: usize, code: u8) -> i128 {
        any_value(mixed([self.salt, EFFECT, record as u64, 0]), code)
    }

    fn load(&self, record: usize, code: u8, _address: i128) -> i128 {
        any_value(mixed([self.salt, LOAD, record as u64, 0]), code)
    }
}

struct InCondition<'a> {
    variables: &'a [i128],
    salt: u64,
}

impl Source for InCondition<'_> {
    fn variable(&self, number: u8) -> i128 {
        self.variables[number as usize]
    }

    fn effect(&self, record: usize, code: u8) -> i128 {
        any_value(mixed([self.salt, EFFECT, record as u64, 0]), code)
    }

    /// Memory, by type and address. Addresses of signed and unsigned types
    /// that have the same 64 bits are one.
    fn load(&self, _record: usize, code: u8, address: i128) -> i128 {
        any_value(mixed([self.salt, LOAD, u64::from(code), address as u64]), code)
    }
}
