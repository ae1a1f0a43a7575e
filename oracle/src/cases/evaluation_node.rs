//! Random nodes for the evaluation, with values for their variables. There is
//! no effect, load or 0-statement in them.
//!
//! Whether a condition holds says little about what stands under it. Most
//! conditions here therefore compare a part with a variable whose lent value
//! is the one that the part has, or one beside it.

use crate::cases::random::Random;
use crate::judges::evaluator;
use crate::sheets::names::operator::{self, *};
use crate::sheets::names::value_type::{self, BOOL, S16, S32, S64, S8};
use crate::sheets::syntax::*;
use crate::sheets::types;

const MOST_RECORDS: usize = 128;

/// What is lent for a variable that was added to compare with.
#[derive(Clone, Copy, Debug, PartialEq, Eq)]
enum Echo {
    /// The part's value, or one beside it.
    Value,
    /// Whether the part's value is negative.
    Sign,
}

/// A node, and how to lend values to it.
pub struct Made {
    pub node: Node,
    /// The part that is compared, and the variables added for it.
    part: Expression,
    echoes: Vec<Echo>,
}

/// Entries of the table: every operator, the ternary and the cast on every
/// pair of types.
pub const TABLE: u64 = 20 * 100;
const TERNARY: u8 = operator::COUNT;
const CAST: u8 = operator::COUNT + 1;

/// Node number `index` of the run with this seed: the table's entries at even
/// numbers, others between them.
pub fn made(seed: u64, index: u64) -> Made {
    let mut writer = Writer { random: Random::new(seed, index), variables: Vec::new() };
    if index.is_multiple_of(2) {
        writer.table_entry(index / 2 % TABLE)
    } else if writer.random.once_in(60) {
        writer.large()
    } else {
        writer.any()
    }
}

struct Writer {
    random: Random,
    variables: Vec<u8>,
}

fn constant(width: u8, value: u64) -> Expression {
    vec![Record::Constant { width, value }]
}

fn variable(number: usize) -> Expression {
    vec![Record::Variable(number as u8)]
}

impl Writer {
    fn type_code(&mut self) -> u8 {
        self.random.below(value_type::COUNT.into()) as u8
    }

    fn signed_type(&mut self) -> u8 {
        self.random.pick(&[S8, S16, S32, S64])
    }

    fn table_entry(&mut self, entry: u64) -> Made {
        let (first, second) = ((entry % 10) as u8, (entry / 10 % 10) as u8);
        self.variables = vec![first, second];
        let part = match (entry / 100) as u8 {
            TERNARY => {
                self.variables.push(BOOL);
                let arms = [variable(2), variable(0), variable(1)].concat();
                inside(arms, Record::Ternary)
            }
            CAST => {
                self.variables.pop();
                inside(variable(0), Record::Cast(second))
            }
            operator => join(variable(0), operator, variable(1)),
        };
        self.whole(Vec::new(), part)
    }

    fn any(&mut self) -> Made {
        let count = 1 + self.random.below(6);
        self.variables = (0..count).map(|_| self.type_code()).collect();
        let count = self.random.pick(&[0, 0, 1, 2, 3, 5]);
        let statements = (0..count).map(|_| self.assignment(3)).collect();
        let depth = self.random.pick(&[1, 2, 3, 3, 4, 4, 5]);
        let part = self.limited(depth);
        self.probe(statements, part)
    }

    /// A node near the limits: many variables, many assignments, and one long
    /// expression.
    fn large(&mut self) -> Made {
        let count = 20 + self.random.below(11);
        self.variables = (0..count).map(|_| self.type_code()).collect();
        let count = self.random.below(65);
        let statements = (0..count).map(|_| self.assignment(2)).collect();
        let length = 100 + self.random.below(17);
        let part = self.long(length);
        self.probe(statements, part)
    }

    /// A part that grows by one operator after the other, on either side.
    fn long(&mut self, length: usize) -> Expression {
        let mut part = self.leaf();
        while part.len() < length {
            part = match self.random.below(8) {
                0 => {
                    let code = self.type_code();
                    inside(part, Record::Cast(code))
                }
                1 => inside([self.leaf(), part, self.leaf()].concat(), Record::Ternary),
                2 => inside([part, self.leaf(), self.leaf()].concat(), Record::Ternary),
                3 => {
                    let operator = self
                        .random
                        .pick(&[ADD, SUB, MUL, AND, OR, XOR, SHL, SHR, EQUAL, LESS, BOTH, EITHER]);
                    join(self.leaf(), operator, part)
                }
                _ => {
                    let operator = self.operator();
                    let right = self.right_side(operator, 0);
                    join(part, operator, right)
                }
            };
        }
        part
    }

    fn assignment(&mut self, depth: usize) -> Statement {
        let number = self.random.below(self.variables.len());
        let declared = self.variables[number];
        let mut value = self.limited(depth);
        let found = types::of_expression(&value, &self.variables);
        if found.is_none_or(|found| types::plain(found) != types::plain(declared)) {
            value.push(Record::Cast(declared));
        }
        Statement::Assign { variable: number as u8, value }
    }

    /// A tree that leaves room for a few records around it.
    fn limited(&mut self, depth: usize) -> Expression {
        let made = self.value(depth);
        if made.len() > MOST_RECORDS - 8 {
            return self.leaf();
        }
        made
    }

    /// The condition on a part. A part that is too long to stand in it twice
    /// is compared once.
    fn probe(&mut self, statements: Vec<Statement>, part: Expression) -> Made {
        match self.random.below(8) {
            0 => self.plain(statements, part),
            1 => self.one_bit(statements, part),
            2..=4 if part.len() * 2 + 9 <= MOST_RECORDS => self.whole(statements, part),
            _ => self.compared(statements, part),
        }
    }

    fn finish(
        &mut self,
        statements: Vec<Statement>,
        condition: Expression,
        part: Expression,
        echoes: Vec<Echo>,
    ) -> Made {
        let variables = std::mem::take(&mut self.variables);
        let node = Node { variables, statements, condition, addresses: Vec::new() };
        Made { node, part, echoes }
    }

    /// The part itself as a condition.
    fn plain(&mut self, statements: Vec<Statement>, part: Expression) -> Made {
        self.finish(statements, part, Vec::new(), Vec::new())
    }

    fn one_bit(&mut self, statements: Vec<Statement>, part: Expression) -> Made {
        let count = self.random.below(64) as u64;
        let shifted = join(part, SHR, constant(1, count));
        let condition = join(shifted, AND, constant(1, 1));
        self.finish(statements, condition, Vec::new(), Vec::new())
    }

    /// The part's 64 bits and its sign, so that no other value of any type
    /// will do.
    fn whole(&mut self, statements: Vec<Statement>, part: Expression) -> Made {
        let count = self.variables.len();
        self.variables.extend([S64, BOOL]);
        let condition = whole_condition(&part, count);
        self.finish(statements, condition, part, vec![Echo::Value, Echo::Sign])
    }

    /// The part against a variable, by any comparison; mostly of its own type.
    fn compared(&mut self, statements: Vec<Statement>, part: Expression) -> Made {
        let own = types::of_expression(&part, &self.variables).expect("a well typed part");
        let code = if self.random.once_in(3) { self.type_code() } else { own };
        let operator = self.random.pick(&[
            EQUAL,
            EQUAL,
            EQUAL,
            NOT_EQUAL,
            LESS,
            LESS_EQUAL,
            GREATER,
            GREATER_EQUAL,
        ]);
        let echo = variable(self.variables.len());
        self.variables.push(code);
        let condition = match self.random.once_in(2) {
            true => join(part.clone(), operator, echo),
            false => join(echo, operator, part.clone()),
        };
        self.finish(statements, condition, part, vec![Echo::Value])
    }

    fn operator(&mut self) -> u8 {
        self.random.below(operator::COUNT.into()) as u8
    }

    fn value(&mut self, depth: usize) -> Expression {
        if depth == 0 || self.random.once_in(7) {
            return self.leaf();
        }
        match self.random.below(20) {
            0..=2 => {
                let code = self.type_code();
                inside(self.value(depth - 1), Record::Cast(code))
            }
            3 | 4 => {
                let parts =
                    [self.value(depth - 1), self.value(depth - 1), self.value(depth - 1)].concat();
                inside(parts, Record::Ternary)
            }
            _ => {
                let operator = self.operator();
                let left = self.value(depth - 1);
                let right = self.right_side(operator, depth - 1);
                join(left, operator, right)
            }
        }
    }

    fn right_side(&mut self, operator: u8, depth: usize) -> Expression {
        match operator {
            DIV | REM => self.divisor(depth),
            SHL | SHR => self.count(depth),
            _ => self.value(depth),
        }
    }

    /// Mostly not 0.
    fn divisor(&mut self, depth: usize) -> Expression {
        match self.random.below(8) {
            0 => self.value(depth),
            1 => self.leaf(),
            2 => self.minus_one(),
            3 | 4 => {
                let width = self.width();
                let value = self.number(8 * u32::from(width));
                constant(width, value.max(1))
            }
            _ => join(self.value(depth), OR, constant(1, 1)),
        }
    }

    /// Counts below, at and past the widths, and negative ones.
    fn count(&mut self, depth: usize) -> Expression {
        match self.random.below(6) {
            0 => self.value(depth),
            1 => self.leaf(),
            2 => self.minus_one(),
            3 => {
                // A small negative number.
                let code = self.signed_type();
                let value = self.random.below(70) as u64;
                let small = inside(constant(1, value), Record::Cast(code));
                join(inside(vec![Record::False], Record::Cast(code)), SUB, small)
            }
            _ => {
                let counts = [0, 1, 7, 8, 15, 16, 30, 31, 32, 33, 62, 63, 64, 65, 127, 128, 255];
                let value = self.random.pick(&counts);
                constant(self.width(), value)
            }
        }
    }

    fn minus_one(&mut self) -> Expression {
        let code = self.signed_type();
        inside(constant(8, u64::MAX), Record::Cast(code))
    }

    fn most_negative(&mut self) -> Expression {
        match self.random.once_in(2) {
            true => inside(constant(4, 1 << 31), Record::Cast(S32)),
            false => inside(constant(8, 1 << 63), Record::Cast(S64)),
        }
    }

    fn width(&mut self) -> u8 {
        self.random.pick(&[1, 2, 4, 8])
    }

    fn leaf(&mut self) -> Expression {
        match self.random.below(16) {
            0..=9 if !self.variables.is_empty() => {
                variable(self.random.below(self.variables.len()))
            }
            10 => vec![self.random.pick(&[Record::True, Record::False])],
            11 => self.most_negative(),
            _ => {
                let width = self.width();
                let value = self.number(8 * u32::from(width));
                constant(width, value)
            }
        }
    }

    fn number(&mut self, bits: u32) -> u64 {
        number(&mut self.random, bits)
    }
}

/// Compares a part's 64 bits with the variable `first`, and whether it is
/// negative with the one after it.
fn whole_condition(part: &[Record], first: usize) -> Expression {
    let wide = inside(part.to_vec(), Record::Cast(S64));
    let zero = inside(constant(1, 0), Record::Cast(S32));
    let sign = join(part.to_vec(), LESS, zero);
    let [value, negative] =
        [join(wide, EQUAL, variable(first)), join(sign, EQUAL, variable(first + 1))];
    join(value, BOTH, negative)
}

/// A number of so many bits: near the ends of each width, near powers of two,
/// small, or any.
pub fn number(random: &mut Random, bits: u32) -> u64 {
    let most = u64::MAX >> (64 - bits);
    let value = match random.below(10) {
        0 => 0,
        1 => 1,
        2 => most,
        3 => most / 2,
        4 => most / 2 + 1,
        5 => random.below(70) as u64,
        6 => (random.below(70) as u64).wrapping_neg(),
        7 => (1u64 << random.below(64)).wrapping_add(random.below(3) as u64).wrapping_sub(1),
        8 => random.draw() >> random.below(64),
        _ => random.draw(),
    };
    value & most
}

impl Made {
    /// Values for the variables; at times there are more than these.
    pub fn values(&self, random: &mut Random) -> Vec<u64> {
        let types = &self.node.variables;
        let own = types.len() - self.echoes.len();
        let kind = random.below(8);
        let same = number(random, 64);
        let value = |(place, code): (usize, &u8)| {
            let bits = evaluator::lent_bits(*code);
            let most = u64::MAX >> (64 - bits);
            match kind {
                0 => same & most,
                // The most negative value, and -1.
                1 => random.pick(&[most / 2 + 1, most]),
                2 => [most / 2 + 1, most][place % 2],
                _ => number(random, bits),
            }
        };
        let mut values: Vec<u64> = types[..own].iter().enumerate().map(value).collect();
        self.lend_echoes(random, &mut values);
        for _ in 0..random.pick(&[0, 0, 0, 0, 0, 0, 1, 40]) {
            values.push(random.draw());
        }
        values
    }

    fn lend_echoes(&self, random: &mut Random, values: &mut Vec<u64>) {
        if self.echoes.is_empty() {
            return;
        }
        let probe = Node { condition: self.part.clone(), ..self.node.clone() };
        // A run without an outcome has no value to compare with.
        let found = evaluator::run(&probe, values).unwrap_or(0);
        let beside = random.pick(&[0, 0, 0, 0, 0, 0, 1, -1, 1 << 8, 1 << 31, 1 << 32, 1 << 63]);
        for echo in &self.echoes {
            let code = self.node.variables[values.len()];
            let value = match echo {
                Echo::Value => evaluator::lent(found + beside, code),
                Echo::Sign => u64::from((found < 0) != random.once_in(12)),
            };
            values.push(value);
        }
    }
}
