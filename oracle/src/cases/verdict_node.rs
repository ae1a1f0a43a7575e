//! Random nodes aimed at verdicts: conditions in which low bits, equal sides,
//! signs and halves settle something, behind assignments that are carried to
//! them.

use crate::cases::any_sheet::{Generator, SMALL};
use crate::cases::limit_node::{long_node, wide_node};
use crate::judges::substitution::{substitute, Rule};
use crate::sheets::names::operator::{self, *};
use crate::sheets::names::value_type::{self, S32, S64, U32, U64, U8};
use crate::sheets::syntax::*;
use crate::sheets::types;

const MOST_RECORDS: usize = 120;

/// Node number `index` of the run with this seed.
pub fn numbered(seed: u64, index: u64) -> Node {
    node(&mut Generator::new(seed, index, 0))
}

pub fn node(generator: &mut Generator) -> Node {
    match generator.random.below(200) {
        0..=19 => return generator.node(SMALL, &[]),
        20 | 21 => return wide_node(generator),
        22..=26 => return long_node(generator),
        27..=60 => return chain(generator),
        _ => {}
    }
    let count = 1 + generator.random.below(3);
    let mut variables: Vec<u8> = vec![generator.random.pick(&[U32, U32, U64, U8, S32, S64]); count];
    for code in &mut variables {
        if generator.random.once_in(4) {
            *code = generator.random.below(value_type::COUNT.into()) as u8;
        }
    }
    let mut writer = Writer { generator, variables };
    let count = writer.below(5);
    let statements = (0..count).map(|_| writer.statement()).collect();
    let condition = match writer.below(6) {
        0 => writer.limited(|writer| writer.value(2)),
        1 => writer.limited(|writer| writer.condition(4)),
        _ => writer.limited(|writer| writer.condition(2)),
    };
    let variables = writer.variables;
    let mut node = Node { variables, statements, condition, addresses: Vec::new() };
    if generator.random.once_in(4) {
        echo(generator, &mut node);
    }
    node
}

/// Assignments that read each other and themselves, over variables of one type
/// or of the two that count as one.
fn chain(generator: &mut Generator) -> Node {
    let count = 2 + generator.random.below(3);
    let code = generator.random.pick(&[U32, U32, U64]);
    let mut variables = vec![code; count];
    if code == U64 {
        variables[0] = value_type::POINTER;
    }
    let many = generator.random.once_in(20);
    let statements = 2 + generator.random.below(if many { 61 } else { 6 });
    let mut writer = Writer { generator, variables };
    let mut statements: Vec<Statement> = (0..statements).map(|_| writer.link()).collect();
    if writer.below(3) == 0 {
        statements.extend(writer.ended());
    }
    let condition = match writer.below(4) {
        0 => writer.limited(|writer| writer.condition(1)),
        1 => join(writer.link_value(), EQUAL, writer.link_value()),
        _ => join(writer.leaf(), EQUAL, writer.leaf()),
    };
    let variables = writer.variables;
    let mut node = Node { variables, statements, condition, addresses: Vec::new() };
    if generator.random.once_in(4) {
        echo(generator, &mut node);
    }
    node
}

/// Compares the condition with what substitution makes of it, or with that
/// and 1: equal, or of other low bits, if all of it is carried as it should.
fn echo(generator: &mut Generator, node: &mut Node) {
    let Some(found) = substitute(node, Rule::Ours, MOST_RECORDS / 2) else {
        return;
    };
    let mut other = found.condition;
    if generator.random.once_in(2) {
        other = join(other, ADD, vec![Record::Constant { width: 4, value: 1 }]);
    }
    if node.condition.len() + other.len() < MOST_RECORDS {
        let operator = generator.random.pick(&[EQUAL, NOT_EQUAL]);
        node.condition = join(node.condition.clone(), operator, other);
    }
}

struct Writer<'a> {
    generator: &'a mut Generator,
    variables: Vec<u8>,
}

impl Writer<'_> {
    fn below(&mut self, limit: usize) -> usize {
        self.generator.random.below(limit)
    }

    /// An expression that fits a sheet.
    fn limited(&mut self, make: impl Fn(&mut Self) -> Expression) -> Expression {
        let made = make(self);
        if made.len() > MOST_RECORDS {
            return vec![Record::True];
        }
        made
    }

    fn statement(&mut self) -> Statement {
        if self.below(12) == 0 {
            return Statement::Other;
        }
        let variable = self.below(self.variables.len()) as u8;
        let declared = self.variables[variable as usize];
        let mut value = self.limited(|writer| writer.value(2));
        let found = types::of_expression(&value, &self.variables);
        if found.is_none_or(|found| types::plain(found) != types::plain(declared)) {
            value.push(Record::Cast(declared));
        }
        Statement::Assign { variable, value }
    }

    /// An assignment of a chain.
    fn link(&mut self) -> Statement {
        if self.below(40) == 0 {
            return Statement::Other;
        }
        let variable = self.below(self.variables.len()) as u8;
        let declared = self.variables[variable as usize];
        let mut value = match self.below(8) {
            0..=2 => vec![Record::Variable(self.below(self.variables.len()) as u8)],
            // Itself and something odd or even.
            3 | 4 => {
                let operator = self.generator.random.pick(&[ADD, SUB, XOR, OR, MUL]);
                let parts = [self.link_value(), self.even(1), self.one()];
                join(vec![Record::Variable(variable)], operator, {
                    let choice = self.below(3);
                    parts[choice].clone()
                })
            }
            _ => self.link_value(),
        };
        let found = types::of_expression(&value, &self.variables);
        if found.is_none_or(|found| types::plain(found) != types::plain(declared)) {
            value.push(Record::Cast(declared));
        }
        Statement::Assign { variable, value }
    }

    /// Two assignments, the second of which ends what the first one holds and
    /// reads its variable in what it would hold itself.
    fn ended(&mut self) -> [Statement; 2] {
        let [first, second] = [0, 1].map(|number| vec![Record::Variable(number)]);
        let operators = [ADD, SUB, MUL, AND, OR, XOR];
        let odd = self.below(2) == 0;
        let part = if odd { join(second, OR, self.one()) } else { second };
        let value = join(first.clone(), self.generator.random.pick(&operators), part);
        let other = match self.below(3) {
            0 => join(first.clone(), self.generator.random.pick(&operators), self.leaf()),
            _ => first,
        };
        [(0, value), (1, other)].map(|(variable, mut value)| {
            value.push(Record::Cast(self.variables[variable as usize]));
            Statement::Assign { variable, value }
        })
    }

    /// One operator on two leaves, at times with an odd part.
    fn link_value(&mut self) -> Expression {
        let operator = self.generator.random.pick(&[ADD, SUB, MUL, AND, OR, XOR]);
        let odd = self.below(3) == 0;
        let right = if odd { join(self.leaf(), OR, self.one()) } else { self.leaf() };
        join(self.leaf(), operator, right)
    }

    fn condition(&mut self, depth: usize) -> Expression {
        match self.below(20) {
            0..=5 if depth > 0 => {
                let operator = self.generator.random.pick(&[BOTH, EITHER]);
                join(self.condition(depth - 1), operator, self.condition(depth - 1))
            }
            6 => vec![self.generator.random.pick(&[Record::True, Record::False])],
            7 => self.against_zero(),
            8 => {
                let side = self.value(2);
                let operator = EQUAL + self.below(6) as u8;
                join(side.clone(), operator, side)
            }
            9 => self.value(2),
            10 => {
                let operator = EQUAL + self.below(6) as u8;
                join(self.value(2), operator, self.value(2))
            }
            _ => self.equality(),
        }
    }

    fn equality(&mut self) -> Expression {
        let operator = self.generator.random.pick(&[EQUAL, NOT_EQUAL]);
        let (mut left, mut right) = match self.below(4) {
            0 => (self.exact(), self.exact()),
            1 => {
                // Low bits that differ, or might.
                let side = self.value(2);
                let other = join(side.clone(), ADD, self.value(1));
                (side, other)
            }
            2 => (self.value(2), self.constant()),
            _ => (self.exact(), self.constant()),
        };
        if self.below(2) == 0 {
            std::mem::swap(&mut left, &mut right);
        }
        join(left, operator, right)
    }

    /// A cast against 0, on either side.
    fn against_zero(&mut self) -> Expression {
        let operator = LESS + self.below(4) as u8;
        let code = self.below(value_type::COUNT.into()) as u8;
        let cast = inside(self.value(1), Record::Cast(code));
        let zero = vec![Record::Constant { width: self.width(), value: 0 }];
        if self.below(2) == 0 {
            join(cast, operator, zero)
        } else {
            join(zero, operator, cast)
        }
    }

    /// A side whose value may be known, in casts at times.
    fn exact(&mut self) -> Expression {
        let value = match self.below(7) {
            0 | 1 => join(self.value(2), AND, self.one()),
            2 => join(self.one(), AND, self.value(2)),
            3 => join(self.value(2), REM, self.small(2)),
            4 => {
                let side = self.value(1);
                join(side.clone(), self.generator.random.pick(&[SUB, XOR]), side)
            }
            5 => join(self.small(0), self.generator.random.pick(&[AND, MUL]), self.value(1)),
            _ => self.constant(),
        };
        match self.below(3) {
            0 => {
                let code = self.below(value_type::COUNT.into()) as u8;
                inside(value, Record::Cast(code))
            }
            _ => value,
        }
    }

    fn width(&mut self) -> u8 {
        self.generator.random.pick(&[1, 2, 4, 4, 4, 8])
    }

    fn small(&mut self, value: u64) -> Expression {
        vec![Record::Constant { width: self.width(), value }]
    }

    fn one(&mut self) -> Expression {
        self.small(1)
    }

    fn constant(&mut self) -> Expression {
        let value = self.generator.random.pick(&[0, 0, 1, 1, 2, 3, 4, 5, 31, 32, 33, 64, 255]);
        self.small(value)
    }

    fn value(&mut self, depth: usize) -> Expression {
        if depth == 0 {
            return self.leaf();
        }
        match self.below(16) {
            0 | 1 => self.leaf(),
            2 | 3 => self.even(depth),
            4 => {
                let code = self.below(value_type::COUNT.into()) as u8;
                inside(self.value(depth - 1), Record::Cast(code))
            }
            5 => join(self.value(depth - 1), SHL, self.constant()),
            6 => join(self.value(depth - 1), REM, self.constant()),
            7 => {
                let operator = self.below(operator::COUNT.into()) as u8;
                join(self.value(depth - 1), operator, self.value(depth - 1))
            }
            8 => {
                let mut all = self.condition(0);
                all.extend(self.value(depth - 1));
                all.extend(self.value(depth - 1));
                inside(all, Record::Ternary)
            }
            9 => {
                let code = self.below(value_type::COUNT.into()) as u8;
                inside(self.value(depth - 1), Record::Load(code))
            }
            _ => {
                let operator = self.generator.random.pick(&[ADD, SUB, MUL, AND, OR, XOR]);
                join(self.value(depth - 1), operator, self.value(depth - 1))
            }
        }
    }

    /// Products and sums that are even, whatever their parts are.
    fn even(&mut self, depth: usize) -> Expression {
        let part = self.value(depth - 1);
        match self.below(4) {
            0 => join(part.clone(), MUL, join(part, ADD, self.one())),
            1 => join(join(part.clone(), MUL, part.clone()), ADD, part),
            2 => join(self.small(2), MUL, part),
            _ => join(part.clone(), ADD, part),
        }
    }

    fn leaf(&mut self) -> Expression {
        match self.below(12) {
            0..=7 => vec![Record::Variable(self.below(self.variables.len()) as u8)],
            8 => {
                let code = self.below(value_type::COUNT.into()) as u8;
                vec![Record::Effect(code)]
            }
            9 => vec![self.generator.random.pick(&[Record::True, Record::False])],
            _ => self.constant(),
        }
    }
}
