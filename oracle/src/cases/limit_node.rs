//! Random nodes near the limits of a node verdict: expressions that substitution
//! makes about 128 records long, and low-bit polynomials of about 256 terms and
//! products of about 4,096.

use crate::cases::any_sheet::Generator;
use crate::judges::substitution::{substitute, Rule};
use crate::sheets::names::operator::*;
use crate::sheets::names::value_type::{BOOL, COUNT, POINTER, S32, U32, U64};
use crate::sheets::syntax::*;

/// Records of an expression in a sheet.
const MOST_RECORDS: usize = 128;

const ONE: Record = Record::Constant { width: 4, value: 1 };

/// A node whose condition, or one of whose values, is about as long as it may
/// be.
pub fn long_node(generator: &mut Generator) -> Node {
    let random = &mut generator.random;
    let variables = vec![random.pick(&[U32, U32, U64, POINTER]); 3];
    let doublings = random.below(6);
    let mut statements = vec![assign(1, leaf_or(random.below(3), vec![Record::Variable(2)]))];
    for _ in 0..doublings {
        let operator = random.pick(&[ADD, MUL, AND, OR, XOR]);
        let other = random.pick(&[Record::Variable(1), Record::Variable(0), Record::Variable(2)]);
        let mut value = join(vec![Record::Variable(1)], operator, vec![other]);
        if random.once_in(6) {
            value = join(value, ADD, vec![Record::Effect(variables[0])]);
        }
        statements.push(assign(1, value));
        if random.once_in(8) {
            statements.push(assign(0, vec![Record::Variable(1)]));
        }
    }
    let left = join(vec![Record::Variable(1)], random.pick(&[SUB, MUL, XOR]), vec![ONE]);
    let right = vec![random.pick(&[Record::Variable(1), Record::Variable(2), ONE])];
    let condition = join(left, random.pick(&[EQUAL, NOT_EQUAL, LESS]), right);
    let mut node = Node { variables, statements, condition, addresses: Vec::new() };
    let target = 126 + random.below(5);
    if random.once_in(3) {
        stretch_value(generator, &mut node, target);
    } else {
        stretch_condition(generator, &mut node, target);
    }
    node
}

fn assign(variable: u8, value: Expression) -> Statement {
    Statement::Assign { variable, value }
}

fn leaf_or(choice: usize, other: Expression) -> Expression {
    match choice {
        0 => vec![Record::Variable(0)],
        1 => join(vec![Record::Variable(0)], ADD, vec![Record::Variable(2)]),
        _ => other,
    }
}

/// Puts casts on the condition's left side until the substituted condition has
/// so many records, as far as a sheet can hold them.
fn stretch_condition(generator: &mut Generator, node: &mut Node, target: usize) {
    let Some(found) = substitute(node, Rule::Ours, target) else { return };
    let room = MOST_RECORDS - node.condition.len();
    let casts = (target - found.condition.len()).min(room);
    // The right side is one record, the operator another.
    let at = node.condition.len() - 2;
    let list = casts_of(generator, casts);
    node.condition.splice(at..at, list);
}

/// The same for the value of a last assignment, which the condition may read.
fn stretch_value(generator: &mut Generator, node: &mut Node, target: usize) {
    let value = node.condition[..node.condition.len() - 2].to_vec();
    let probe = Node { condition: value.clone(), ..node.clone() };
    let Some(found) = substitute(&probe, Rule::Ours, target - 1) else { return };
    let room = MOST_RECORDS - value.len() - 1;
    let casts = (target - 1 - found.condition.len()).min(room);
    let mut value = value;
    value.extend(casts_of(generator, casts));
    let variable = generator.random.below(3) as u8;
    value.push(Record::Cast(node.variables[variable as usize]));
    node.statements.push(assign(variable, value));
}

fn casts_of(generator: &mut Generator, count: usize) -> Expression {
    let code = |generator: &mut Generator| match generator.random.below(30) {
        0 => BOOL,
        _ => generator.random.below(COUNT.into()) as u8,
    };
    let plain = |code: u8| if code == BOOL { S32 } else { code };
    (0..count).map(|_| Record::Cast(plain(code(generator)))).collect()
}

/// Lengths of sums whose products come near the limits.
const FACTORS: [&[u8]; 12] = [
    &[2, 2, 2, 2, 2, 2, 2, 2],
    &[2, 2, 2, 2, 2, 2, 2, 2, 2],
    &[16, 16],
    &[16, 17],
    &[15, 17],
    &[3, 5, 17],
    &[5, 51],
    &[3, 3, 3, 3, 3],
    &[3, 3, 3, 3, 3, 3],
    &[4, 4, 4, 3],
    &[4, 4, 4, 4],
    &[9, 28],
];

/// A node whose condition has a large polynomial.
pub fn wide_node(generator: &mut Generator) -> Node {
    let mut writer = Wide { generator, next: 0 };
    let side = match writer.below(4) {
        0 => writer.product_of_sums(),
        1 => writer.squares(),
        2 => writer.any(60),
        _ => writer.collapsing(),
    };
    let condition = writer.condition(side);
    let condition = if condition.len() > MOST_RECORDS { vec![Record::True] } else { condition };
    Node { variables: vec![U32; 32], condition, ..Default::default() }
}

struct Wide<'a> {
    generator: &'a mut Generator,
    next: u8,
}

impl Wide<'_> {
    fn below(&mut self, limit: usize) -> usize {
        self.generator.random.below(limit)
    }

    fn pick(&mut self, operators: &[u8]) -> u8 {
        self.generator.random.pick(operators)
    }

    /// The next variable, and from the 33rd on its square's neighbour, so that
    /// there are more than 32 atoms.
    fn atom(&mut self) -> Expression {
        let number = self.next;
        self.next = (self.next + 1) % 64;
        let leaf = vec![Record::Variable(number % 32)];
        if number < 32 {
            leaf
        } else {
            join(leaf, SHR, vec![ONE])
        }
    }

    fn sum(&mut self, terms: u8) -> Expression {
        let mut all = self.atom();
        for _ in 1..terms {
            let operator = self.pick(&[ADD, ADD, SUB, XOR]);
            all = join(all, operator, self.atom());
        }
        all
    }

    fn product_of_sums(&mut self) -> Expression {
        let sizes = self.generator.random.pick(&FACTORS);
        let operator = self.pick(&[MUL, AND, OR]);
        let mut side = self.sum(sizes[0]);
        for terms in &sizes[1..] {
            side = join(side, operator, self.sum(*terms));
        }
        side
    }

    /// (1 + a)(1 + b)..., of so many atoms from `first` on.
    fn plus_ones(&mut self, first: u8, count: u8) -> Expression {
        let factor = |number: u8| join(vec![ONE], ADD, vec![Record::Variable(number % 32)]);
        (first + 1..first + count).fold(factor(first), |all, number| join(all, MUL, factor(number)))
    }

    /// Two such products over atoms that they share in part: 64 by 64 terms,
    /// or one more, of which many fall together.
    fn squares(&mut self) -> Expression {
        let [a, b] = [5, 6].map(|count| count + self.below(2) as u8);
        let apart = self.below(4) as u8;
        let operator = self.pick(&[MUL, AND, OR]);
        let left = self.plus_ones(0, a);
        let mut right = self.plus_ones(apart, b);
        if self.below(3) == 0 {
            right = join(right, ADD, vec![Record::Variable(31)]);
        }
        join(left, operator, right)
    }

    /// A product that is 0, though its running sum is long on the way.
    fn collapsing(&mut self) -> Expression {
        let shared = self.below(13) as u8;
        let left = self.plus_ones(0, 6);
        let rest = self.plus_ones(6, 6);
        let right = join(rest, MUL, vec![Record::Variable(shared)]);
        let operator = self.pick(&[MUL, AND]);
        join(left, operator, right)
    }

    /// Any sums and products of about so many records.
    fn any(&mut self, records: usize) -> Expression {
        if records < 3 {
            let number = self.below(if self.next == 0 { 10 } else { 32 }) as u8;
            return match self.below(6) {
                0 => vec![ONE],
                _ => vec![Record::Variable(number)],
            };
        }
        let left = 1 + self.below(records - 2);
        let operator = self.pick(&[ADD, ADD, ADD, SUB, XOR, MUL, AND, OR]);
        let (left, right) = (self.any(left), self.any(records - 1 - left));
        join(left, operator, right)
    }

    /// An equality of the side, reached through logic or not, with the side
    /// in a cast or where the exact step enters it.
    fn condition(&mut self, mut side: Expression) -> Expression {
        if self.below(3) == 0 {
            side = inside(side, Record::Cast(self.below(COUNT.into()) as u8));
        }
        match self.below(4) {
            0 => side = join(side, AND, vec![ONE]),
            1 => side = join(vec![ONE], AND, side),
            2 if self.below(2) == 0 => {
                side = join(side, REM, vec![Record::Constant { width: 4, value: 2 }]);
            }
            _ => {}
        }
        if self.below(4) == 0 {
            side = inside(side, Record::Cast(BOOL));
        }
        let other = match self.below(4) {
            0 => self.sum(2),
            1 => vec![Record::Constant { width: 4, value: 0 }],
            _ => vec![ONE],
        };
        let operator = self.pick(&[EQUAL, EQUAL, NOT_EQUAL, LESS]);
        let equality = if self.below(2) == 0 {
            join(side, operator, other)
        } else {
            join(other, operator, side)
        };
        match self.below(4) {
            0 => join(vec![Record::False], self.pick(&[BOTH, EITHER]), equality),
            1 => join(equality, self.pick(&[BOTH, EITHER]), vec![Record::Variable(3)]),
            _ => equality,
        }
    }
}
