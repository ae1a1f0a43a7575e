//! Assigned values written for the variables that they still stand for.
//!
//! A value stands (it is held) from its assignment until one to a variable
//! that it reads, or to its own. One that contains a load or an effect is not
//! held at all. Substitution does not enter a load.

use crate::sheets::syntax::{Expression, Node, Record, Statement};

/// What substitution makes of a node.
#[derive(Debug, PartialEq, Eq)]
pub struct Substituted {
    pub condition: Expression,
    /// Statements whose value stands by the given source's rule and does not
    /// by the first entry of docs/DIFFERENCES.md.
    pub not_held: Vec<usize>,
}

/// Which rule says what stands.
#[derive(Clone, Copy, Debug, PartialEq, Eq)]
pub enum Rule {
    /// The given source's.
    Given,
    /// The same with the first entry of docs/DIFFERENCES.md: a value that
    /// reads another variable whose value ends with this assignment does not
    /// stand.
    Ours,
}

/// Carries the substitution out; nothing if a value or the condition passes
/// `most` records.
pub fn substitute(node: &Node, rule: Rule, most: usize) -> Option<Substituted> {
    let mut held: Vec<Option<Expression>> = vec![None; node.variables.len()];
    let mut not_held = Vec::new();
    for (number, statement) in node.statements.iter().enumerate() {
        let Statement::Assign { variable, value } = statement else {
            held.fill(None);
            continue;
        };
        let value = written(value, &held);
        if value.len() > most {
            return None;
        }
        let ended = end(&mut held, *variable);
        let stale = ended.iter().any(|other| other != variable && reads(&value, *other));
        if !plain(&value) {
            continue;
        }
        if stale && rule == Rule::Ours {
            not_held.push(number);
        } else {
            held[*variable as usize] = Some(value);
        }
    }
    let condition = written(&node.condition, &held);
    (condition.len() <= most).then_some(Substituted { condition, not_held })
}

fn reads(value: &[Record], variable: u8) -> bool {
    value.contains(&Record::Variable(variable))
}

fn plain(value: &[Record]) -> bool {
    !value.iter().any(|record| matches!(record, Record::Load(_) | Record::Effect(_)))
}

/// Ends the values that read the variable, and its own; gives the variables
/// whose values read it.
fn end(held: &mut [Option<Expression>], variable: u8) -> Vec<u8> {
    let mut ended = Vec::new();
    for (other, entry) in held.iter_mut().enumerate() {
        if entry.as_ref().is_some_and(|value| reads(value, variable)) {
            ended.push(other as u8);
            *entry = None;
        }
    }
    held[variable as usize] = None;
    ended
}

/// An expression with held values written for its variables. Each part on the
/// stack has its start in the expression, since a load keeps what is under it.
fn written(records: &[Record], held: &[Option<Expression>]) -> Expression {
    let mut stack: Vec<(usize, Expression)> = Vec::new();
    for (at, record) in records.iter().enumerate() {
        let children = stack.split_off(stack.len() - record.children());
        let start = children.first().map_or(at, |child| child.0);
        let part = match record {
            Record::Variable(number) => {
                held[*number as usize].clone().unwrap_or_else(|| vec![*record])
            }
            Record::Load(_) => records[start..=at].to_vec(),
            _ => {
                let mut part: Expression = children.into_iter().flat_map(|child| child.1).collect();
                part.push(*record);
                part
            }
        };
        stack.push((start, part));
    }
    stack.pop().expect("an accepted expression is one tree").1
}
