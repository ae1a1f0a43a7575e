//! Smaller nodes of the same class of differences.

use crate::comparisons::nodes::{both, class, sheet_of, Class};
use crate::judges::node_limits::children;
use crate::judges::reader::read;
use crate::sheets::syntax::{Expression, Node, Record, Statement};
use std::io;

/// The node made smaller as long as a step keeps its class: in each turn the
/// smallest of all nodes that are one step away. Of two sheets of one length
/// the one with the lower bytes is the smaller one.
pub fn smallest(given: &[String], wanted: &Class, node: &Node) -> io::Result<Node> {
    let mut node = node.clone();
    loop {
        let mut steps = steps(&node);
        let here = rank(&node);
        steps.retain(|step| rank(step) < here && read(&rank(step).1).is_ok());
        steps.sort_by_cached_key(rank);
        let Some([as_it_is, due]) = both(given, &steps)? else {
            return Ok(node);
        };
        let kept = (0..steps.len())
            .find(|i| class(&steps[*i], as_it_is[*i], due[*i]).as_ref() == Some(wanted));
        match kept {
            Some(step) => node = steps.swap_remove(step),
            None => return Ok(node),
        }
    }
}

fn rank(node: &Node) -> (usize, Vec<u8>) {
    let sheet = sheet_of(std::slice::from_ref(node));
    (sheet.len(), sheet)
}

/// Nodes with one statement, variable or address less, or with a part of an
/// expression replaced.
fn steps(node: &Node) -> Vec<Node> {
    let mut list = Vec::new();
    for number in 0..node.statements.len() {
        let mut step = node.clone();
        step.statements.remove(number);
        list.push(step);
    }
    for (number, statement) in node.statements.iter().enumerate() {
        let Statement::Assign { variable, value } = statement else { continue };
        list.extend(shorter(value).into_iter().map(|value| {
            let mut step = node.clone();
            step.statements[number] = Statement::Assign { variable: *variable, value };
            step
        }));
    }
    list.extend(shorter(&node.condition).into_iter().map(|condition| {
        let mut step = node.clone();
        step.condition = condition;
        step
    }));
    list.extend((0..node.variables.len()).filter_map(|number| without(node, number as u8)));
    list.push(Node { addresses: Vec::new(), ..node.clone() });
    list
}

/// The expression with one part replaced by one of its own parts, or by a leaf.
fn shorter(records: &[Record]) -> Vec<Expression> {
    let mut list = Vec::new();
    for end in 1..=records.len() {
        let part = last_part(&records[..end]);
        let start = end - part.len();
        let mut inner: Vec<Expression> =
            children(part).into_iter().map(|child| child.to_vec()).collect();
        inner.extend((0..4).map(|number| vec![Record::Variable(number)]));
        inner.extend([Record::True, Record::False].map(|record| vec![record]));
        if let Some((Record::Binary(code), rest)) = part.split_last() {
            let other = |code| [rest, &[Record::Binary(code)]].concat();
            inner.extend((0..*code).map(other));
        }
        for other in inner {
            list.push([&records[..start], &other, &records[end..]].concat());
        }
    }
    list
}

/// The part that ends with the last record.
fn last_part(records: &[Record]) -> &[Record] {
    let length =
        |part: &[Record]| 1 + children(part).iter().map(|child| child.len()).sum::<usize>();
    &records[records.len() - length(records)..]
}

/// The node without a variable that it does not use.
fn without(node: &Node, number: u8) -> Option<Node> {
    let lower = |other: u8| if other > number { other - 1 } else { other };
    let renamed = |records: &Expression| -> Option<Expression> {
        let rename = |record: &Record| match record {
            Record::Variable(other) if *other == number => None,
            Record::Variable(other) => Some(Record::Variable(lower(*other))),
            record => Some(*record),
        };
        records.iter().map(rename).collect()
    };
    let mut step = node.clone();
    step.variables.remove(number as usize);
    step.condition = renamed(&node.condition)?;
    for statement in &mut step.statements {
        if let Statement::Assign { variable, value } = statement {
            if *variable == number {
                return None;
            }
            (*variable, *value) = (lower(*variable), renamed(value)?);
        }
    }
    Some(step)
}
