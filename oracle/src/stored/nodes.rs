//! Stored cases of the verdicts on nodes: sheets with answers worked out by
//! hand, and generated nodes with those of the given source.

use crate::answers::{line as due, Answer, Line, ABSENT};
use crate::cases::verdict_node;
use crate::comparisons::frames::{ask_nodes, run};
use crate::comparisons::nodes::{sheet_of, size};
use crate::judges::node_verdict;
use crate::sheets::syntax::Node;
use crate::stored::verdicts::{self, Case};
use crate::stored::List;

/// Generated nodes in the list, in sheets of so many, and the seed that they
/// depend on.
const NODES: usize = 400;
const IN_A_SHEET: usize = 8;
const SEED: u64 = 2_016;

/// Longer nodes are passed over.
const MOST_BYTES: usize = 160;

/// The cases of a text, each checked against the judge that is written from the
/// description.
pub fn cases(text: &str) -> Result<Vec<Case>, String> {
    let list = verdicts::cases(text, "nodes")?;
    for case in &list {
        let found = node_verdict::line(&case.sheet);
        if found != due("nodes", &case.expected) {
            return Err(format!("case {}: the judge says '{found}'", case.name));
        }
    }
    Ok(list)
}

/// Sheets of generated nodes, none of them long, with the judge's answers.
fn generated() -> Vec<Case> {
    let nodes = (0..).map(|index| verdict_node::numbered(SEED, index));
    let short: Vec<Node> = nodes.filter(|node| size(node) <= MOST_BYTES).take(NODES).collect();
    let case = |(number, nodes): (usize, &[Node])| {
        let sheet = sheet_of(nodes);
        let expected = nodes.iter().map(node_verdict::verdict).collect();
        let name = format!("generated nodes, sheet {number}");
        Case { name, sheet, expected, given: None, sentences: None }
    };
    short.chunks(IN_A_SHEET).enumerate().map(case).collect()
}

/// Adds the cases by hand and the generated ones. A case that the given source
/// answers otherwise, with the differences or as it is, is an error.
pub fn store(by_hand: Vec<Case>, given: &[String], list: &mut List) -> Result<(), String> {
    let named = by_hand.len();
    let cases: Vec<Case> = by_hand.into_iter().chain(generated()).collect();
    let mut input = Vec::new();
    cases.iter().for_each(|case| ask_nodes(&mut input, &case.sheet));
    list.frames.extend(&input);
    list.lines.extend(cases.iter().map(|case| due("nodes", &case.expected)));
    let asked = |command: &[String]| {
        run(command, input.clone()).map_err(|error| format!("{}: {error}", command[0]))
    };
    let as_it_is = asked(given)?;
    if as_it_is.first().is_some_and(|line| line == ABSENT) {
        return Ok(());
    }
    let with_differences = asked(&[given, &["--differences".to_string()]].concat())?;
    for (number, case) in cases.iter().enumerate() {
        let lines = [&as_it_is, &with_differences]
            .map(|lines| lines.get(number).map_or("no line", String::as_str));
        check(case, lines, number < named)?;
    }
    Ok(())
}

/// Whether the given source answers as the case says: with the differences, and
/// for a case by hand also as it is. What it does not judge to the end is left
/// to the judge, and as it is it refuses nothing.
fn check(case: &Case, lines: [&str; 2], by_hand: bool) -> Result<(), String> {
    let asked = |answer: &Answer| by_hand && !answer.is_refused();
    let as_it_is = alike(lines[0], case.stated(), asked);
    let with_differences = alike(lines[1], &case.expected, |_| true);
    match (as_it_is, with_differences) {
        (true, true) => Ok(()),
        (false, _) => Err(format!("case {}: the given source says '{}'", case.name, lines[0])),
        _ => Err(format!("case {}: with the differences '{}'", case.name, lines[1])),
    }
}

/// Whether a line has these answers, where they are to be compared and it does
/// not leave them open.
fn alike(line: &str, answers: &[Answer], compared: impl Fn(&Answer) -> bool) -> bool {
    let Line::Answers { nodes, .. } = Line::parse(line) else {
        return false;
    };
    let same = |(found, due): (&Answer, &Answer)| {
        found == due || *found == Answer::NotRun || !compared(due)
    };
    nodes.len() == answers.len() && nodes.iter().zip(answers).all(same)
}
