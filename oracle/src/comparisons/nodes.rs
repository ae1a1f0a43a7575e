//! The comparison of a test program's verdicts on nodes with those of the
//! given source and with those of a judge written from the description alone.
//!
//! The given source answers twice: as it is, and with the entries of
//! docs/DIFFERENCES.md and the refusals that it does not have. The second
//! answers are the ones due, and the judge's must be the same. Where they are
//! not the first, that is counted by class.

use crate::answers::{Answer, Line, ABSENT};
use crate::cases::verdict_node;
use crate::comparisons::frames::{ask_nodes, run};
use crate::comparisons::smaller;
use crate::judges::node_verdict::{verdict, verdict_by, Entries, BOTH_ENTRIES, NO_ENTRY};
use crate::judges::substitution::Rule;
use crate::sheets::encode::encode;
use crate::sheets::syntax::{Node, Sheet};
use crate::sheets::to_text;
use std::collections::BTreeMap;
use std::io;

/// Nodes for which one process of each program is started.
const BATCH: u64 = 10_000;

/// Nodes of a sheet.
const NODES: usize = 4;

/// Differences that are shown in full.
const SHOWN: u64 = 10;

pub struct Job<'a> {
    pub program: &'a [String],
    /// Without it the judge alone says what is due.
    pub given: Option<&'a [String]>,
    pub nodes: u64,
    pub seed: u64,
    /// For each class of differences from the given source a smallest node.
    pub smallest: bool,
}

/// The entries of docs/DIFFERENCES.md, and none of them.
#[derive(Clone, Copy, Debug, PartialEq, Eq, PartialOrd, Ord)]
pub enum Entry {
    First,
    Second,
    None,
}

impl Entry {
    /// The entry without which the answer for a node would be another one.
    pub fn of(node: &Node) -> Entry {
        let due = verdict(node);
        let changes = |entries: Entries| verdict_by(node, entries) != due;
        match () {
            _ if changes(Entries { rule: Rule::Given, ..BOTH_ENTRIES }) => Entry::First,
            _ if changes(Entries { folds_effects: true, ..BOTH_ENTRIES }) => Entry::Second,
            _ if changes(NO_ENTRY) => Entry::First,
            _ => Entry::None,
        }
    }

    fn name(self) -> &'static str {
        match self {
            Entry::First => "entry 1",
            Entry::Second => "entry 2",
            Entry::None => "no entry",
        }
    }
}

/// Whether the given source's answer is that of the description without the
/// entries. Where that is refused, nothing is said.
fn as_described(node: &Node, given: Answer) -> bool {
    let described = verdict_by(node, NO_ENTRY);
    given == Answer::NotRun || described.is_refused() || described == given
}

/// Nodes for which another answer is due than the given source's.
#[derive(Clone, Debug, PartialEq, Eq, PartialOrd, Ord)]
pub struct Class {
    pub entry: Entry,
    pub given: Answer,
    pub due: Answer,
}

/// The class of a node, if its answers are not the same. Refusals have none:
/// the given source refuses nothing.
pub fn class(node: &Node, given: Answer, due: Answer) -> Option<Class> {
    if given == due || [given, due].contains(&Answer::NotRun) || due.is_refused() {
        return None;
    }
    Some(Class { entry: Entry::of(node), given, due })
}

#[derive(Default)]
struct Tally {
    answers: BTreeMap<String, u64>,
    classes: BTreeMap<Class, (u64, Node)>,
    compared: u64,
    /// Nodes on which the given source was not run to its end, or not asked, so
    /// that the other judge alone says what is due.
    open: u64,
    differences: u64,
}

impl Tally {
    fn difference(&mut self, node: &Node, answers: [Answer; 4]) {
        self.differences += 1;
        if self.differences > SHOWN {
            return;
        }
        let [given, due, judge, program] = answers;
        println!("difference");
        println!("  given source:                  {given}");
        println!("  given source with differences: {due}");
        println!("  judge from the description:    {judge}");
        println!("  program:                       {program}");
        text_of(node).lines().for_each(|line| println!("    {line}"));
    }

    /// Keeps the node if it is the shortest of its class.
    fn note(&mut self, class: Class, node: &Node) {
        let entry = self.classes.entry(class).or_insert_with(|| (0, node.clone()));
        entry.0 += 1;
        if size(node) < size(&entry.1) {
            entry.1 = node.clone();
        }
    }

    fn print(&self) {
        for (answer, count) in &self.answers {
            println!("{answer}: {count}");
        }
        for (Class { entry, given, due }, (count, _)) in &self.classes {
            println!("{}, {given} becomes {due}: {count}", entry.name());
        }
        println!("judged by the description alone: {}", self.open);
        println!("compared {} nodes, differences {}", self.compared, self.differences);
    }
}

pub fn sheet_of(nodes: &[Node]) -> Vec<u8> {
    encode(&Sheet { nodes: nodes.to_vec(), ..Default::default() }).bytes
}

pub fn size(node: &Node) -> usize {
    sheet_of(std::slice::from_ref(node)).len()
}

pub fn text_of(node: &Node) -> String {
    to_text::text(&Sheet { nodes: vec![node.clone()], ..Default::default() })
}

/// A program's answers on nodes, `NODES` of them in a sheet; nothing if it is
/// the given source's driver without the source.
pub fn answers(program: &[String], nodes: &[Node]) -> io::Result<Option<Vec<Answer>>> {
    let mut input = Vec::new();
    nodes.chunks(NODES).for_each(|part| ask_nodes(&mut input, &sheet_of(part)));
    let lines = run(program, input)?;
    if lines.first().is_some_and(|line| line == ABSENT) {
        return Ok(None);
    }
    let mut all = Vec::new();
    for (number, part) in nodes.chunks(NODES).enumerate() {
        let line = lines.get(number).map_or("no line", String::as_str);
        match Line::parse(line) {
            Line::Answers { nodes, .. } if nodes.len() == part.len() => all.extend(nodes),
            _ => return Err(io::Error::other(format!("'{line}' for {} nodes", part.len()))),
        }
    }
    if lines.len() > nodes.chunks(NODES).len() {
        return Err(io::Error::other("lines too many"));
    }
    Ok(Some(all))
}

/// The given source's answers, as it is and with the differences. As it is, it
/// is not asked for nodes that are refused: it would take long on them.
pub fn both(given: &[String], nodes: &[Node]) -> io::Result<Option<[Vec<Answer>; 2]>> {
    let with_differences = [given, &["--differences".to_string()]].concat();
    let Some(due) = answers(&with_differences, nodes)? else {
        return Ok(None);
    };
    let judged = |number: &usize| !due[*number].is_refused();
    let chosen: Vec<usize> = (0..nodes.len()).filter(judged).collect();
    let asked: Vec<Node> = chosen.iter().map(|number| nodes[*number].clone()).collect();
    let found = answers(given, &asked)?.unwrap_or_default();
    let mut as_it_is = vec![Answer::NotRun; nodes.len()];
    for (number, answer) in chosen.into_iter().zip(found) {
        as_it_is[number] = answer;
    }
    Ok(Some([as_it_is, due]))
}

/// Compares; true if there was no difference, or nothing to compare with.
pub fn compare(job: &Job) -> io::Result<bool> {
    let mut tally = Tally::default();
    let mut first = 0;
    while first < job.nodes {
        let end = job.nodes.min(first + BATCH);
        let nodes: Vec<Node> =
            (first..end).map(|index| verdict_node::numbered(job.seed, index)).collect();
        if !batch(job, &nodes, &mut tally)? {
            println!("{ABSENT}");
            return Ok(true);
        }
        first = end;
    }
    tally.print();
    if let (true, Some(given)) = (job.smallest, job.given) {
        print_smallest(given, &tally)?;
    }
    Ok(tally.differences == 0)
}

/// False if the source is absent.
fn batch(job: &Job, nodes: &[Node], tally: &mut Tally) -> io::Result<bool> {
    let nothing = || [(); 2].map(|()| vec![Answer::NotRun; nodes.len()]);
    let judged = job.given.map_or_else(|| Ok(Some(nothing())), |given| both(given, nodes))?;
    let Some([given, due]) = judged else {
        return Ok(false);
    };
    let Some(found) = answers(job.program, nodes)? else {
        return Ok(false);
    };
    for (number, node) in nodes.iter().enumerate() {
        compare_node(node, [given[number], due[number], found[number]], tally);
    }
    Ok(true)
}

/// Answers of the given source, those due, and the program's.
fn compare_node(node: &Node, [given, due, program]: [Answer; 3], tally: &mut Tally) {
    let judge = verdict(node);
    *tally.answers.entry(judge.named()).or_default() += 1;
    tally.compared += 1;
    let open = due == Answer::NotRun;
    tally.open += u64::from(open);
    let class = class(node, given, due);
    let entry = class.as_ref().map(|class| class.entry);
    if let Some(class) = class {
        tally.note(class, node);
    }
    let explained = as_described(node, given) && entry != Some(Entry::None);
    if !explained || program != judge || (!open && program != due) {
        tally.difference(node, [given, due, judge, program]);
    }
}

fn print_smallest(given: &[String], tally: &Tally) -> io::Result<()> {
    for (class, (_, node)) in &tally.classes {
        let node = smaller::smallest(given, class, node)?;
        let Class { entry, given, due } = class;
        println!("\n# {}, {given} becomes {due}, {} bytes", entry.name(), size(&node));
        print!("{}", text_of(&node));
    }
    Ok(())
}
