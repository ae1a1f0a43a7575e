//! The comparison of a test program's evaluation with the C compiler and with
//! the evaluator here.

use crate::cases::any_sheet::{Generator, SMALL};
use crate::cases::damaged_sheet;
use crate::cases::evaluation_node::{made, number, Made};
use crate::cases::random::Random;
use crate::comparisons::frames::{ask_evaluation, run};
use crate::judges::c_compiler::{self, Outcome};
use crate::judges::evaluator::{evaluation, lent_bits, line, place_of_node, COMMA};
use crate::judges::reader::{read, Refusal};
use crate::sheets::encode::encode;
use crate::sheets::names::{operator, refusal, value_type};
use crate::sheets::syntax::*;
use crate::sheets::to_text;
use std::collections::BTreeMap;
use std::io;

/// Value sets for each node.
const SETS: u64 = 32;

/// Nodes that are compiled as one file.
const BATCH: u64 = 2_000;

/// Differences that are shown in full, at most one for each node.
const SHOWN: usize = 5;

/// One case in so many of those for C is added for the refusals.
const REFUSALS: u64 = 5;

/// A node in a sheet, with the value sets that it is run on.
struct Item {
    node: Node,
    sheet: Vec<u8>,
    number: u32,
    place: usize,
    sets: Vec<Vec<u64>>,
}

/// Item number `index` of the run with this seed, with `sets` value sets.
fn item(seed: u64, index: u64, sets: u64) -> Item {
    let made = made(seed, index);
    let mut random = Random::new(!seed, index);
    let (sheet, number) = around(&made, &mut random, index);
    let sets = (0..sets).map(|_| made.values(&mut random)).collect();
    let place = place_of_node(&sheet, number);
    Item { sheet: encode(&sheet).bytes, number: number as u32, place, sets, node: made.node }
}

/// A sheet with the node in it: alone, or among others.
fn around(made: &Made, random: &mut Random, index: u64) -> (Sheet, usize) {
    let mut sheet = match random.once_in(4) {
        true => Generator::new(random.draw(), index, 0).sheet(SMALL),
        false => Sheet::default(),
    };
    let number = random.below(sheet.nodes.len() + 1);
    sheet.nodes.insert(number, made.node.clone());
    (sheet, number)
}

#[derive(Default)]
struct Tally {
    /// Answers due, by their first word and a refusal's number.
    answers: BTreeMap<(String, Option<u8>), u64>,
    differences: u64,
    /// The texts of the nodes that were shown.
    shown: Vec<String>,
}

impl Tally {
    fn count(&mut self, answer: &str) {
        let mut words = answer.split(' ');
        let first = words.next().unwrap_or("").to_string();
        let number = words.next().and_then(|word| word.parse().ok());
        *self.answers.entry((first, number)).or_default() += 1;
    }

    /// Compares one case; `answers` has each judge's name and its answer, the
    /// first one's being due, `text` the node.
    fn case(&mut self, answers: &[(&str, &str)], text: impl Fn() -> String, values: &str) {
        self.count(answers[0].1);
        if answers.iter().all(|(_, answer)| *answer == answers[0].1) {
            return;
        }
        self.differences += 1;
        if self.shown.len() == SHOWN || self.shown.contains(&text()) {
            return;
        }
        self.shown.push(text());
        println!("difference");
        for (judge, answer) in answers {
            println!("  {:10} {answer}", format!("{judge}:"));
        }
        text().lines().chain([values]).for_each(|line| println!("    {line}"));
    }

    fn too_many(&mut self, what: &str, written: usize, due: usize) {
        if written > due {
            println!("the program wrote {} {what} too many", written - due);
            self.differences += 1;
        }
    }

    /// Prints the counts of answers, and starts them again.
    fn print(&mut self) {
        for ((answer, number), count) in std::mem::take(&mut self.answers) {
            match number {
                Some(number) => println!("  {answer} {number}: {count}"),
                None => println!("  {answer}: {count}"),
            }
        }
    }
}

/// The values in one line; those beyond a node's possible variables are counted.
fn shown_values(values: &[u64]) -> String {
    let words: Vec<String> = values.iter().take(32).map(|value| format!("{value:#x}")).collect();
    let more = match values.len().saturating_sub(32) {
        0 => String::new(),
        more => format!(" and {more} more"),
    };
    format!("values {}{more}", words.join(" "))
}

/// C's outcome as the line due.
fn c_line(outcome: Outcome, place: usize) -> String {
    match outcome {
        Outcome::Holds => line(&Ok(true)),
        Outcome::Fails => line(&Ok(false)),
        Outcome::DivisionByZero => line(&Err(Refusal { number: refusal::DIVISION, place })),
        Outcome::OtherType => "another type than by the value rules".to_string(),
    }
}

/// Compares on `cases` pairs of a node and values; true if there was no
/// difference, or no compiler to compare with.
pub fn compare(program: &[String], cases: u64, seed: u64) -> io::Result<bool> {
    if !c_compiler::present() {
        println!("{}", c_compiler::ABSENT);
        return Ok(true);
    }
    let mut tally = Tally::default();
    let nodes = cases.div_ceil(SETS);
    let mut first = 0;
    while first < nodes {
        let end = nodes.min(first + BATCH);
        let sets = |index: u64| SETS.min(cases - index * SETS);
        let items: Vec<Item> = (first..end).map(|index| item(seed, index, sets(index))).collect();
        batch(program, &items, &mut tally)?;
        first = end;
    }
    println!("nodes {nodes}, judged by C on {cases} value sets");
    tally.print();
    let extra = cases / REFUSALS;
    compare_refusals(program, extra, seed, &mut tally)?;
    println!("judged by the evaluator alone: {extra}");
    tally.print();
    println!("compared {cases}, differences {}", tally.differences);
    Ok(tally.differences == 0)
}

/// The program's answers, as many for each frame as it has sets.
fn answers(
    program: &[String],
    input: Vec<u8>,
    sets: &[usize],
    tally: &mut Tally,
) -> io::Result<Vec<String>> {
    let lines = run(program, input)?;
    let mut list = Vec::new();
    for (number, count) in sets.iter().enumerate() {
        let line = lines.get(number).map_or("no line", String::as_str);
        let words: Vec<&str> = line.split(COMMA).collect();
        tally.too_many("answers", words.len(), *count);
        let word = |at: usize| words.get(at).copied().unwrap_or("no answer").to_string();
        list.extend((0..*count).map(word));
    }
    tally.too_many("lines", lines.len(), sets.len());
    Ok(list)
}

fn batch(program: &[String], items: &[Item], tally: &mut Tally) -> io::Result<()> {
    let nodes: Vec<&Node> = items.iter().map(|item| &item.node).collect();
    let mut runs: Vec<(usize, &[u64])> = Vec::new();
    let (mut input, mut counts) = (Vec::new(), Vec::new());
    for (number, item) in items.iter().enumerate() {
        // The sets of one frame have as many values.
        for sets in item.sets.chunk_by(|a, b| a.len() == b.len()) {
            let sets: Vec<&[u64]> = sets.iter().map(Vec::as_slice).collect();
            runs.extend(sets.iter().map(|values| (number, *values)));
            ask_evaluation(&mut input, &item.sheet, item.number, &sets);
            counts.push(sets.len());
        }
    }
    let outcomes = c_compiler::judge(&nodes, &runs)?;
    let answers = answers(program, input, &counts, tally)?;
    for (at, (number, values)) in runs.iter().enumerate() {
        let item = &items[*number];
        let due = c_line(outcomes[at], item.place);
        let own = line(&evaluation(&item.sheet, item.number, values));
        let answers = [("C", due.as_str()), ("evaluator", &own), ("program", &answers[at])];
        let alone = || Sheet { nodes: vec![item.node.clone()], ..Default::default() };
        tally.case(&answers, || to_text::text(&alone()), &shown_values(values));
    }
    Ok(())
}

/// Cases for the refusals: any sheet, any node's number near those it has, and
/// values that may be missing or too large.
fn refusal_case(seed: u64, index: u64) -> (Vec<u8>, u32, Vec<u64>) {
    let mut random = Random::new(seed, !index);
    let (sheet, aimed) = match random.below(6) {
        0 => (damaged_sheet::sheet(seed, index), None),
        1 => (encode(&Generator::new(seed, index, 0).sheet(SMALL)).bytes, None),
        _ => {
            let made = made(seed, random.draw() | 1);
            let (mut sheet, number) = around(&made, &mut random, index);
            spoil(&mut sheet.nodes[number], &mut random);
            (encode(&sheet).bytes, Some(number as u32))
        }
    };
    let nodes = read(&sheet).map_or(Vec::new(), |accepted| accepted.sheet.nodes);
    let number = match random.below(20) {
        0 => random.draw() as u32,
        1 => nodes.len() as u32,
        _ => aimed.unwrap_or_else(|| random.below(nodes.len().max(1)) as u32),
    };
    let types = nodes.get(number as usize).map_or(Vec::new(), |node| node.variables.clone());
    (sheet, number, faulty_values(&types, &mut random))
}

/// At times adds what an evaluation cannot have.
fn spoil(node: &mut Node, random: &mut Random) {
    let room = node.condition.len() < 126 && node.statements.len() < 64;
    match random.below(10) {
        0 if room => {
            node.condition.extend([Record::Effect(value_type::S32), Record::Binary(operator::BOTH)])
        }
        1 if room => {
            node.condition.push(Record::Load(random.below(value_type::COUNT.into()) as u8))
        }
        2 if room => node.statements.push(Statement::Other),
        3 if room => node.statements.insert(0, Statement::Other),
        _ => {}
    }
}

fn faulty_values(types: &[u8], random: &mut Random) -> Vec<u64> {
    let rate = random.pick(&[2, 10, 40, 1000]);
    let mut value = |code: &u8| {
        let bits = lent_bits(*code);
        let wide = random.once_in(rate);
        match random.below(3) {
            0 if wide && bits < 64 => 1 << bits,
            1 if wide => number(random, 64),
            _ => number(random, bits),
        }
    };
    let mut values: Vec<u64> = types.iter().map(&mut value).collect();
    match random.below(10) {
        0 => values.truncate(random.below(values.len() + 1)),
        1 => values.push(random.draw()),
        _ => {}
    }
    values
}

fn compare_refusals(
    program: &[String],
    cases: u64,
    seed: u64,
    tally: &mut Tally,
) -> io::Result<()> {
    let list: Vec<_> = (0..cases).map(|index| refusal_case(seed, index)).collect();
    let mut input = Vec::new();
    for (sheet, number, values) in &list {
        ask_evaluation(&mut input, sheet, *number, &[values]);
    }
    let found = answers(program, input, &vec![1; list.len()], tally)?;
    for (at, (sheet, number, values)) in list.iter().enumerate() {
        let own = line(&evaluation(sheet, *number, values));
        let answers = [("evaluator", own.as_str()), ("program", &found[at])];
        let run = format!("node {number}, {}", shown_values(values));
        tally.case(&answers, || to_text::dump(sheet), &run);
    }
    Ok(())
}
