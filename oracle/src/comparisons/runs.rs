//! Runs as judges of verdicts on nodes: each decided node is run with any
//! values, memory and effects, and no run may go against its verdict.

use crate::answers::{Answer, Decided, ABSENT};
use crate::cases::verdict_node;
use crate::comparisons::nodes::{answers, text_of, Entry};
use crate::judges::node_runs::Runs;
use crate::judges::node_verdict::verdict;
use crate::sheets::syntax::Node;
use std::collections::BTreeMap;
use std::io;

/// Runs of a decided node.
const EACH: u64 = 40;

/// Nodes for which one process of the program is started.
const BATCH: u64 = 10_000;

/// Violations that are shown in full.
const SHOWN: u64 = 5;

/// Whose verdicts are judged. Those of the given source as they are must go
/// against runs, and only by the entries of docs/DIFFERENCES.md: otherwise the
/// runs would find nothing in any program.
#[derive(Clone, Copy, PartialEq, Eq)]
pub enum Verdicts {
    OfAProgram,
    GivenAsTheyAre,
}

#[derive(Default)]
struct Tally {
    nodes: u64,
    decided: u64,
    runs: u64,
    /// Runs that divide by zero.
    without_outcome: u64,
    /// Nodes with a run against their verdict, by the entry of
    /// docs/DIFFERENCES.md that they are of.
    against: BTreeMap<Entry, u64>,
}

impl Tally {
    fn print(&self) {
        println!("nodes {}, decided {}", self.nodes, self.decided);
        println!("runs {}, of them without an outcome {}", self.runs, self.without_outcome);
        println!("nodes with a run against their verdict: {}", self.violations());
    }

    fn violations(&self) -> u64 {
        self.against.values().sum()
    }

    fn of(&self, entry: Entry) -> u64 {
        self.against.get(&entry).copied().unwrap_or(0)
    }
}

/// Judges as many runs as `amounts` says, with its seed; true if none went
/// against its verdict, or if those of the given source did as they should.
pub fn judge(program: &[String], verdicts: Verdicts, amounts: [u64; 2]) -> io::Result<bool> {
    let [runs, seed] = amounts;
    let mut tally = Tally::default();
    while tally.runs < runs {
        let nodes: Vec<Node> = (tally.nodes..tally.nodes + BATCH)
            .map(|index| verdict_node::numbered(seed, index))
            .collect();
        let Some(found) = answers(program, &nodes)? else {
            println!("{ABSENT}");
            return Ok(true);
        };
        for (node, answer) in nodes.iter().zip(&found) {
            judge_node(node, *answer, verdicts, &mut tally);
        }
    }
    tally.print();
    match verdicts {
        Verdicts::OfAProgram => Ok(tally.violations() == 0),
        Verdicts::GivenAsTheyAre => {
            let [first, second, none] =
                [Entry::First, Entry::Second, Entry::None].map(|entry| tally.of(entry));
            println!("of entry 1: {first}, of entry 2: {second}, of none: {none}");
            Ok(first > 0 && second > 0 && none == 0)
        }
    }
}

fn judge_node(node: &Node, answer: Answer, verdicts: Verdicts, tally: &mut Tally) {
    tally.nodes += 1;
    let Answer::Decided(Decided { holds, .. }) = answer else {
        return;
    };
    // The given source also answers where a verdict is refused.
    if verdict(node).is_refused() && verdicts == Verdicts::GivenAsTheyAre {
        return;
    }
    tally.decided += 1;
    let prepared = Runs::of(node);
    let mut against = None;
    for run in 0..EACH {
        tally.runs += 1;
        match prepared.outcome(tally.decided, run) {
            Ok(outcome) if outcome != holds => against = Some(run),
            Ok(_) => {}
            Err(_) => tally.without_outcome += 1,
        }
    }
    if against.is_none() {
        return;
    }
    let entry = Entry::of(node);
    *tally.against.entry(entry).or_default() += 1;
    let due = verdicts == Verdicts::GivenAsTheyAre && entry != Entry::None;
    if !due && tally.against[&entry] <= SHOWN {
        println!("a run goes against {answer}");
        text_of(node).lines().for_each(|line| println!("    {line}"));
    }
}
