//! Tests of what judges verdicts on nodes: the judge from the description, runs,
//! classes of differences, generated nodes.

use crate::answers::Answer;
use crate::cases::any_sheet::Generator;
use crate::cases::limit_node::{long_node, wide_node};
use crate::cases::verdict_node;
use crate::comparisons::nodes::{class, sheet_of, Entry};
use crate::judges::node_limits::refusal;
use crate::judges::node_runs::Runs;
use crate::judges::node_verdict::verdict;
use crate::judges::reader::read;
use crate::judges::substitution::{substitute, Rule};
use crate::sheets::from_text::write;
use crate::sheets::syntax::Node;
use crate::stored;
use crate::stored::nodes;

fn node(lines: &str) -> Node {
    let bytes = write(&format!("node\n{lines}\n")).unwrap_or_else(|error| panic!("{error}")).bytes;
    read(&bytes).unwrap_or_else(|refusal| panic!("{refusal}")).sheet.nodes[0].clone()
}

fn answer(word: &str) -> Answer {
    word.parse().unwrap()
}

#[test]
fn cases_by_hand_are_the_judge_s() {
    assert!(nodes::cases(stored::NODES).unwrap().len() > 40);
}

#[test]
fn a_case_that_the_judge_answers_otherwise_is_named() {
    let wrong = "case x\nexpect nodes u\nnode\ncond true";
    assert_eq!(nodes::cases(wrong).err().unwrap(), "case x: the judge says 'nodes a3'");
    let error = nodes::cases("case x\nexpect blocks u\nnode\ncond true").err().unwrap();
    assert_eq!(error, "case x: 'nodes ...' is needed");
}

/// How many of 200 runs hold, and how many have an outcome.
fn runs(lines: &str) -> [usize; 2] {
    let prepared = Runs::of(&node(lines));
    let found: Vec<bool> = (0..200).filter_map(|run| prepared.outcome(1, run).ok()).collect();
    [found.iter().filter(|holds| **holds).count(), found.len()]
}

fn either_way(lines: &str) -> bool {
    let [holds, all] = runs(lines);
    0 < holds && holds < all
}

#[test]
fn runs_take_any_values() {
    assert_eq!(runs("cond true"), [200, 200]);
    assert_eq!(runs("vars u32\ncond (== v0 (+ v0 1:4))"), [0, 200]);
    assert!(either_way("vars u32\ncond (== (& v0 1:4) 0:4)"));
    assert!(either_way("vars bool\ncond v0"));
    assert_eq!(runs("vars s8\ncond (== v0 (cast s8 v0))"), [200, 200]);
    assert_eq!(runs("vars u32\ncond (== (/ v0 0:4) v0)"), [0, 0]);
}

#[test]
fn loads_agree_in_the_condition_and_effects_do_not() {
    assert_eq!(runs("vars ptr\ncond (== (load u32 v0) (load u32 v0))"), [200, 200]);
    assert!(either_way("vars ptr\ncond (== (load u32 v0) (load u32 (+ v0 4:8)))"));
    assert!(either_way("vars ptr\ncond (== (load u32 v0) (load s32 v0))"));
    assert!(either_way("cond (== (effect u8) (effect u8))"));
    let statement = "assign 0 (- (load u32 v1) (load u32 v1))";
    assert!(either_way(&format!("vars u32 ptr\n{statement}\ncond (== v0 0:4)")));
}

#[test]
fn other_statements_change_every_variable() {
    assert_eq!(runs("vars u32\nassign 0 5:4\ncond (== v0 5:4)"), [200, 200]);
    assert!(runs("vars u32\nassign 0 5:4\nother\ncond (== v0 5:4)")[0] < 200);
}

#[test]
fn the_two_entries_are_told_apart() {
    let first = "vars u32 u32\nassign 0 (+ (+ v0 1:4) (* 2:4 v1))\nassign 1 v0\ncond (== v0 v1)";
    let second = "cond (|| false (== (effect u32) (effect u32)))";
    assert_eq!(Entry::of(&node(first)), Entry::First);
    assert_eq!(Entry::of(&node(second)), Entry::Second);
    assert_eq!(Entry::of(&node("vars u32\ncond (== v0 v0)")), Entry::None);
    assert_eq!(
        class(&node(first), answer("v6"), answer("u")).map(|class| class.entry),
        Some(Entry::First)
    );
    assert_eq!(class(&node(first), answer("v6"), answer("v6")), None);
    assert_eq!(class(&node(first), answer("v6"), answer("r10")), None);
    // What the given source answers there goes against a run of each.
    assert_eq!(runs(first), [200, 200]);
    assert!(either_way(second));
}

#[test]
fn generated_nodes_are_accepted_and_of_every_answer() {
    let mut answers = std::collections::BTreeSet::new();
    for index in 0..6_000 {
        let node = verdict_node::numbered(11, index);
        assert!(read(&sheet_of(&[node.clone()])).is_ok(), "{index}");
        answers.insert(verdict(&node).to_string());
    }
    let all = ["a2", "a3", "a4", "a5", "a6", "a7", "r10", "r11", "u", "v2", "v3", "v4", "v5", "v6"];
    all.iter().for_each(|answer| assert!(answers.contains(*answer), "{answer}"));
}

#[test]
fn generated_nodes_are_on_each_side_of_the_limits() {
    let mut lengths = [0; 2_000];
    for index in 0..3_000 {
        let node = long_node(&mut Generator::new(12, index, 0));
        if let Some(found) = substitute(&node, Rule::Ours, 1_999) {
            lengths[found.condition.len()] += 1;
        }
    }
    assert!(lengths[126..=130].iter().all(|count| *count > 30), "{:?}", &lengths[120..136]);
    let wide = |index| refusal(&wide_node(&mut Generator::new(13, index, 0)));
    let refused = (0..2_000).filter(|index| wide(*index) == Some(11)).count();
    assert!((300..1_500).contains(&refused), "{refused}");
}
