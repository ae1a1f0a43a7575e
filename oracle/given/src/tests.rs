//! The given source on rows worked out by hand.

use crate::engine::{line, sentence_line, Nodes};
use crate::lift::gpr_name;
use oracle::sheets::from_text::write;
use oracle::sheets::syntax::named_registers;

fn bytes_of(text: &str) -> Vec<u8> {
    write(text).unwrap_or_else(|error| panic!("{error}")).bytes
}

fn answer(text: &str) -> String {
    line(&bytes_of(text), Nodes::AsTheyAre)
}

/// The answer for one block that holds these instructions.
fn block(instructions: &[&str]) -> String {
    let lines: String = instructions.iter().map(|words| format!("insn +1 {words}\n")).collect();
    answer(&format!("{lines}block 0 100\n"))
}

/// The answers for one node, plain and with the differences.
fn node(lines: &str) -> [String; 2] {
    let bytes = bytes_of(&format!("node\n{lines}\n"));
    let strip = |line: String| line.strip_prefix("blocks nodes ").unwrap().to_string();
    [Nodes::AsTheyAre, Nodes::WithDifferences].map(|nodes| strip(line(&bytes, nodes)))
}

/// A node that both readings judge alike.
fn same(lines: &str) -> String {
    let [plain, with_differences] = node(lines);
    assert_eq!(plain, with_differences);
    plain
}

#[test]
fn block_rows_of_the_scope_document() {
    assert_eq!(block(&["xor eax eax", "je target 9"]), "blocks a1 nodes");
    assert_eq!(block(&["cmp cx cx", "jl target 9"]), "blocks v1 nodes");
    assert_eq!(block(&["mov al 0", "test al al", "je target 9"]), "blocks u nodes");
    let inc = "inc eax flags pf zf sf of";
    assert_eq!(block(&["mov eax 0x7fffffff", inc, "jo target 9"]), "blocks a1 nodes");
    let inc = "inc ebx flags pf zf sf of";
    assert_eq!(block(&["stc", inc, "jb target 9"]), "blocks a1 nodes");
    let neg = "neg ebx flags cf pf zf sf of";
    assert_eq!(block(&["stc", neg, "jb target 9"]), "blocks u nodes");
}

#[test]
fn blocks_without_a_branch_are_told_from_undecided_ones() {
    assert_eq!(block(&["xor eax eax"]), "blocks n nodes");
    assert_eq!(block(&["xor eax eax", "je"]), "blocks n nodes");
    assert_eq!(block(&["xor eax eax", "other target 9"]), "blocks u nodes");
    let text = "insn 5 stc\ninsn 7 jb target 1\nblock 5 8\nblock 7 8\nblock 5 7\nblock 8 5\n";
    assert_eq!(answer(text), "blocks a1 u n n nodes");
}

#[test]
fn count_register_jumps_look_at_their_width() {
    let jumps = |value: &str| {
        ["jrcxz", "jecxz", "jcxz"]
            .map(|jump| block(&[&format!("mov rcx {value}"), &format!("{jump} target 9")]))
    };
    let [a, v] = ["blocks a1 nodes", "blocks v1 nodes"];
    assert_eq!(jumps("0"), [a, a, a]);
    assert_eq!(jumps("0x10000"), [v, v, a]);
    assert_eq!(jumps("0x100000000"), [v, a, a]);
    assert_eq!(block(&["mov cx 0", "jcxz target 9"]), "blocks u nodes");
}

#[test]
fn registers_have_their_names() {
    for (name, register) in named_registers().filter(|(_, register)| register.offset == 0) {
        assert_eq!(gpr_name(register.index.into(), register.size.into()), name);
    }
}

#[test]
fn blocks_have_their_sentences() {
    let text = "insn 1 mov rax 0xf7\ninsn 2 cmp ah al\ninsn 3 jb target 9\ninsn 4 cmc
        insn 5 jae target 9\nblock 1 4\nblock 2 4\nblock 1 3\nblock 1 6\n";
    let due =
        "sentences|ah is 0 and al is -9 here|||ah is 0 and al is -9 here, and cmc turns it round";
    assert_eq!(sentence_line(&bytes_of(text)), due);
    assert_eq!(sentence_line(&bytes_of("")), "sentences");
    assert_eq!(sentence_line(&[]), "refused 1 at 0");
}

#[test]
fn refused_sheets_are_refused() {
    assert_eq!(line(&[], Nodes::AsTheyAre), "refused 1 at 0");
    assert_eq!(answer("insn 0 stc\ninsn 0 stc"), "refused 4 at 13");
}

#[test]
fn node_rows_of_the_scope_document() {
    let x = |condition: &str| same(&format!("vars u32 u32\ncond {condition}"));
    assert_eq!(x("(== (& (* v0 (+ v0 1:4)) 1:4) 0:4)"), "a5");
    assert_eq!(x("(== (+ v0 v0) (+ (* 2:4 v1) 1:4))"), "v6");
    assert_eq!(x("(== (% (* 2:4 v0) 2:4) 0:4)"), "a5");
    assert_eq!(x("(== (% v0 2:4) 1:4)"), "u");
    assert_eq!(x("(== (<< v0 31:4) 1:4)"), "v6");
    assert_eq!(x("(== (<< v0 32:4) 1:4)"), "u");
}

#[test]
fn node_rows_where_the_two_differ() {
    assert_eq!(node("cond (== (effect u32) (effect u32))"), ["a2", "u"]);
    let held = "vars u32 u32\nassign 0 (+ (+ v0 1:4) (* 2:4 v1))\nassign 1 v0\ncond (== v0 v1)";
    assert_eq!(node(held), ["v6", "u"]);
    let zero = "(* 0:4 (effect u32))";
    assert_eq!(node(&format!("cond (== {zero} {zero})")), ["a2", "a5"]);
}

#[test]
fn each_step_has_its_reason() {
    let x = |condition: &str| same(&format!("vars u32 u32\ncond {condition}"));
    assert_eq!(x("(<= v0 v0)"), "a2");
    assert_eq!(x("(!= (load u8 v0) (load u8 v0))"), "v2");
    assert_eq!(x("true"), "a3");
    assert_eq!(x("false"), "v3");
    assert_eq!(x("(>= (cast u8 v0) 0:1)"), "a4");
    assert_eq!(x("(> 0:4 (cast ptr v0))"), "v4");
    assert_eq!(x("(>= (cast s8 v0) 0:1)"), "u");
    assert_eq!(x("(== (- 3:4 3:4) 0:4)"), "a5");
    assert_eq!(x("(!= (^ v0 v0) 7:4)"), "a5");
    assert_eq!(x("(== 4:4 5:4)"), "v6");
    assert_eq!(x("(== (& 3:4 1:4) 1:4)"), "u");
    assert_eq!(x("(== v0 (+ v0 1:4))"), "v6");
}

#[test]
fn halves_settle_alone_or_together() {
    let x = |condition: &str| same(&format!("vars u32 u32\ncond {condition}"));
    assert_eq!(x("(&& true (== v0 v0))"), "a7");
    assert_eq!(x("(&& v0 false)"), "v3");
    assert_eq!(x("(|| (== v0 v0) true)"), "a2");
    assert_eq!(x("(|| v0 (== v0 v0))"), "a2");
    assert_eq!(x("(|| (&& true true) v0)"), "a7");
    assert_eq!(x("(|| (== v0 (+ v0 1:4)) (< v0 v0))"), "v7");
    assert_eq!(x("(&& v0 true)"), "u");
    assert_eq!(x("(&& (&& (== v0 v0) true) false)"), "v3");
}

#[test]
fn assignments_are_carried_to_the_condition() {
    let after = |lines: &str| same(&format!("vars u32 u32\n{lines}\ncond (== (& v1 1:4) 0:4)"));
    assert_eq!(after("assign 1 (* v0 (+ v0 1:4))"), "a5");
    assert_eq!(after("assign 1 (* v0 (+ v0 1:4))\nother"), "u");
    assert_eq!(after("assign 1 (* v0 (+ v0 1:4))\nassign 0 7:4"), "u");
    assert_eq!(after("assign 0 (load u32 v1)\nassign 1 (* v0 (+ v0 1:4))"), "a5");
    assert_eq!(after("assign 1 (+ (load u32 v0) (load u32 v0))"), "u");
}

#[test]
fn what_runs_away_is_not_judged() {
    crate::guard::hush();
    let doubling = "vars u32\nrepeat 60 {\nassign 0 (+ v0 v0)\n}\ncond (== v0 0:4)";
    assert_eq!(node(doubling), ["-", "r10"]);
    // Fourteen sums of two variables, multiplied.
    let sums: String = (0..14).map(|i| format!("(* (+ v{} v{}) ", 2 * i, 2 * i + 1)).collect();
    let product = format!("{sums} 1:4{}", ")".repeat(14));
    let types = "u32 ".repeat(32);
    assert_eq!(node(&format!("vars {types}\ncond (== {product} 1:4)")), ["-", "r11"]);
    // The sentence alone would take for ever: the sides are a cast to bool.
    let [a, b] = [format!("(cast bool {product})"), format!("(+ (cast bool {product}) 1:4)")];
    assert_eq!(same(&format!("vars {types}\ncond (== {a} {b})")), "v6");
}

#[test]
fn samples_get_an_answer() {
    for sheet in [
        include_bytes!("../../../examples/first.sheet").as_slice(),
        include_bytes!("../../../examples/pump_starter.sheet"),
        include_bytes!("../../../examples/probe_table.sheet"),
    ] {
        assert!(line(sheet, Nodes::AsTheyAre).starts_with("blocks "));
    }
    let first = include_bytes!("../../../examples/first.sheet");
    assert_eq!(line(first, Nodes::AsTheyAre), "blocks a1 nodes");
}
