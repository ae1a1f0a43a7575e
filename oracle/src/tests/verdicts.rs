//! Tests of what judges verdicts: generators, comparison, stored answers,
//! limits, assembler, processor.

use crate::answers::{answers, Line};
use crate::cases::block_sheet;
use crate::comparisons::processor;
use crate::judges::assembler::{encodings, jump};
use crate::judges::node_limits;
use crate::judges::processor::{Runner, Start, FIRST_JUMP, JUMPS, MISSING};
use crate::judges::reader::read;
use crate::judges::substitution::{substitute, Rule};
use crate::sheets::encode::encode;
use crate::sheets::from_text::write;
use crate::sheets::names::mnemonic;
use crate::sheets::syntax::*;
use crate::sheets::to_text::text;
use crate::stored;
use crate::stored::blocks;

fn sheet_of(text: &str) -> Sheet {
    let bytes = write(text).unwrap_or_else(|error| panic!("{error}")).bytes;
    read(&bytes).unwrap_or_else(|refusal| panic!("{refusal}")).sheet
}

fn instruction(words: &str) -> Instruction {
    sheet_of(&format!("insn 0 {words}\n")).instructions[0].clone()
}

fn node(lines: &str) -> Node {
    sheet_of(&format!("node\n{lines}\n")).nodes[0].clone()
}

#[test]
fn rich_sheets_are_accepted_but_for_the_damaged_ones() {
    let mut refused = 0;
    let (mut blocks, mut nodes) = (0, 0);
    for index in 0..4000 {
        match read(&block_sheet::sheet(5, index, true)) {
            Ok(accepted) => {
                blocks += accepted.sheet.blocks.len();
                nodes += accepted.sheet.nodes.len();
            }
            Err(_) => refused += 1,
        }
    }
    assert!((10..160).contains(&refused), "{refused}");
    assert!(blocks > 20_000 && nodes > 8_000, "{blocks} {nodes}");
}

#[test]
fn rich_blocks_end_in_every_jump_and_hold_every_mnemonic() {
    let (mut ends, mut inside) = ([0; 35], [0; 35]);
    for index in 0..2000 {
        let Ok(accepted) = read(&block_sheet::sheet(6, index, false)) else { continue };
        for insn in &accepted.sheet.instructions {
            let count = if insn.target.is_some() { &mut ends } else { &mut inside };
            count[insn.mnemonic as usize] += 1;
        }
    }
    assert!(ends[16..].iter().all(|count| *count > 50), "{ends:?}");
    assert!(inside[..16].iter().all(|count| *count > 50), "{inside:?}");
}

#[test]
fn lines_are_taken_apart() {
    let line = |blocks: &[&str], nodes: &[&str]| Line::Answers {
        blocks: answers(blocks).unwrap(),
        nodes: answers(nodes).unwrap(),
    };
    assert_eq!(Line::parse("blocks a1 u n nodes v6 u"), line(&["a1", "u", "n"], &["v6", "u"]));
    assert_eq!(Line::parse("blocks nodes"), line(&[], &[]));
    assert_eq!(Line::parse("blocks u nodes r10 -"), line(&["u"], &["r10", "-"]));
    assert_eq!(Line::parse("refused 1 at 0"), Line::Refused("refused 1 at 0".to_string()));
    for unclear in
        ["", "no line", "block a1", "blocks nodes nodes", "blocks a", "blocks ax", "nodes w1"]
    {
        assert_eq!(Line::parse(unclear), Line::Unclear, "{unclear}");
    }
}

#[test]
fn cases_by_hand_are_accepted_and_have_an_answer_for_each_block() {
    let cases = blocks::cases(stored::BLOCKS).unwrap();
    assert!(cases.len() > 50);
    for case in cases {
        let sheet = read(&case.sheet).unwrap().sheet;
        assert_eq!(case.expected.len(), sheet.blocks.len(), "{}", case.name);
    }
}

#[test]
fn a_case_without_an_expectation_is_named() {
    let error = blocks::cases("case x\nblock 1 2").err().unwrap();
    assert_eq!(error, "case x: one line 'expect ...' is needed");
    let error = blocks::cases("case x\nexpect accepted 0 0 0").err().unwrap();
    assert_eq!(error, "case x: 'blocks ...' is needed");
}

fn condition_after(lines: &str, rule: Rule) -> String {
    let found = substitute(&node(lines), rule, 128).unwrap();
    let node = Node { condition: found.condition, ..node(lines) };
    let shown = text(&Sheet { nodes: vec![node], ..Default::default() });
    let line = shown.lines().find(|line| line.trim().starts_with("cond")).unwrap();
    line.trim().to_string()
}

#[test]
fn held_values_are_written_for_their_variables() {
    let after = |lines: &str| condition_after(&format!("vars u32 u32 u32\n{lines}"), Rule::Ours);
    assert_eq!(after("assign 0 (+ v1 1:4)\ncond (== v0 v2)"), "cond (== (+ v1 1:4) v2)");
    assert_eq!(after("assign 0 (+ v0 1:4)\nassign 1 v0\ncond v1"), "cond (+ v0 1:4)");
    assert_eq!(after("assign 0 v1\nassign 1 2:4\ncond (& v0 v1)"), "cond (& v0 2:4)");
    assert_eq!(after("assign 0 v1\nother\ncond v0"), "cond v0");
    assert_eq!(after("assign 0 (load u32 v1)\ncond v0"), "cond v0");
    assert_eq!(after("assign 0 (effect u32)\ncond v0"), "cond v0");
    let load = "assign 0 5:4\ncond (? v0 (load u32 (+ v0 v0)) v0)";
    assert_eq!(after(load), "cond (? 5:4 (load u32 (+ v0 v0)) 5:4)");
}

#[test]
fn the_first_difference_stops_a_value() {
    let lines = "vars u32 u32\nassign 0 (+ (+ v0 1:4) (* 2:4 v1))\nassign 1 v0\ncond (== v0 v1)";
    assert_eq!(condition_after(lines, Rule::Ours), "cond (== v0 v1)");
    let given = "cond (== v0 (+ (+ v0 1:4) (* 2:4 v1)))";
    assert_eq!(condition_after(lines, Rule::Given), given);
    assert_eq!(substitute(&node(lines), Rule::Ours, 128).unwrap().not_held, [1]);
    assert_eq!(substitute(&node(lines), Rule::Given, 128).unwrap().not_held, [] as [usize; 0]);
}

#[test]
fn long_expressions_are_refused_as_10() {
    let doubled = |times: usize, condition: &str| {
        let lines = "assign 0 (+ v0 v0)\n".repeat(times);
        node_limits::refusal(&node(&format!("vars u32\n{lines}cond {condition}")))
    };
    // Lengths are 3, 7, 15, 31, 63, 127, 255.
    assert_eq!(doubled(6, "v0"), None);
    assert_eq!(doubled(6, "(cast u8 v0)"), None);
    assert_eq!(doubled(6, "(cast u8 (cast u8 v0))"), Some(10));
    assert_eq!(doubled(7, "true"), Some(10));
}

/// The sum of `count` variables from `first` on.
fn sum(first: usize, count: usize) -> String {
    let plus = "(+ ".repeat(count - 1);
    let rest: String = (first + 1..first + count).map(|number| format!(" v{number})")).collect();
    format!("{plus}v{first}{rest}")
}

#[test]
fn large_polynomials_are_refused_as_11() {
    let types = "u32 ".repeat(32);
    let judged =
        |condition: String| node_limits::refusal(&node(&format!("vars {types}\ncond {condition}")));
    let product = |a: usize, b: usize| format!("(* {} {})", sum(0, a), sum(a, b));
    assert_eq!(judged(format!("(== {} 2:4)", product(16, 16))), None);
    assert_eq!(judged(format!("(== {} 1:4)", product(17, 15))), None);
    // 257 terms, in a part and in the sum of the sides.
    assert_eq!(judged(format!("(== (+ {} 1:4) 2:4)", product(16, 16))), Some(11));
    assert_eq!(judged(format!("(!= {} 1:4)", product(16, 16))), Some(11));
    assert_eq!(judged(format!("(< (+ {} 1:4) 2:4)", product(16, 16))), None);
    // An or adds its sides to their product.
    let either = format!("(| {} {})", sum(0, 16), sum(16, 16));
    assert_eq!(judged(format!("(== {either} 0:4)")), Some(11));
    // Half by half, and under a cast to bool by the step for exact sides.
    let large = format!("(+ {} 1:4)", product(16, 16));
    assert_eq!(judged(format!("(&& v0 (|| true (== {large} 0:4)))")), Some(11));
    assert_eq!(judged(format!("(== (cast bool {large}) 0:4)")), None);
    assert_eq!(judged(format!("(== (cast bool (& {large} 1:4)) 0:4)")), Some(11));
    assert_eq!(judged(format!("(== (% {large} 3:4) 0:4)")), None);
    assert_eq!(judged(format!("(== (<< {large} 1:4) 0:4)")), None);
    assert_eq!(judged(format!("(== (<< {large} 0:4) 0:4)")), Some(11));
}

#[test]
fn products_multiply_at_most_4096_terms() {
    // Sixty-four terms: the products of 1 + v for six variables.
    let factors = |first: usize, count: usize| {
        let open = "(* ".repeat(count - 1);
        let factor = |number: usize| format!("(+ 1:4 v{number})");
        let rest: String = (1..count).map(|i| format!(" {})", factor(first + i))).collect();
        format!("{open}{}{rest}", factor(first))
    };
    let judged = |condition: String| {
        node_limits::refusal(&node(&format!("vars {}\ncond {condition}", "u32 ".repeat(32))))
    };
    let same = factors(0, 6);
    assert_eq!(judged(format!("(== (* {same} {same}) 0:4)")), None);
    let one_more = format!("(+ {same} v7)");
    assert_eq!(judged(format!("(== (* {same} {one_more}) 0:4)")), Some(11));
}

fn bytes_of(words: &str) -> Vec<Vec<u8>> {
    encodings(&instruction(words)).into_iter().map(|code| code.bytes).collect()
}

#[test]
fn assembler_gives_the_manual_s_bytes() {
    assert_eq!(
        bytes_of("mov eax 0x12345678"),
        [vec![0xB8, 0x78, 0x56, 0x34, 0x12], vec![0xC7, 0xC0, 0x78, 0x56, 0x34, 0x12],]
    );
    assert_eq!(bytes_of("mov r9 -1")[1], [0x49, 0xC7, 0xC1, 0xFF, 0xFF, 0xFF, 0xFF]);
    assert_eq!(bytes_of("mov rax 0x80000000").len(), 1);
    assert_eq!(bytes_of("mov bh 7"), [vec![0xB7, 7], vec![0xC6, 0xC7, 7]]);
    assert_eq!(bytes_of("mov dil 7")[0], [0x40, 0xB7, 7]);
    assert_eq!(
        bytes_of("add ax 1"),
        [vec![0x66, 0x81, 0xC0, 1, 0], vec![0x66, 0x83, 0xC0, 1], vec![0x66, 0x05, 1, 0],]
    );
    assert_eq!(bytes_of("sub rcx 0x80000000"), [] as [Vec<u8>; 0]);
    assert_eq!(bytes_of("xor r15d eax"), [vec![0x41, 0x31, 0xC7], vec![0x44, 0x33, 0xF8]]);
    assert_eq!(bytes_of("cmp ah bl"), [vec![0x38, 0xDC], vec![0x3A, 0xE3]]);
    assert_eq!(bytes_of("cmp ah sil"), [] as [Vec<u8>; 0]);
    assert_eq!(bytes_of("test eax ecx"), [vec![0x85, 0xC8]]);
    assert_eq!(bytes_of("not rax"), [vec![0x48, 0xF7, 0xD0]]);
    assert_eq!(bytes_of("inc r8b flags pf zf sf of"), [vec![0x41, 0xFE, 0xC0]]);
    assert_eq!(bytes_of("dec cx flags pf zf sf of"), [vec![0x66, 0xFF, 0xC9]]);
    assert_eq!(bytes_of("neg edx flags cf pf zf sf of"), [vec![0xF7, 0xDA]]);
    assert_eq!(bytes_of("add edx mem"), [vec![0x03, 0x15, 0, 0, 0, 0]]);
    assert_eq!(["stc", "clc", "cmc"].map(|words| bytes_of(words)[0][0]), [0xF9, 0xF8, 0xF5]);
    assert_eq!(jump(16, 7), Some(vec![0x74, 7]));
    assert_eq!(jump(31, 7), Some(vec![0x71, 7]));
    assert_eq!(jump(33, 7), Some(vec![0x67, 0xE3, 7]));
    assert_eq!(jump(34, 7), None);
}

/// Which jumps are taken behind these instructions, from this state.
fn taken(lines: &[&str], start: Start) -> Vec<&'static str> {
    let mut runner = Runner::new().unwrap();
    let code: Vec<_> =
        lines.iter().map(|words| encodings(&instruction(words))[0].clone()).collect();
    runner.load(&code).unwrap();
    let taken = runner.run(&start);
    (0..JUMPS)
        .filter(|jump| taken[*jump])
        .map(|jump| mnemonic::NAMES[FIRST_JUMP as usize + jump])
        .collect()
}

#[test]
fn code_runs_from_its_start_state() {
    if MISSING.is_some() {
        return;
    }
    let start = |flags: u64| Start { registers: [5; 16], flags: flags | 0x202, memory: 9 };
    // No instructions: the flags decide. CF 1, PF 4, ZF 0x40, SF 0x80, OF 0x800.
    assert_eq!(taken(&[], start(0)), ["jne", "jge", "jg", "jae", "ja", "jns", "jnp", "jno"]);
    let all = ["je", "jge", "jle", "jb", "jbe", "js", "jp", "jo"];
    assert_eq!(taken(&[], start(0x8C5)), all);
    // 5 - 9 from memory.
    let less = ["jne", "jl", "jle", "jb", "jbe", "js", "jp", "jno"];
    assert_eq!(taken(&["cmp rsp mem"], start(0)), less);
    let counted = taken(&["mov rcx 0x100000000"], start(0));
    assert!(counted.contains(&"jecxz") && !counted.contains(&"jrcxz"));
    assert!(taken(&["mov rsp 0", "mov rcx rsp"], start(0)).contains(&"jrcxz"));
}

#[test]
fn bodies_are_accepted_and_often_due() {
    let mut due = 0;
    for index in 0..500 {
        let body = processor::body(3, index);
        let sheet = processor::sheet(&body);
        let bytes = encode(&sheet).bytes;
        assert_eq!(read(&bytes).map(|accepted| accepted.sheet), Ok(sheet));
        due += processor::due(&body).iter().filter(|due| **due).count();
    }
    assert!(due > 3000, "{due}");
}

#[test]
fn a_jump_is_due_where_all_it_reads_was_set() {
    let due = |lines: &[&str]| {
        let instructions = lines.iter().map(|words| instruction(words)).collect();
        let body = processor::Body { instructions, code: Vec::new() };
        let due = processor::due(&body);
        (0..JUMPS).filter(|jump| due[*jump]).count()
    };
    let all = "flags cf pf zf sf of";
    assert_eq!(due(&["mov eax 1", &format!("add eax 2 {all}")]), 16);
    assert_eq!(due(&["mov ecx 1", &format!("add ecx 2 {all}")]), 18);
    assert_eq!(due(&["mov al 1", &format!("add al 2 {all}")]), 0);
    assert_eq!(due(&["mov eax ebx", &format!("add eax 2 {all}")]), 0);
    assert_eq!(due(&["mov eax 1", "inc eax flags pf zf sf of"]), 12);
    assert_eq!(due(&["stc flags cf"]), 2);
    assert_eq!(due(&["cmc flags cf"]), 0);
    assert_eq!(due(&["stc flags cf", "cmc flags cf"]), 2);
    assert_eq!(due(&["mov eax 1", &format!("add eax mem {all}")]), 0);
}
