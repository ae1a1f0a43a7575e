//! Tests of the evaluator, the C judge, the generator of nodes and the stored
//! cases of evaluation.

use crate::cases::evaluation_node::{made, TABLE};
use crate::cases::random::Random;
use crate::comparisons::frames::{ask_evaluation, serve, Question};
use crate::judges::c_compiler::{self, Outcome};
use crate::judges::evaluator::{evaluation, evaluations, lent, line, place_of_node, wrapped};
use crate::judges::reader::read;
use crate::sheets::encode::encode;
use crate::sheets::from_text::write;
use crate::sheets::names::operator;
use crate::sheets::names::value_type::{self, *};
use crate::sheets::syntax::*;
use crate::stored::evaluation::{self, Case};
use crate::stored::{List, EVALUATION};
use std::collections::BTreeSet;

fn sheet(text: &str) -> Vec<u8> {
    write(text).unwrap_or_else(|error| panic!("{error}")).bytes
}

fn evaluated(text: &str, values: &[u64]) -> String {
    line(&evaluation(&sheet(text), 0, values))
}

#[test]
fn numbers_wrap_to_their_types() {
    let wraps = [
        (128, S8, -128),
        (-129, S8, 127),
        (65535, S16, -1),
        (1 << 31, S32, -(1 << 31)),
        (1 << 63, S64, -(1 << 63)),
        (-1, U8, 255),
        (65536, U16, 0),
        (-1, U32, 4_294_967_295),
        (-1, U64, (1 << 64) - 1),
        (1 << 64, POINTER, 0),
        (256, BOOL, 1),
        (0, BOOL, 0),
    ];
    for (value, code, expected) in wraps {
        assert_eq!(
            wrapped(value, code),
            expected,
            "{value} as {}",
            value_type::NAMES[code as usize]
        );
    }
    assert_eq!(lent(-1, S8), 0xFF);
    assert_eq!(lent(-1, S64), u64::MAX);
    assert_eq!(lent(7, BOOL), 1);
}

#[test]
fn a_run_follows_its_statements() {
    let text = "node\nvars u8 u8\nassign 1 (cast u8 (* v0 v1))\ncond (== v1 44:1)";
    assert_eq!(evaluated(text, &[100, 3]), "holds");
    assert_eq!(evaluated(text, &[100, 4]), "fails");
    assert_eq!(evaluated(text, &[100, 3, 999]), "holds");
}

#[test]
fn refusals_come_in_their_order() {
    let text = "node\nvars u8 bool\nassign 0 (cast u8 (/ v0 0:1))\ncond true";
    assert_eq!(evaluated(text, &[1, 2]), "refused 16 at 1");
    assert_eq!(evaluated(text, &[1, 1]), "refused 14 at 6");
    let text = text.replace("cond", "other\ncond");
    assert_eq!(evaluated(&text, &[1, 2]), "refused 15 at 6");
    assert_eq!(line(&evaluation(&sheet(&text), 1, &[])), "refused 13 at 0");
    assert_eq!(line(&evaluation(&sheet(&text)[..9], 1, &[])), "refused 1 at 9");
}

#[test]
fn the_place_of_a_node_is_where_those_before_it_end() {
    let bytes = sheet("insn 1 stc\nblock 1 2\nnode\ncond true\nnode\nvars u8\ncond v0");
    let accepted = read(&bytes).unwrap();
    assert_eq!(accepted.starts[2], 32);
    assert_eq!(place_of_node(&accepted.sheet, 0), 32);
    assert_eq!(place_of_node(&accepted.sheet, 1), 41);
}

#[test]
fn answers_follow_cases() {
    let mut input = Vec::new();
    let good = sheet("node\nvars s8\ncond (< v0 0:1)");
    ask_evaluation(&mut input, &good, 0, &[&[0x80], &[0x7F], &[0x100]]);
    ask_evaluation(&mut input, &good, 0, &[&[0x7F, u64::MAX]]);
    ask_evaluation(&mut input, &good, 2, &[&[]]);
    ask_evaluation(&mut input, &[], 0, &[&[1, 2]]);
    let line = |question: &Question| match question {
        Question::Evaluation { sheet, node, sets } => Ok(evaluations(sheet, *node, sets)),
        _ => panic!("an evaluation was asked for"),
    };
    let mut output = Vec::new();
    serve(&mut input.as_slice(), &mut output, line).unwrap();
    let expected = "holds, fails, refused 16 at 0\nfails\nrefused 13 at 0\nrefused 1 at 0\n";
    assert_eq!(String::from_utf8(output).unwrap(), expected);
    assert!(serve(&mut &input[..input.len() - 1], &mut Vec::new(), line).is_err());
}

#[test]
fn c_functions_leave_promotions_to_c() {
    let node = Node {
        variables: vec![S8, BOOL],
        statements: vec![Statement::Assign {
            variable: 1,
            value: vec![Record::Variable(0), Record::Cast(BOOL)],
        }],
        condition: vec![
            Record::Variable(0),
            Record::Constant { width: 1, value: 3 },
            Record::Binary(operator::REM),
            Record::True,
            Record::Binary(operator::EQUAL),
        ],
        addresses: Vec::new(),
    };
    let expected = "static int f(const uint64_t *in) {
  int8_t v0 = (int8_t)in[0];
  _Bool v1 = (_Bool)in[1];
  zero = 0;
  { __auto_type r = ((_Bool)v0); if (!HAS_TYPE(r, _Bool)) return 3; v1 = r; }
  { __auto_type r = (REMAINDER(v0, ((uint8_t)3u)) == ((int32_t)1)); \
       if (!HAS_TYPE(r, int32_t)) return 3; return zero ? 2 : r ? 1 : 0; }
}
";
    let squeezed = |text: &str| text.split_whitespace().collect::<Vec<&str>>().join(" ");
    assert_eq!(squeezed(&c_compiler::function("f", &node)), squeezed(expected));
}

/// The node and values of a stored case that a compiler can judge.
fn for_c(case: &Case) -> Option<(Node, Outcome)> {
    let outcome = match case.expected {
        Ok(true) => Outcome::Holds,
        Ok(false) => Outcome::Fails,
        Err(refusal) if refusal.number == 14 => Outcome::DivisionByZero,
        Err(_) => return None,
    };
    let sheet = read(&case.sheet).ok()?.sheet;
    Some((sheet.nodes[case.number as usize].clone(), outcome))
}

#[test]
fn stored_cases_hold_by_the_compiler_too() {
    let cases = evaluation::cases(EVALUATION).unwrap();
    assert!(cases.len() > 10_000);
    let mut list = List::default();
    evaluation::store(&cases, &mut list);
    assert!(list.frames.len() < 300_000);
    if !c_compiler::present() {
        return;
    }
    let mut nodes: Vec<Node> = Vec::new();
    let (mut runs, mut expected) = (Vec::new(), Vec::new());
    for case in &cases {
        if let Some((node, outcome)) = for_c(case) {
            // The cases of one node stand together.
            if nodes.last() != Some(&node) {
                nodes.push(node);
            }
            runs.push((nodes.len() - 1, case.values.as_slice()));
            expected.push((outcome, case.name.as_str()));
        }
    }
    let nodes: Vec<&Node> = nodes.iter().collect();
    let outcomes = c_compiler::judge(&nodes, &runs).unwrap();
    for (found, (outcome, name)) in outcomes.iter().zip(&expected) {
        assert_eq!(found, outcome, "{name}");
    }
}

#[test]
fn stored_cases_have_every_refusal() {
    let cases = evaluation::cases(EVALUATION).unwrap();
    let numbers: BTreeSet<u8> =
        cases.iter().filter_map(|case| case.expected.err()).map(|refusal| refusal.number).collect();
    let all: Vec<u8> = numbers.into_iter().collect();
    assert_eq!(all, [1, 2, 3, 4, 5, 6, 7, 8, 9, 13, 14, 15, 16]);
}

fn message(text: &str) -> String {
    evaluation::cases(text).err().unwrap_or_else(|| "no error".to_string())
}

#[test]
fn a_wrong_expectation_is_named() {
    assert_eq!(
        message("case sum\n\n  value (+ v0 1:1) of u8: 255 = 0"),
        "case sum, line 3: expected holds, the evaluator says fails"
    );
    assert_eq!(
        message("case x\nexpect fails with 1\nnode\nvars u8\ncond v0"),
        "case x, line 2: expected fails, the evaluator says holds"
    );
}

#[test]
fn unclear_cases_are_named() {
    let unclear = "case x: line 2: 'value EXPRESSION of TYPES: VALUES = RESULT' is needed";
    assert_eq!(message("case x\nvalue v0"), unclear);
    assert_eq!(message("case x\nvalue v0 of u9: 1 = 1"), "case x: line 2: 'u9' is not a type");
    assert_eq!(message("case x\nvalue v0 of s8: 128 = 1"), "case x: line 2: 128 is no value of s8");
    assert_eq!(message("case x\nvalue v0 of s8: 1"), "case x: line 2: '1' has no result");
    let each = "case x: line 2: '1 2 = 3' needs a value for each type";
    assert_eq!(message("case x\nvalue v0 of s8: 1 2 = 3"), each);
    let expectation = "case x: line 2: unclear expectation 'expect maybe'";
    assert_eq!(message("case x\nexpect maybe"), expectation);
    let either = "case x: either lines 'expect ...' and a sheet, or lines 'value ...'";
    assert_eq!(message("case x\nnode\ncond true"), either);
}

#[test]
fn generated_nodes_are_accepted_and_their_values_fit() {
    let (mut holds, mut zero) = (0, 0);
    for index in 0..8000 {
        let made = made(9, index);
        let sheet = Sheet { nodes: vec![made.node.clone()], ..Default::default() };
        let bytes = encode(&sheet).bytes;
        let values = made.values(&mut Random::new(4, index));
        match evaluation(&bytes, 0, &values) {
            Ok(found) => holds += usize::from(found),
            Err(refusal) => {
                assert_eq!(refusal.number, 14, "node {index}: {refusal}");
                zero += 1;
            }
        }
    }
    assert!(holds > 2500 && zero > 150, "{holds} {zero}");
}

#[test]
fn the_table_has_every_operator_on_every_pair_of_types() {
    let mut seen = BTreeSet::new();
    for entry in 0..TABLE {
        let node = made(1, 2 * entry).node;
        let records = &node.condition;
        let first = records.iter().find(|record| record.children() > 0).unwrap();
        seen.insert((format!("{first:?}"), node.variables));
    }
    assert_eq!(seen.len() as u64, TABLE);
}

#[test]
fn generated_nodes_have_every_kind_of_record_at_every_type() {
    let mut seen = BTreeSet::new();
    let mut longest = [0; 3];
    for index in 0..4000 {
        let node = made(2, 2 * index + 1).node;
        let mut parts = vec![&node.condition];
        for statement in &node.statements {
            if let Statement::Assign { value, .. } = statement {
                parts.push(value);
            }
        }
        for record in parts.iter().flat_map(|part| part.iter()) {
            seen.insert(match record {
                Record::Variable(number) => {
                    format!("variable {}", node.variables[*number as usize])
                }
                Record::Constant { width, .. } => format!("constant {width}"),
                _ => format!("{record:?}"),
            });
        }
        let sizes = [node.condition.len(), node.statements.len(), node.variables.len()];
        (0..3).for_each(|at| longest[at] = longest[at].max(sizes[at]));
    }
    // Ten types of variables, four widths, true, false, ten casts, eighteen
    // operators, the ternary.
    assert_eq!(seen.len(), 10 + 4 + 2 + 10 + 18 + 1, "{seen:?}");
    assert!(longest[0] > 110 && longest[1] > 60 && longest[2] > 30, "{longest:?}");
}
