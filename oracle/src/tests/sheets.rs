//! Tests of writer, reader, dump, generator and stored cases.

use crate::cases::any_sheet::{Generator, SMALL};
use crate::cases::damaged_sheet;
use crate::comparisons::frames::{ask_reading, serve, Question};
use crate::judges::reader::{line, read};
use crate::sheets::encode::{encode, place_of_cut};
use crate::sheets::from_text::write;
use crate::sheets::names::operator;
use crate::sheets::syntax::*;
use crate::sheets::to_text::{dump, text};
use crate::sheets::types;
use crate::stored::reading;
use crate::stored::{self, List};

fn bytes_of(text: &str) -> Vec<u8> {
    write(text).unwrap_or_else(|error| panic!("{error}")).bytes
}

fn answer_to(text: &str) -> String {
    line(&read(&bytes_of(text)))
}

fn message(text: &str) -> String {
    match write(text) {
        Ok(_) => "no error".to_string(),
        Err(error) => error.to_string(),
    }
}

const FIRST: &str = "insn 0x10 xor eax eax\ninsn 0x12 je target 0x20\nblock 0x10 0x14\n";

#[test]
fn writer_gives_the_bytes_of_the_first_example() {
    let mut expected = vec![2, 0];
    expected.extend([0x0C, 0x10, 0, 0, 0, 0, 0, 0, 0, 11]);
    expected.extend([0, 1, 0, 32, 0, 0, 1, 0, 32, 0]);
    expected.extend([0x01, 0x12, 0, 0, 0, 0, 0, 0, 0, 16]);
    expected.extend([0x20, 0, 0, 0, 0, 0, 0, 0]);
    expected.extend([1, 0]);
    expected.extend([0x10, 0, 0, 0, 0, 0, 0, 0]);
    expected.extend([0x14, 0, 0, 0, 0, 0, 0, 0]);
    expected.extend([0, 0]);
    assert_eq!(bytes_of(FIRST), expected);
    assert_eq!(answer_to(FIRST), "accepted 2 1 0 at 2 42 60");
}

#[test]
fn writer_gives_postfix_records() {
    let sheet = bytes_of("node\nvars u32\nassign 0 (+ v0 1:4)\ncond (? true v0 (cast u8 v0))\n");
    let mut expected = vec![0, 0, 0, 0, 1, 0];
    expected.extend([1, 0, 6]);
    expected.extend([1, 0, 3, 0, 3, 0]);
    expected.extend([0, 0, 1, 4, 1, 0, 0, 0, 0, 0, 0, 0, 7, 0]);
    expected.extend([5, 0, 2, 0, 0, 0, 0, 6, 4, 8]);
    expected.extend([0, 0]);
    assert_eq!(sheet, expected);
}

#[test]
fn writer_forces_counts_maps_and_bytes() {
    assert_eq!(bytes_of("stop"), []);
    assert_eq!(bytes_of("raw 01 02ff\nstop"), [1, 2, 0xFF]);
    assert_eq!(bytes_of("insns count 9\nstop\nraw aa"), [9, 0, 0xAA]);
    assert_eq!(bytes_of("blocks count 7\nstop"), [0, 0, 7, 0]);
    let forced = bytes_of("insn 1 stc map 64 writes count 9 al\nstop");
    assert_eq!(forced, [1, 0, 64, 1, 0, 0, 0, 0, 0, 0, 0, 1, 9, 0, 1, 0, 8, 0]);
    let node = bytes_of(
        "node\nvars count 5 u8\nstatements count 4\ncond records count 3 [ ]\naddresses count 2",
    );
    assert_eq!(node, [0, 0, 0, 0, 1, 0, 5, 0, 4, 4, 0, 3, 0, 2, 0]);
}

#[test]
fn writer_repeats_words_and_lines() {
    let long = bytes_of(
        "repeat 3 {\ninsn +2 stc\n}\nnode\nvars repeat 2 { u8 repeat 2 { s8 } }\ncond true",
    );
    let same =
        bytes_of("insn 2 stc\ninsn 4 stc\ninsn 6 stc\nnode\nvars u8 s8 s8 u8 s8 s8\ncond true");
    assert_eq!(long, same);
}

#[test]
fn writer_says_line_and_fault() {
    assert_eq!(message("\ninsn 0x10 jump"), "line 2: a mnemonic is expected, not 'jump'");
    assert_eq!(message("insn 0 mov eax eex"), "line 1: unknown operand 'eex'");
    assert_eq!(message("insn 0 mov al bl cl"), "line 1: a third operand");
    assert_eq!(message("insn zero stc"), "line 1: an address is expected, not 'zero'");
    assert_eq!(message("block 1"), "line 1: the line ends where an address is expected");
    assert_eq!(message("block 1 2 3"), "line 1: '3' is one word too many");
    assert_eq!(
        message("block 1 2\n\ninsn 1 stc"),
        "line 3: instructions come first, then blocks, then nodes"
    );
    assert_eq!(message("cond true"), "line 1: this line belongs into a node");
    assert_eq!(message("node\nvars u8\n"), "line 2: the node has no condition");
    assert_eq!(message("node\ncond (+ v0 w1)"), "line 2: unknown record 'w1'");
    assert_eq!(message("node\ncond (+ v0 v1"), "line 2: the line ends where ')' is expected");
    assert_eq!(message("node\ncond +"), "line 2: '+' needs parentheses around it");
    assert_eq!(
        message("node\ncond true\nother"),
        "line 3: a node's parts are vars, statements, cond, addresses"
    );
    assert_eq!(message("raw 0x"), "line 1: '0x' is not pairs of hexadecimal digits");
    assert_eq!(message("repeat {"), "line 1: repeat needs a number and a {");
    assert_eq!(message("repeat 2 { insn 1 stc"), "line 1: this { has no }");
    assert_eq!(message("insn 0 stc flags 300"), "line 1: a flag byte '300' is above 255");
    assert_eq!(message("jump"), "line 1: unknown line 'jump'");
}

#[test]
fn register_names_and_registers_agree() {
    for size in [8, 16, 32, 64] {
        for index in 0..16 {
            let register = Register { class: 1, index, size, offset: 0 };
            let name = register_name(register).expect("each has a name");
            assert_eq!(register_by_name(name), Some(register));
        }
    }
    assert_eq!(register_by_name("bh"), Some(Register { class: 1, index: 3, size: 8, offset: 8 }));
    assert_eq!(register_by_name("r16"), None);
}

#[test]
fn static_types_by_pairs() {
    // Types 0 to 9 against 0 to 9: the common type of the two, by hand.
    let rows = [
        "2223226772",
        "2223226772",
        "2223226772",
        "3333333773",
        "2223226772",
        "2223226772",
        "6663666776",
        "7777777777",
        "7777777777",
        "2223226772",
    ];
    for (a, row) in rows.iter().enumerate() {
        for (b, wanted) in row.bytes().enumerate() {
            let variables = [a as u8, b as u8];
            let sum = [Record::Variable(0), Record::Variable(1), Record::Binary(operator::ADD)];
            assert_eq!(types::of_expression(&sum, &variables), Some(wanted - b'0'), "{a} {b}");
        }
    }
}

#[test]
fn reader_places_sections() {
    assert_eq!(answer_to(""), "accepted 0 0 0 at 2 4 6");
    assert_eq!(answer_to("insn 0 stc\nblock 1 2\nnode\ncond true"), "accepted 1 1 1 at 2 14 32");
}

#[test]
fn reader_takes_the_lower_number_at_one_byte() {
    assert_eq!(answer_to("insn 0 inc eax flags 32"), "refused 2 at 17");
    assert_eq!(answer_to("insn 0 add eax reg(1,0,24,0)"), "refused 5 at 18");
    assert_eq!(answer_to("node\ncond records [ true 256:1 ]"), "refused 7 at 23");
    assert_eq!(answer_to("node\ncond records [ 256:1 true ]"), "refused 8 at 14");
    assert_eq!(answer_to("node\ncond records [ op 18 ]"), "refused 2 at 13");
    assert_eq!(answer_to("node\ncond records [ ]"), "refused 3 at 10");
    assert_eq!(answer_to("node\nvars u32\nassign 0 256:1\ncond true"), "refused 8 at 17");
}

#[test]
fn stored_cases_hold() {
    let cases = reading::cases(stored::READING).unwrap();
    assert!(cases.len() > 500);
    let mut list = List::default();
    reading::store(&cases, &mut list);
    assert_eq!(list.lines.len(), cases.len());
    assert!(list.frames.len() < 500_000);
}

#[test]
fn a_wrong_expectation_is_named() {
    let error = reading::cases("case three\nexpect refused 1 at 3\nhex 000000").err().unwrap();
    assert!(error.starts_with("case three: expected Refused"), "{error}");
    assert!(error.ends_with("the reader says refused 1 at 2"), "{error}");
    let error = reading::cases("case x\nexpect refused 1 at 0\n\ninsn").err().unwrap();
    assert_eq!(error, "case x: line 4: the line ends where an address is expected");
}

#[test]
fn generated_sheets_without_slips_are_accepted_and_round_trip() {
    for index in 0..4000 {
        let sheet = Generator::new(7, index, 0).sheet(SMALL);
        let bytes = encode(&sheet).bytes;
        let accepted = read(&bytes).unwrap_or_else(|refusal| panic!("sheet {index}: {refusal}"));
        assert_eq!(accepted.sheet, sheet, "sheet {index}");
        assert_eq!(bytes_of(&text(&sheet)), bytes, "sheet {index}");
    }
}

#[test]
fn accepted_sheets_of_the_comparison_round_trip() {
    for index in 0..4000 {
        let bytes = damaged_sheet::sheet(11, index);
        match read(&bytes) {
            Ok(_) => assert_eq!(bytes_of(&dump(&bytes)), bytes, "sheet {index}"),
            Err(refusal) => assert!(dump(&bytes).starts_with(&refusal.to_string())),
        }
    }
}

#[test]
fn cuts_of_generated_sheets_are_refused_at_the_cut_field() {
    for index in 0..60 {
        let encoded = encode(&Generator::new(3, index, 0).sheet(SMALL));
        for length in 0..encoded.bytes.len() {
            let place = place_of_cut(&encoded.fields, length);
            let expected = format!("refused 1 at {place}");
            assert_eq!(line(&read(&encoded.bytes[..length])), expected, "sheet {index}");
        }
    }
}

#[test]
fn the_comparison_meets_every_number() {
    let mut seen = [0; 10];
    for index in 0..20_000 {
        let number =
            read(&damaged_sheet::sheet(1, index)).map_or_else(|refusal| refusal.number, |_| 0);
        seen[number as usize] += 1;
    }
    assert!(seen.iter().all(|count| *count > 20), "{seen:?}");
    assert!(seen[0] > 8000, "{seen:?}");
}

#[test]
fn dump_of_a_refused_sheet_marks_the_place() {
    let shown = dump(&bytes_of("insn 0 stc\ninsn 0 stc"));
    let lines: Vec<&str> = shown.lines().collect();
    assert_eq!(lines[0], "refused 4 at 13");
    assert_eq!(lines[2], "       0  02 00 00 00 00 00 00 00 00 00 00 01 00 00 00 00");
    assert_eq!(lines[3], "                                                 ^^");
    assert_eq!(lines[4], "      16  00 00 00 00 00 01 00 00 00 00");
    assert_eq!(dump(&[]).lines().last(), Some("          ^^"));
}

#[test]
fn answers_follow_framed_sheets() {
    let mut input = Vec::new();
    ask_reading(&mut input, &bytes_of(FIRST));
    ask_reading(&mut input, &[]);
    ask_reading(&mut input, &[0; 7]);
    let mut output = Vec::new();
    serve(&mut input.as_slice(), &mut output, |question| match question {
        Question::Reading(sheet) => Ok(line(&read(sheet))),
        _ => panic!("reading was asked for"),
    })
    .unwrap();
    let expected = "accepted 2 1 0 at 2 42 60\nrefused 1 at 0\nrefused 1 at 6\n";
    assert_eq!(String::from_utf8(output).unwrap(), expected);
}

#[test]
fn samples_are_what_their_texts_say() {
    let samples: [(&str, &[u8]); 3] = [
        (
            include_str!("../../../examples/first.txt"),
            include_bytes!("../../../examples/first.sheet"),
        ),
        (
            include_str!("../../../examples/pump_starter.txt"),
            include_bytes!("../../../examples/pump_starter.sheet"),
        ),
        (
            include_str!("../../../examples/probe_table.txt"),
            include_bytes!("../../../examples/probe_table.sheet"),
        ),
    ];
    for (text, sheet) in samples {
        assert_eq!(bytes_of(text), sheet);
        assert!(read(sheet).is_ok());
        assert_eq!(bytes_of(&dump(sheet)), sheet);
    }
}
