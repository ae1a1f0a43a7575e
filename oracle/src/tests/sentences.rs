//! Tests of what compares sentences: their lines, the counts, the generator, the
//! stored ones.

use crate::cases::sentence_sheet;
use crate::judges::reader::read;
use crate::sentences::{line, of_line, Met};
use crate::sheets::syntax::Operand;
use crate::stored;
use crate::stored::blocks;

#[test]
fn lines_are_taken_apart() {
    for sentences in [&[][..], &[""], &["eax is 0 here"], &["", "stc sets the carry", ""]] {
        let line = line(sentences.iter().copied());
        assert_eq!(of_line(&line).unwrap(), sentences);
    }
    assert_eq!(line(["a", "", "b"].into_iter()), "sentences|a||b");
    for other in ["", "refused 1 at 0", "blocks a1", "sentence|a", "no line"] {
        assert_eq!(of_line(other), None, "{other}");
    }
}

#[test]
fn what_is_not_known_is_a_fault() {
    let print = |sentence: &str| {
        let mut met = Met::default();
        met.note(sentence);
        met.print()
    };
    assert!(print(""));
    assert!(print("eax is 0 here"));
    assert!(print("ah is 0 and al is -9 here"));
    assert!(print("stc sets the carry, and cmc turns it round, and r8b is compared with itself"));
    assert!(!print("eax is zero"));
    assert!(!print("r16 is 0 here"));
    assert!(!print("stc sets the carry, and"));
}

#[test]
fn what_is_not_met_in_a_long_run_is_a_fault() {
    let mut met = Met::default();
    for _ in 0..19_999 {
        met.note("eax is 0 here");
    }
    assert!(met.print());
    met.note("eax is 0 here");
    assert!(!met.print());
}

#[test]
fn sheets_for_sentences_are_accepted_and_some_are_full() {
    let (mut full, mut names) = (0, std::collections::BTreeSet::new());
    for index in 0..4_000 {
        let sheet = read(&sentence_sheet::sheet(5, index, false)).unwrap().sheet;
        full += usize::from(sheet.instructions.len() == 2_048);
        let operands = sheet.instructions.iter().filter_map(|insn| insn.first);
        names.extend(operands.filter_map(|operand| match operand {
            Operand::Register(r) => Some((r.index, r.size, r.offset)),
            _ => None,
        }));
    }
    assert!(full > 3, "{full}");
    assert_eq!(names.len(), 68);
}

#[test]
fn cases_by_hand_have_a_sentence_for_each_decided_block() {
    let cases = blocks::cases(stored::BLOCKS).unwrap();
    let stated: Vec<&Vec<String>> =
        cases.iter().filter_map(|case| case.sentences.as_ref()).collect();
    assert!(stated.len() > 40, "{}", stated.len());
    let longest = stated.iter().flat_map(|list| list.iter()).map(String::len).max();
    assert_eq!(longest, Some(49_182));
    let mut met = Met::default();
    stated.iter().flat_map(|list| list.iter()).for_each(|sentence| met.note(sentence));
    assert!(met.print());
}

#[test]
fn a_sentence_too_few_is_named() {
    let case = |lines: &str| {
        blocks::cases(&format!(
            "case x\nexpect blocks a1 u\n{lines}\ninsn 1 stc\ninsn 2 jb target 9\nblock 1 3\nblock 2 3"
        ))
    };
    assert_eq!(case("").unwrap()[0].sentences, None);
    let due = Some(vec!["stc sets the carry".to_string(), String::new()]);
    assert_eq!(case("sentence stc sets the carry").unwrap()[0].sentences, due);
    let error = case("sentence a\nsentence b").err().unwrap();
    assert_eq!(error, "case x: a line 'sentence ...' for each decided block is needed");
    assert!(case("sentence a[2 b").is_err());
    assert_eq!(case("sentence a[2 , b] c").unwrap()[0].sentences.as_ref().unwrap()[0], "a, b, b c");
}
