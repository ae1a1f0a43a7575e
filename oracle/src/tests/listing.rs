//! Tests of the listing that is due, with lines written out by hand.

use crate::answers::{answers, Answer};
use crate::judges::listing::{due, Due, LINE};
use crate::judges::reader::Refusal;
use crate::sheets::from_text::write;

/// Two branches, 0x12 to 0x20 and 0x16 to 0x30, with a block that ends in the
/// first, one that ends in the second and one that ends in the first again,
/// and two nodes: one whose last branch is the second, one without a branch.
const SHEET: &str = "\
insn 0x10 xor eax eax
insn 0x12 je target 0x20
insn 0x14 not eax
insn 0x16 jne target 0x30
block 0x10 0x14
block 0x14 0x18
block 0x12 0x14
node
  cond true
  addresses 0x12 0x16 0x14
node
  cond false
  addresses 0x99
";

fn parsed(words: &str) -> Vec<Answer> {
    answers(&words.split(' ').collect::<Vec<&str>>()).unwrap()
}

fn found(blocks: &str, nodes: &str, length: usize) -> Due {
    let bytes = write(SHEET).unwrap_or_else(|error| panic!("{error}")).bytes;
    due(&bytes, &parsed(blocks), &parsed(nodes), length)
}

fn line(site: u64, target: u64, verdict: u8, reason: u8) -> Vec<u8> {
    let mut line = [site.to_le_bytes(), target.to_le_bytes()].concat();
    line.extend([verdict, reason]);
    line
}

#[test]
fn a_site_has_the_first_verdict_and_lines_rise_by_site() {
    let both = [line(0x12, 0x20, 1, 1), line(0x16, 0x30, 0, 6)].concat();
    assert_eq!(found("a1 u u", "v6 a3", 100), Due::Lines(both.clone()));
    assert_eq!(found("u u a1", "v6 a3", 100), Due::Lines(both));
    let first = line(0x12, 0x20, 0, 1);
    assert_eq!(found("v1 u a1", "u v3", 100), Due::Lines(first));
    let block = line(0x16, 0x30, 1, 1);
    assert_eq!(found("u a1 u", "v6 u", 100), Due::Lines(block));
    assert_eq!(found("u u u", "u a3", 0), Due::Lines(Vec::new()));
}

#[test]
fn a_list_is_long_enough_or_refused() {
    let length = write(SHEET).unwrap_or_else(|error| panic!("{error}")).bytes.len();
    let short = Due::Refused(Refusal { number: 12, place: length });
    assert_eq!(found("a1 u u", "v6 u", 2 * LINE - 1), short);
    assert!(matches!(found("a1 u u", "v6 u", 2 * LINE), Due::Lines(_)));
}

#[test]
fn the_first_node_that_is_refused_wins() {
    let Due::Refused(refusal) = found("a1 u u", "r11 r10", 0) else { panic!("not refused") };
    assert_eq!(refusal.number, 11);
    let Due::Refused(refusal) = found("a1 u u", "u r10", 0) else { panic!("not refused") };
    assert_eq!(refusal.number, 10);
    assert_eq!(found("a1 u u", "- r10", 0), Due::Open);
}
