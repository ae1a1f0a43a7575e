//! Listings and their reports, with a judge of these tests in the product's place.

use crate::disassembly::elf::Span;
use crate::disassembly::judge::{decided, written, Decided};
use crate::disassembly::listing::{list, Job, Listing};
use crate::disassembly::program::{of_text, Program};
use crate::disassembly::undecided::Cause;
use crate::disassembly::{annotated, json, report, steps, text};
use crate::sheets::names::mnemonic;
use crate::sheets::reader;
use crate::tests::{addressed, function};

/// Always for each je of a block in which `xor eax, eax` is the last instruction that
/// sets flags, never for each such jne.
fn judge(sheet: &[u8]) -> Result<Vec<Decided>, String> {
    let sheet = reader::read(sheet).map_err(|refusal| refusal.to_string())?.sheet;
    let mut found = Vec::new();
    for block in &sheet.blocks {
        let inside = |at: u64| block.from <= at && at < block.to;
        let code: Vec<_> = sheet.instructions.iter().filter(|i| inside(i.address)).collect();
        let last = code[code.len() - 1];
        let setter = code.iter().rfind(|i| i.mnemonic == mnemonic::XOR || i.flags > Some(0));
        let Some(target) = last.target else { continue };
        if setter.is_some_and(|i| i.mnemonic == mnemonic::XOR && i.first == i.second) {
            let always = last.mnemonic == mnemonic::JE;
            found.push(Decided { site: last.address, target, always, reason: 1 });
        }
    }
    Ok(found)
}

fn listed(program: &Program) -> Listing {
    list(program, &Job { judge: &judge, save: None, progress: &|_, _| {} }).unwrap()
}

/// A branch that is always taken over one instruction, and one that is never.
const CODE: &[&str] = &[
    "mov    ecx,0x1",
    "xor    eax,eax",
    "je     1004 <f+0x4>",
    "nop",
    "xor    edx,edx",
    "jne    1007 <f+0x7>",
    "ret",
    "ret",
];

#[test]
fn a_decided_branch_has_the_instructions_that_decide_it() {
    let code = function(CODE);
    let program = of_text(text::read(&code, None).unwrap());
    let listing = listed(&program);
    let found: Vec<_> =
        listing.branches.iter().map(|(at, b)| (*at, b.target, b.always, b.by.clone())).collect();
    let due = [(0x1002, 0x1004, true, vec![0x1001]), (0x1005, 0x1007, false, vec![0x1004])];
    assert_eq!(found, due);
}

#[test]
fn what_only_a_dead_edge_leads_to_is_dead() {
    let code = function(CODE);
    let program = of_text(text::read(&code, None).unwrap());
    assert_eq!(listed(&program).dead, [3..4, 7..8]);
    // Entered by its address, or by a jump.
    for other in ["mov    ecx,0x1003", "js     1003 <f+0x3>"] {
        let code = code.replace("mov    ecx,0x1", other);
        let program = of_text(text::read(&code, None).unwrap());
        assert_eq!(listed(&program).dead, [7..8], "{other}");
    }
    // Its bytes are also run as other instructions, here from its second on.
    let wide = addressed(&[
        (0x1000, "xor    eax,eax"),
        (0x1001, "je     1008 <f+0x8>"),
        (0x1003, "cmp    eax,0x90909090"),
        (0x1008, "ret"),
    ]);
    let mut program = of_text(text::read(&wide, None).unwrap());
    assert_eq!(listed(&program).dead, [2..3]);
    program.outside.hidden.push(Span { start: 0x1004, end: 0x1005 });
    assert_eq!(listed(&program).dead, []);
    // A jump from dead code does not count; one to an unknown address opens everything.
    let from_dead = code.replace("nop", "jmp    1007 <f+0x7>");
    let program = of_text(text::read(&from_dead, None).unwrap());
    assert_eq!(listed(&program).dead, [3..4, 7..8]);
    let open = code.replace("nop", "jmp    rax");
    let program = of_text(text::read(&open, None).unwrap());
    assert_eq!(listed(&program).dead, []);
}

#[test]
fn claims_name_verdicts_and_what_is_dead() {
    let code = function(CODE);
    let program = of_text(text::read(&code, None).unwrap());
    let claims = steps::written(&program, &listed(&program));
    let last: Vec<&str> = claims.lines().map(|line| line.split(' ').next_back().unwrap()).collect();
    assert_eq!(last, ["-", "-", "always", "dead", "-", "never", "-", "dead"]);
}

/// The cause for the branch that ends a function.
fn cause(instructions: &[&str]) -> Option<Cause> {
    let code = function(&[instructions, &["je     1000 <f>"]].concat());
    let program = of_text(text::read(&code, None).unwrap());
    let listing = listed(&program);
    listing.undecided.into_keys().next()
}

#[test]
fn causes_are_followed_back() {
    let cases: &[(&[&str], Cause)] = &[
        (&["nop"], Cause::Flag),
        (&["stc"], Cause::Flag),
        (&["test   eax,eax"], Cause::Register),
        (&["mov    al,0x0", "test   eax,eax"], Cause::Register),
        (&["cmp    DWORD PTR [rax],0x0"], Cause::Memory),
        (&["mov    eax,DWORD PTR [rax]", "test   eax,eax"], Cause::Memory),
        (&["movzx  eax,BYTE PTR [rax]", "test   eax,eax"], Cause::Memory),
        (&["pop    rax", "test   eax,eax"], Cause::Memory),
        (&["call   2000 <g>", "test   eax,eax"], Cause::Call),
        (&["call   2000 <g>", "cmp    eax,DWORD PTR [rax]"], Cause::Memory),
        (&["lea    eax,[rax+0x1]", "test   eax,eax"], Cause::Instruction),
        (&["shl    eax,1"], Cause::Instruction),
        (&["mov    ecx,DWORD PTR [rax]", "test   eax,eax"], Cause::Register),
        (&["test   eax,eax", "jmp    rax"], Cause::OpenPart),
    ];
    for (instructions, due) in cases {
        assert_eq!(cause(instructions), Some(*due), "{instructions:?}");
    }
}

#[test]
fn the_report_is_sorted_and_whole() {
    let code = function(CODE);
    let program = of_text(text::read(&code, None).unwrap());
    let lines = report::lines(&program, &listed(&program));
    let due = "1002 <f+0x2> je 1004 <f+0x4> always\n  by 1001 xor    eax,eax\n\
               1005 <f+0x5> jne 1007 <f+0x7> never\n  by 1004 xor    edx,edx\nfunctions 1";
    assert!(lines.join("\n").contains(due), "{lines:#?}");
    assert!(lines.contains(&"  always 1, never 1, undecided 0".to_string()));
    assert!(lines.contains(&"dead by the verdicts: 2 instructions in 2 ranges".to_string()));
    assert!(lines.contains(&"  1003 <f+0x3> to 1004".to_string()));
}

#[test]
fn the_disassembly_is_annotated() {
    let code = function(CODE);
    let program = of_text(text::read(&code, None).unwrap());
    let lines = annotated::lines(&program, &listed(&program));
    let at = lines.iter().position(|line| line == "\n1000 <f>:").unwrap();
    assert_eq!(lines[at + 3], "always     1002  je     1004 <f+0x4>");
    assert_eq!(lines[at + 4], "dead       1003  nop");
    assert_eq!(lines[at + 5], "           1004  xor    edx,edx");
}

#[test]
fn json_has_names_with_any_character() {
    let code = function(CODE).replace("<f>", "<a\"b\\>");
    let program = of_text(text::read(&code, None).unwrap());
    let lines = json::lines(&program, &listed(&program)).join("\n");
    let due = "  {\"address\": \"0x1002\", \"shown\": \"1002 <a\\\"b\\\\+0x2>\", \
               \"function\": \"0x1000\", \"jump\": \"je\", \"target\": \"0x1004\", \
               \"verdict\": \"always\", \"by\": [\"0x1001\"]},";
    assert!(lines.contains(due), "{lines}");
    assert!(
        lines.contains("\"dead\": [\n  {\"from\": \"0x1003\", \"to\": \"0x1004\"},"),
        "{lines}"
    );
}

#[test]
fn the_lines_of_the_product_are_read() {
    let mut line = [0x12u64.to_le_bytes(), 0x20u64.to_le_bytes()].concat();
    line.extend([1, 1]);
    let branches = decided(&line).unwrap();
    assert_eq!(written(&branches), "branches 1\n0000000000000012 0000000000000020 always 1\n");
    assert!(decided(&line[..17]).is_none());
}
