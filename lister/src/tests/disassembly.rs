//! The lister: the parser, the table, blocks and sheets.

use crate::disassembly::bits::Bits;
use crate::disassembly::blocks::leaders;
use crate::disassembly::control_flow::{self, Outside};
use crate::disassembly::elf::{self, File, Section, Segment, Span};
use crate::disassembly::hidden::{self, Decoded, Run};
use crate::disassembly::instruction::{listed, Flow, Standing};
use crate::disassembly::sheets::{self, Counts};
use crate::disassembly::steps::{changes, Changes};
use crate::disassembly::text::{self, Disassembly, Line};
use crate::disassembly::{pointers, table, unwinding};
use crate::sheets::encode::encode;
use crate::sheets::names::mnemonic;
use crate::sheets::reader;
use crate::sheets::syntax::Sheet;
use crate::sheets::to_text;
use crate::tests::{function, HEAD};
use std::collections::BTreeSet;

/// The text of an instruction's line in a sheet, without its address.
fn in_sheet(instruction: &str) -> String {
    let listed = listed(&Line { text: instruction, ..Line::default() });
    let sheet = Sheet { instructions: vec![listed.instruction], ..Sheet::default() };
    assert!(reader::read(&encode(&sheet).bytes).is_ok(), "{instruction}");
    to_text::text(&sheet).trim().replacen("insn 0x0 ", "", 1)
}

#[test]
fn instructions_become_what_the_manual_says_of_them() {
    let cases = [
        // Modelled as they are.
        ("xor    eax,eax", "xor eax eax"),
        ("mov    rax,QWORD PTR fs:0x28", "mov rax mem"),
        ("movabs rax,0x1122334455667788", "mov rax 0x1122334455667788"),
        ("cmp    cx,0xffff", "cmp cx 0xffff"),
        ("test   BYTE PTR [rip+0x2f0c],0x1        # 4010 <x>", "test mem 0x1 flags cf pf zf sf of"),
        ("sub    ah,BYTE PTR [rdx]", "sub ah mem"),
        ("stc", "stc"),
        ("not    r9b", "not r9b writes r9b"),
        ("inc    ebx", "inc ebx writes ebx flags pf zf sf of"),
        ("dec    QWORD PTR [rax]", "dec mem flags pf zf sf of"),
        ("neg    rdi", "neg rdi writes rdi flags cf pf zf sf of"),
        ("lock add DWORD PTR [rdi],eax", "add mem eax flags cf pf zf sf of"),
        // Jumps.
        ("je     1178 <f+0x12>", "je target 0x1178"),
        ("bnd jno 0x16", "jno target 0x16"),
        ("cs jne db16 <g>", "jne target 0xdb16"),
        ("jrcxz  1178 <f+0x12>", "jrcxz target 0x1178"),
        ("jecxz  1178 <f+0x12>", "jecxz target 0x1178"),
        ("loopne 1178 <f+0x12>", "other target 0x1178 writes rcx"),
        ("jmp    1178 <f+0x12>", "other"),
        ("notrack jmp rax", "other call"),
        // Not modelled: written registers and flags declared.
        ("lea    rdi,[rip+0xe9b]        # 2004 <x>", "other writes rdi"),
        ("data16 lea rdi,[rip+0x0]        # 85 <x>", "other writes rdi"),
        ("movzx  eax,BYTE PTR [rax]", "other writes eax"),
        ("imul   ecx", "other writes rax rdx flags cf pf zf sf of"),
        ("imul   eax,ecx,0x64", "other writes eax flags cf pf zf sf of"),
        ("div    rcx", "other writes rax rdx flags cf pf zf sf of"),
        ("shl    eax,1", "other writes eax flags cf pf zf sf of"),
        ("ror    dl,cl", "other writes dl flags cf of"),
        ("sete   al", "other writes al"),
        ("cmovne rax,rdx", "other writes rax"),
        ("adc    DWORD PTR [rax],0x1", "other flags cf pf zf sf of"),
        ("xchg   QWORD PTR [rdx],rax", "other writes rax"),
        ("xchg   rbx,rax", "other writes rbx rax"),
        ("lock cmpxchg DWORD PTR [rdi],ecx", "other writes rax flags cf pf zf sf of"),
        ("lock xadd DWORD PTR [rdi],ecx", "other writes ecx flags cf pf zf sf of"),
        ("lock cmpxchg16b XMMWORD PTR [rdi]", "other writes rax rdx flags zf"),
        ("push   rbp", "other writes rsp"),
        ("pop    rbp", "other writes rsp rbp"),
        ("leave", "other writes rsp rbp"),
        ("popf", "other writes rsp flags cf pf zf sf of"),
        ("sahf", "other flags cf pf zf sf"),
        ("cqo", "other writes rdx"),
        ("cdqe", "other writes rax"),
        ("rep stos QWORD PTR es:[rdi],rax", "other writes rcx rdi"),
        (
            "repz cmps BYTE PTR ds:[rsi],BYTE PTR es:[rdi]",
            "other writes rcx rsi rdi flags cf pf zf sf of",
        ),
        ("lods   al,BYTE PTR ds:[rsi]", "other writes rax rcx rsi"),
        ("cs nop WORD PTR [rax+rax*1+0x0]", "other"),
        ("endbr64", "other"),
        ("movups XMMWORD PTR [rsp],xmm0", "other"),
        ("vmovd  eax,xmm0", "other writes eax"),
        ("vpcmpeqb k1{k2},zmm0,ZMMWORD PTR [rax]", "other"),
        ("kmovd  ecx,k1", "other writes ecx"),
        ("ucomisd xmm0,xmm1", "other flags cf pf zf sf of"),
        ("pcmpistri xmm0,XMMWORD PTR [rdx],0x1a", "other writes rcx flags cf pf zf sf of"),
        ("fnstsw ax", "other writes ax"),
        ("fucomip st,st(1)", "other flags cf pf zf sf of"),
        // Moves of segment, control and debug registers.
        ("mov    eax,ds", "other writes eax"),
        ("mov    fs,eax", "other"),
        ("mov    rax,cr0", "other writes rax flags cf pf zf sf of"),
        ("mov    dr7,rax", "other flags cf pf zf sf of"),
        // Calls, and what is not known.
        ("call   1030 <puts@plt>", "other call"),
        ("data16 rex.W call 1030 <__tls_get_addr@plt>", "other call"),
        ("repz ret", "other call"),
        ("syscall", "other call"),
        ("in     al,dx", "other call"),
        ("pop    fs", "other writes rsp"),
        ("lock add eax,ebx", "other call"),
        ("rep add eax,ebx", "other call"),
        ("data16 je 1178 <f+0x12>", "other call"),
        ("xbegin 1178 <f+0x12>", "other call"),
        ("frobnicate eax", "other call"),
        ("add    eax,tmm0", "other call"),
        ("(bad)", "other call"),
        ("rex.W", "other call"),
    ];
    for (instruction, due) in cases {
        assert_eq!(in_sheet(instruction), due, "{instruction}");
    }
}

#[test]
fn control_goes_where_the_instruction_says() {
    let flow = |text| listed(&Line { text, ..Line::default() }).flow;
    assert_eq!(flow("jmp    1178 <f+0x12>"), Flow::Jump(0x1178));
    assert_eq!(flow("jmp    QWORD PTR [rax*8+0x1234]"), Flow::IndirectJump);
    assert_eq!(flow("data16 jmp rax"), Flow::IndirectJump);
    assert_eq!(flow("jmp    1178 <__x86_indirect_thunk_rax>"), Flow::IndirectJump);
    assert_eq!(flow("jmp    1178 <__x86_return_thunk>"), Flow::Jump(0x1178));
    assert_eq!(flow("retfq"), Flow::IndirectJump);
    assert_eq!(flow("iretq"), Flow::IndirectJump);
    assert_eq!(flow("data16 je 1178 <f+0x12>"), Flow::Branch(0x1178));
    assert_eq!(flow("xbegin 1178 <f+0x12>"), Flow::Branch(0x1178));
    assert_eq!(flow("loop   1178 <f+0x12>"), Flow::Branch(0x1178));
    assert_eq!(flow("call   rax"), Flow::Next);
    assert_eq!(flow("ud2"), Flow::Ends);
    assert_eq!(flow("(bad)"), Flow::Ends);
}

#[test]
fn the_table_has_each_name_once_and_none_that_is_modelled() {
    let names = table::names();
    let once: BTreeSet<&String> = names.iter().collect();
    assert_eq!(names.len(), once.len(), "a name stands twice");
    assert!(names.iter().all(|name| !mnemonic::NAMES.contains(&name.as_str())));
    let unknown = Line { text: "vpnothing xmm0", ..Line::default() };
    assert_eq!(listed(&unknown).standing, Standing::Unknown("vpnothing"));
}

#[test]
fn what_is_no_disassembly_is_refused() {
    let error = |text: &str| text::read(text, None).expect_err(text);
    assert!(error("").contains("no line names a file format"));
    assert!(error("hello\n").contains("line 1: no disassembly"));
    assert!(error(&HEAD.replace("elf64-x86-64", "elf64-littleaarch64")).contains("aarch64"));
    assert!(error(HEAD).contains("no instruction"));
    assert!(error(&function(&["mov    %eax,%ebx"])).contains("-M intel"));
    assert!(error(&function(&["%"])).contains("-M intel"));
    assert!(error(&function(&["90 "])).contains("bytes without an instruction"));
    assert!(error(&format!("{HEAD}{HEAD}")).contains("more than one file"));
    let relocation = function(&["nop"]) + "\t\t\t1000: R_X86_64_PLT32\tputs-0x4\n";
    assert!(error(&relocation).contains("not linked"));
    let falling = function(&["nop"]) + "    1000:\tnop\n";
    assert!(error(&falling).contains("does not rise"));
    assert!(error(&(function(&["nop"]) + "something else\n")).contains("no line of a disassembly"));
}

#[test]
fn files_of_other_kinds_are_refused() {
    let error = |bytes: &[u8]| elf::read(bytes).err().unwrap_or_default();
    let own = std::fs::read(std::env::current_exe().unwrap()).unwrap();
    let with = |at: usize, byte: u8| {
        let mut bytes = own.clone();
        bytes[at] = byte;
        bytes
    };
    assert_eq!(error(b"#!/bin/sh\n"), "no ELF file");
    assert!(error(&with(18, 183)).contains("neither for x86-64"));
    assert!(error(&with(4, 1)).contains("neither for x86-64"));
    assert!(error(&with(16, 1)).contains("not linked"));
    assert!(error(&with(16, 4)).contains("neither"));
    assert!(error(&own[..100]).contains("cut"));
    assert!(error(&[&own[..60], &[0, 0], &own[62..]].concat()).contains("cut"));
    assert_eq!(error(&own), "");
}

/// Addresses at which blocks start.
fn starts(text: &Disassembly, outside: &Outside) -> Vec<u64> {
    let control = control_flow::read(text, outside);
    let leaders = leaders(text, &control, outside);
    let lines = text.lines.iter().zip(&leaders.leads);
    lines.filter(|(_, leads)| **leads).map(|(line, _)| line.address).collect()
}

#[test]
fn blocks_start_at_entries() {
    let code =
        function(&["xor    eax,eax", "nop", "je     1004 <f+0x4>", "nop", "nop", "ret", "nop"]);
    let text = text::read(&code, None).unwrap();
    assert_eq!(starts(&text, &Outside::default()), [0x1000, 0x1003, 0x1004, 0x1006]);
    // A landing pad, or any other place that may be entered.
    let outside = Outside { entries: vec![0x1001], ..Outside::default() };
    assert_eq!(starts(&text, &outside), [0x1000, 0x1001, 0x1003, 0x1004, 0x1006]);
    let every: Vec<u64> = (0x1000..0x1007).collect();
    let unread = vec![Span { start: 0x1000, end: 0x1007 }];
    assert_eq!(starts(&text, &Outside { unread, ..Outside::default() }), every);
}

#[test]
fn a_call_an_address_and_a_gap_start_blocks() {
    let code = function(&["nop", "call   1003 <f+0x3>", "nop", "nop", "nop", "ret"]);
    assert_eq!(starts(&text::read(&code, None).unwrap(), &Outside::default()), [0x1000, 0x1003]);
    let code = function(&["nop", "lea    rax,[rip+0x1]        # 1003 <f+0x3>", "nop", "nop"]);
    assert_eq!(starts(&text::read(&code, None).unwrap(), &Outside::default()), [0x1000, 0x1003]);
    let code = function(&["nop", "mov    eax,0x1003", "nop", "nop"]);
    assert_eq!(starts(&text::read(&code, None).unwrap(), &Outside::default()), [0x1000, 0x1003]);
    let code =
        function(&["nop", "nop"]) + "\t...\n    1010:\tnop\n    1011:\tud2\n    1012:\tnop\n";
    assert_eq!(
        starts(&text::read(&code, None).unwrap(), &Outside::default()),
        [0x1000, 0x1010, 0x1012]
    );
}

#[test]
fn bytes_before_instructions_are_read() {
    let code = function(&["31 c0                \txor    eax,eax"]);
    // Bytes that go on, characters of data, and a gap that only the bytes show.
    let code = code + "    1002:\t48 b8 00 00 00 00 00 \tmovabs rax,0x0\n    1009:\t00 00 00 \n";
    let code = code + "    100c:\t41 42 43                     %\tC\n    100f:\t90 \tnop\n";
    let code = code + "    1012:\tc3                   \tret\n";
    let text = text::read(&code, None).unwrap();
    let lines: Vec<(u64, u64, bool)> =
        text.lines.iter().map(|line| (line.address, line.size, line.after_gap)).collect();
    let due = [(0x1000, 2, true), (0x1002, 10, false), (0x100f, 1, true), (0x1012, 1, true)];
    assert_eq!(lines, due);
    assert_eq!(text.lines[1].text, "movabs rax,0x0");
    // Control goes on where nothing is shown.
    let control = control_flow::read(&text, &Outside::default());
    assert_eq!(control.unseen, [0x100c, 0x1010]);
}

#[test]
fn names_may_have_any_character() {
    let code = function(&["call   1000 <file format b>"]).replace("<f>", "<a: file format b>");
    assert_eq!(text::read(&code, None).unwrap().labels[0].name, "a: file format b");
}

/// Whether the return at the end of a function's lines is taken for a jump.
fn returns_elsewhere(instructions: &[&str]) -> bool {
    let code = function(&[instructions, &["ret"]].concat());
    let text = text::read(&code, None).unwrap();
    let span = Span { start: 0x1000, end: 0x1000 + text.lines.len() as u64 };
    let outside = Outside { functions: vec![span], ..Outside::default() };
    control_flow::read(&text, &outside).returns == 1
}

#[test]
fn a_return_to_what_was_put_on_the_stack_is_a_jump() {
    let jumps: &[&[&str]] = &[
        &["push   rax", "mov    ecx,0x1", "nop"],
        &["push   QWORD PTR [rax]", "push   rcx", "pop    rdx"],
        &["mov    QWORD PTR [rsp-0x8],rax", "sub    rsp,0x8"],
        &["sub    rsp,0x18", "mov    QWORD PTR [rsp+0x10],rax", "add    rsp,0x10"],
        &["sub    rsp,0x18", "mov    QWORD PTR [rsp+0x18],rax", "add    rsp,0x18"],
        &["add    QWORD PTR [rsp],0x5", "nop"],
        &["mov    DWORD PTR [rsp+0x4],eax"],
        &["mov    QWORD PTR [rsp+rax*8],rcx"],
        &["xchg   rax,QWORD PTR [rsp]"],
        &["movups XMMWORD PTR [rsp-0x8],xmm0"],
        &["push   rbp", "mov    rbp,rsp", "mov    QWORD PTR [rbp+0x8],rax", "leave"],
        &["push   rbp", "mov    rbp,rsp", "mov    QWORD PTR [rbp+0x8],rax", "pop    rbp"],
        &["mov    rdx,rsp", "mov    QWORD PTR [rdx],rax"],
        &["lea    rdx,[rsp-0x8]", "mov    QWORD PTR [rdx+0x8],rax"],
        &["mov    rdx,rsp", "mov    rcx,rdx", "mov    QWORD PTR [rcx],rax"],
        &["mov    rdx,rsp", "add    rdx,rcx", "mov    QWORD PTR [rdx+0x40],rax"],
        &["leave", "leave"],
        &["mov    rsp,rax"],
        &["lea    rsp,[rax+0x8]"],
        &["and    rsp,0xfffffffffffffff0"],
        &["pop    rsp"],
        &["pop    rdx"],
        &["frobnicate"],
    ];
    for case in jumps {
        assert!(returns_elsewhere(case), "{case:?}");
    }
}

#[test]
fn a_return_behind_what_a_function_puts_back_is_one() {
    let frame = ["push   rbp", "mov    rbp,rsp"];
    let returns: &[&[&str]] = &[
        &["nop"],
        &[frame[0], frame[1], "mov    QWORD PTR [rbp-0x8],rax", "pop    rbp"],
        &[frame[0], frame[1], "sub    rsp,0x10", "call   1000 <f>", "leave"],
        &[frame[0], frame[1], "push   rbx", "lea    rsp,[rbp-0x8]", "pop    rbx", "pop    rbp"],
        &["sub    rsp,0x20", "mov    QWORD PTR [rsp+0x18],rax", "add    rsp,0x20"],
        &["mov    QWORD PTR [rdi],rax"],
        &["lea    rdx,[rsp-0x10]", "mov    QWORD PTR [rdx+0x8],rax"],
        &["mov    rdx,rsp", "mov    rdx,rdi", "mov    QWORD PTR [rdx],rax"],
        &["cmp    QWORD PTR [rsp],0x5"],
        &["mov    rax,QWORD PTR [rsp]"],
    ];
    for case in returns {
        assert!(!returns_elsewhere(case), "{case:?}");
    }
}

#[test]
fn code_that_is_not_shown_is_followed_to_a_line() {
    let code =
        function(&["31 c0 \txor    eax,eax"]) + "    1002:\t3d 85 ff 90 90 \tcmp    eax,0x1\n";
    let code = code + "    1007:\t74 00 \tje     1009 <f+0x9>\n    1009:\tc3 \tret\n";
    let text = text::read(&code, None).unwrap();
    let decoded = |address, text: &str, moved| {
        let text = text.to_string();
        Decoded { address, bytes: String::new(), text, moved }
    };
    let followed = |lines: Vec<Decoded>| {
        let mut outside = Outside::default();
        let decode = |places: &[u64]| {
            let run = Run { lines: lines.clone(), rest: None };
            let is_start = |place: &u64| *place == 0x1003;
            Ok(places
                .iter()
                .map(|p| if is_start(p) { run.clone() } else { Run::default() })
                .collect())
        };
        hidden::follow(&text, &mut outside, vec![0x1003], &decode).unwrap();
        outside
    };
    let to_line = vec![decoded(0x1003, "test   edi,edi", 0), decoded(0x1007, "je     0x1009", 0)];
    assert_eq!(followed(to_line).possible, [0x1007]);
    let outside = followed(vec![decoded(0x1003, "jmp    0x3009", 0x2000)]);
    assert_eq!((outside.possible, outside.joins), (vec![0x1009], vec![(0x1003, 0x1009)]));
    assert_eq!(followed(vec![decoded(0x1003, "jmp    rax", 0)]).opens, [0x1003]);
    assert_eq!(followed(vec![decoded(0x1003, "data16 je 0x1009", 0)]).opens, [0x1003]);
    let pushed = vec![decoded(0x1003, "push   rax", 0), decoded(0x1004, "ret", 0)];
    assert_eq!(followed(pushed).opens, [0x1004]);
}

#[test]
fn lines_that_processors_read_otherwise_open_their_part() {
    let every: Vec<u64> = (0x1000..0x1003).collect();
    for line in ["(bad)", ".byte 0x3d", "data16 je 1000 <f>", "prefetch (bad)", "retw", "rex.W"] {
        let code = function(&["nop", "nop", line]);
        assert_eq!(starts(&text::read(&code, None).unwrap(), &Outside::default()), every, "{line}");
    }
    let code = function(&["66 66 48 e8 00 00 00 00 \tdata16 rex.W call 1000 <f>"]);
    let text = text::read(&code, None).unwrap();
    assert_eq!(control_flow::read(&text, &Outside::default()).unclear, []);
    let code = function(&["66 0f 85 00 00 \tjne    1005 <f+0x5>"]);
    let text = text::read(&code, None).unwrap();
    assert_eq!(control_flow::read(&text, &Outside::default()).unclear, [0x1000]);
    let code = [0x66, 0x0f, 0x85, 0, 1, 0, 0, 0x90];
    assert_eq!(control_flow::wide_target(&code, 0x1000), Some(0x1107));
    assert_eq!(
        control_flow::wide_target(&[0x66, 0xe9, 0xff, 0xff, 0xff, 0xff], 0x1000),
        Some(0x1005)
    );
}

#[test]
fn every_instruction_may_be_entered_where_a_jump_is_not_known() {
    let every: Vec<u64> = (0x1000..0x1004).collect();
    let code = function(&["nop", "nop", "jmp    rax", "nop"]);
    assert_eq!(starts(&text::read(&code, None).unwrap(), &Outside::default()), every);
    for put in ["push   rax", "mov    QWORD PTR [rsp],rax"] {
        let code = function(&["nop", put, "ret", "nop"]);
        assert_eq!(starts(&text::read(&code, None).unwrap(), &Outside::default()), every);
    }
    // Into an instruction, here the one at 1001.
    let code =
        function(&["nop", "nop", "nop", "ret"]).replace("1002:", "1005:").replace("1003:", "1006:");
    let into = code.clone() + "    1007:\tje     1003 <f+0x3>\n";
    let text = text::read(&into, None).unwrap();
    assert_eq!(starts(&text, &Outside::default()), [0x1000, 0x1001, 0x1005, 0x1006, 0x1007]);
    let text = text::read(&code, None).unwrap();
    assert_eq!(starts(&text, &Outside::default()), [0x1000]);
    let outside = Outside { entries: vec![0x1003], ..Outside::default() };
    assert_eq!(starts(&text, &outside), [0x1000, 0x1001, 0x1005, 0x1006]);
    let outside = Outside { possible: vec![0x1003, 0x1005], ..Outside::default() };
    assert_eq!(starts(&text, &outside), [0x1000, 0x1005]);
}

#[test]
fn parts_of_a_function_are_entered_together() {
    let two = |first: &[&str], label: &str, second: &[&str]| {
        let mut text = function(first);
        let start = 0x1000 + first.len();
        text += &format!("\n{start:016x} <{label}>:\n");
        for (number, instruction) in second.iter().enumerate() {
            text += &format!("    {:x}:\t{instruction}\n", start + number);
        }
        text
    };
    let open = |code: &str, outside: &Outside| {
        let text = text::read(code, None).unwrap();
        let control = control_flow::read(&text, outside);
        leaders(&text, &control, outside).open
    };
    let alone = Outside::default();
    // Control goes on from one to the other, or does not.
    let code = two(&["nop", "nop"], "g", &["jmp    rax"]);
    assert_eq!(open(&code, &alone), [true; 3]);
    let code = two(&["ret", "nop"], "g", &["jmp    rax"]);
    assert_eq!(open(&code, &alone), [false, false, true]);
    let code = two(&["ret", "nop"], "f.cold", &["jmp    rax"]);
    assert_eq!(open(&code, &alone), [true; 3]);
    let code = two(&["jmp    1003 <g+0x1>", "nop"], "g", &["jmp    rax", "nop"]);
    assert_eq!(open(&code, &alone), [true; 4]);
    // A jump to a label is one into the same function, if nothing says otherwise.
    let code = two(&["jmp    1002 <g>", "nop"], "g", &["jmp    rax", "nop"]);
    assert_eq!(open(&code, &alone), [true; 4]);
    let span = |start, end| Span { start, end };
    let known = Outside {
        functions: vec![span(0x1000, 0x1002), span(0x1002, 0x1004)],
        ..Outside::default()
    };
    assert_eq!(open(&code, &known), [false, false, true, true]);
    // A call that ends a function does not return.
    let code = two(&["nop", "call   1000 <f>"], "g", &["jmp    rax", "nop"]);
    assert_eq!(open(&code, &alone), [true; 4]);
    assert_eq!(open(&code, &known), [false, false, true, true]);
    // A label inside a function.
    let whole = Outside { functions: vec![span(0x1000, 0x1004)], ..Outside::default() };
    assert_eq!(open(&two(&["ret", "nop"], "g", &["jmp    rax", "nop"]), &whole), [true; 4]);
}

#[test]
fn jumps_of_stubs_and_through_slots_go_to_functions() {
    let code = function(&["jmp    QWORD PTR [rip+0x2]        # 2010 <puts@GLIBC>", "nop"]);
    let text = text::read(&code, None).unwrap();
    assert_eq!(starts(&text, &Outside::default()), [0x1000, 0x1001]);
    let slots = vec![Span { start: 0x2000, end: 0x2018 }];
    let outside = Outside { slots, ..Outside::default() };
    let control = control_flow::read(&text, &outside);
    assert_eq!(leaders(&text, &control, &outside).open, [false; 2]);
    let code = function(&["jmp    rax", "nop"]).replace(".text", ".plt.sec");
    let text = text::read(&code, None).unwrap();
    let control = control_flow::read(&text, &Outside::default());
    assert_eq!(leaders(&text, &control, &Outside::default()).open, [false; 2]);
}

fn all_sheets(text: &Disassembly, counts: &mut Counts) -> Vec<Sheet> {
    let outside = Outside::default();
    let control = control_flow::read(text, &outside);
    let leaders = leaders(text, &control, &outside);
    let functions = sheets::functions(text, &outside).into_iter();
    functions.flat_map(|lines| sheets::of_function(text, &leaders, lines, counts)).collect()
}

#[test]
fn long_functions_become_several_sheets() {
    let jumps = vec!["je     1000 <f>"; 3_000];
    let long = vec!["add    rax,0x1"; 5_000];
    for instructions in [[jumps.clone(), long.clone()].concat(), [long, jumps].concat()] {
        let code = function(&instructions);
        let text = text::read(&code, None).unwrap();
        let mut counts = Counts::default();
        let sheets = all_sheets(&text, &mut counts);
        assert_eq!((counts.instructions, counts.branches), (8_000, 3_000));
        assert!(counts.cut > 0);
        let mut listed = Vec::new();
        for sheet in &sheets {
            let bytes = encode(sheet).bytes;
            assert!(bytes.len() <= 65_536);
            assert!(reader::read(&bytes).is_ok());
            listed.extend(sheet.instructions.iter().map(|insn| insn.address));
            let inside = sheet.blocks.iter().map(|block| block.to - block.from).sum::<u64>();
            assert_eq!(inside, sheet.instructions.len() as u64, "each in one block");
        }
        assert_eq!(listed, (0x1000..0x1000 + 8_000).collect::<Vec<u64>>());
    }
}

#[test]
fn a_sheet_has_the_blocks_of_its_function() {
    let jump = "jmp    1000 <f>";
    let code = function(&["xor    eax,eax", "je     1003 <f+0x3>", "ret", "frobnicate", jump]);
    let text = text::read(&code, None).unwrap();
    let mut counts = Counts::default();
    let sheets = all_sheets(&text, &mut counts);
    assert_eq!(sheets.len(), 1);
    let due = "insn 0x1000 xor eax eax\ninsn 0x1001 je target 0x1003\ninsn 0x1002 other call\n\
               insn 0x1003 other call\ninsn 0x1004 other\n\
               block 0x1000 0x1002\nblock 0x1002 0x1003\nblock 0x1003 0x1005\n";
    assert_eq!(to_text::text(&sheets[0]), due);
    assert_eq!(counts.functions, 1);
    assert_eq!(counts.calls, [("ret".to_string(), 1)].into());
    assert_eq!(counts.unknown, [("frobnicate".to_string(), 1)].into());
}

/// The program of these tests unwinds, so it has landing pads.
#[test]
fn a_file_tells_its_functions_and_landing_pads() {
    let bytes = std::fs::read(std::env::current_exe().unwrap()).unwrap();
    let file = elf::read(&bytes).unwrap();
    let code = file.code();
    let unwinding = unwinding::read(&file).expect("the tables are whole");
    assert!(unwinding.functions.len() > 100 && unwinding.pads.len() > 100);
    assert_eq!(unwinding.unread, []);
    let inside = |spans: &[Span], address: u64| spans.iter().any(|span| span.holds(address));
    assert!(unwinding.functions.iter().all(|span| inside(&code, span.start)));
    let mut functions = unwinding.functions.clone();
    functions.sort();
    let covered = |pad: &u64| {
        let after = functions.partition_point(|span| span.start <= *pad);
        after > 0 && functions[after - 1].holds(*pad)
    };
    assert!(unwinding.pads.iter().all(covered));
    assert!(pointers::stored(&file, &code).iter().any(|address| covered(address)));
}

/// A section with an address and bytes.
fn section<'a>(name: &'a str, address: u64, bytes: &'a [u8]) -> Section<'a> {
    let size = bytes.len() as u64;
    Section { name, kind: 1, flags: 2, address, bytes, size, link: 0 }
}

#[test]
fn pointers_are_found_wherever_they_stand() {
    let bytes = [0, 0x34, 0x12, 0, 0, 0, 0, 0, 0, 7, 0x35, 0x12, 0, 0, 7];
    let segment = Segment { address: 0x1230, bytes: &[0; 8] };
    let sections = vec![section(".data", 0x2000, &bytes), section(".eh_frame", 0x3000, &[])];
    let mut file =
        File { bits: Bits::B64, entry: None, movable: true, sections, segments: vec![segment] };
    assert_eq!(pointers::stored(&file, &file.code()), [0x1234]);
    file.movable = false;
    assert_eq!(pointers::stored(&file, &file.code()), [0x1234, 0x1235]);
    // An empty table for unwinding is none.
    assert!(unwinding::read(&file).is_some_and(|unwinding| unwinding.functions.is_empty()));
    file.segments[0].bytes = &[0x90, 0xf3, 0x0f, 0x1e, 0xfa, 0xf3, 0x0f, 0x1e];
    assert_eq!(pointers::marked(&file), [0x1231]);
}

#[test]
fn the_claims_are_what_the_rules_of_the_sheet_say() {
    let changed = |instruction: &str| {
        let listed = listed(&Line { text: instruction, ..Line::default() });
        let Changes { registers, flags } = changes(&listed.instruction);
        (registers, flags)
    };
    assert_eq!(changed("mov    ecx,eax"), (2, 0));
    assert_eq!(changed("mov    DWORD PTR [rax],ecx"), (0, 0));
    assert_eq!(changed("sub    dh,al"), (4, 31));
    assert_eq!(changed("sub    BYTE PTR [rax],al"), (0, 31));
    assert_eq!(changed("cmp    eax,ecx"), (0, 31));
    assert_eq!(changed("test   eax,eax"), (0, 31));
    assert_eq!(changed("inc    r15"), (0x8000, 30));
    assert_eq!(changed("dec    BYTE PTR [rax]"), (0, 30));
    assert_eq!(changed("neg    eax"), (1, 31));
    assert_eq!(changed("not    eax"), (1, 0));
    assert_eq!(changed("cmc"), (0, 1));
    assert_eq!(changed("pop    rbx"), (0x18, 0));
    assert_eq!(changed("je     10 <f>"), (0, 0));
}
