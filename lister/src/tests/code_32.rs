//! What 32-bit code has that 64-bit code has not, and raw images.

use crate::disassembly::bits::Bits;
use crate::disassembly::control_flow::{self, Outside};
use crate::disassembly::elf::{self, Span};
use crate::disassembly::instruction::{listed, Flow, Standing};
use crate::disassembly::pointers;
use crate::disassembly::text::{self, Line};
use crate::sheets::syntax::Sheet;
use crate::sheets::to_text;
use crate::tests::function;

fn code(instructions: &[&str]) -> String {
    function(instructions).replace("elf64-x86-64", "elf32-i386")
}

#[test]
fn instructions_of_32_bits_are_known() {
    let cases = [
        ("pusha", "other writes rsp"),
        ("popa", "other writes rax rcx rdx rbx rsp rbp rsi rdi"),
        ("les    eax,FWORD PTR [edi]", "other writes eax"),
        ("aaa", "other writes rax flags cf pf zf sf of"),
        ("aam    0xa", "other writes rax flags cf pf zf sf of"),
        ("bound  eax,QWORD PTR [edi]", "other"),
        ("arpl   ax,cx", "other writes ax flags zf"),
        ("push   es", "other writes rsp"),
        ("pop    ds", "other writes rsp"),
        ("inc    eax", "inc eax writes eax flags pf zf sf of"),
        ("jcxz   1178 <f+0x12>", "jcxz target 0x1178"),
        ("into", "other call"),
        ("call   0x23:0x8049000", "other call"),
        ("addr16 loop 1178 <f+0x12>", "other call"),
    ];
    for (text, due) in cases {
        let listed = listed(&Line { text, ..Line::default() });
        assert!(!matches!(listed.standing, Standing::Unknown(name) if name != "loop"), "{text}");
        let sheet = Sheet { instructions: vec![listed.instruction], ..Sheet::default() };
        assert_eq!(to_text::text(&sheet).trim().replacen("insn 0x0 ", "", 1), due, "{text}");
    }
    let flow = |text| listed(&Line { text, ..Line::default() }).flow;
    assert_eq!(flow("into"), Flow::Next);
    assert_eq!(flow("jmp    0x23:0x8049000"), Flow::IndirectJump);
    assert_eq!(flow("addr16 loop 1178 <f+0x12>"), Flow::Branch(0x1178));
    assert_eq!(flow("addr16 je 1178 <f+0x12>"), Flow::Branch(0x1178));
}

#[test]
fn formats_say_what_the_code_is() {
    assert_eq!(text::read(&code(&["nop"]), None).unwrap().bits, Bits::B32);
    assert_eq!(text::read(&function(&["nop"]), None).unwrap().bits, Bits::B64);
    let raw = function(&["nop"]).replace("elf64-x86-64", "binary");
    assert_eq!(text::read(&raw, Some(Bits::B32)).unwrap().bits, Bits::B32);
    assert!(text::read(&raw, None).unwrap_err().contains("file format is binary"));
}

/// Whether the return at the end of a function's lines is taken for a jump.
fn returns_elsewhere(instructions: &[&str]) -> bool {
    let code = code(&[instructions, &["ret"]].concat());
    let text = text::read(&code, None).unwrap();
    let span = Span { start: 0x1000, end: 0x1000 + text.lines.len() as u64 };
    let outside = Outside { functions: vec![span], ..Outside::default() };
    control_flow::read(&text, &outside).returns == 1
}

#[test]
fn stacks_of_32_bits_have_words_of_four_bytes() {
    let frame = ["push   ebp", "mov    ebp,esp"];
    let jumps: &[&[&str]] = &[
        &["push   eax"],
        &["mov    DWORD PTR [esp-0x4],eax", "sub    esp,0x4"],
        &["add    esp,0xfffffffc", "mov    DWORD PTR [esp],eax"],
        &["pusha", "mov    DWORD PTR [esp+0x20],eax", "popa"],
        &[frame[0], frame[1], "mov    DWORD PTR [ebp+0x4],eax", "leave"],
        &["mov    edx,esp", "mov    DWORD PTR [edx],eax"],
        &["mov    bx,sp", "mov    WORD PTR [bx],ax"],
        &["mov    esp,eax"],
        // What is called may take four bytes off the stack.
        &["push   eax", "call   1000 <f>"],
        &["push   eax", "sub    esp,0x4", "call   1000 <f>"],
    ];
    for case in jumps {
        assert!(returns_elsewhere(case), "{case:?}");
    }
    let returns: &[&[&str]] = &[
        &["pusha", "mov    DWORD PTR [esp+0x1c],eax", "popa"],
        &[frame[0], frame[1], "mov    DWORD PTR [ebp-0x4],eax", "leave"],
        &[frame[0], frame[1], "push   eax", "call   1000 <f>", "leave"],
        &["push   eax", "call   1000 <f>", "add    esp,0x4"],
        &["sub    esp,0xc", "mov    DWORD PTR [esp+0x8],eax", "add    esp,0xc"],
    ];
    for case in returns {
        assert!(!returns_elsewhere(case), "{case:?}");
    }
}

/// The addresses that code names, but for the targets of jumps and calls.
fn named(instructions: &[&str], bases: &[u64]) -> Vec<u64> {
    let code = code(instructions);
    let outside = Outside { bases: bases.to_vec(), ..Outside::default() };
    control_flow::read(&text::read(&code, None).unwrap(), &outside).named
}

#[test]
fn addresses_are_named_by_numbers_and_distances() {
    assert_eq!(named(&["jmp    DWORD PTR [eax*4+0x8049000]"], &[0]), [0x8049000]);
    assert_eq!(named(&["mov    eax,ds:0x8049000"], &[0]), [0x8049000]);
    assert_eq!(named(&["call   0x23:0x8049000"], &[0]), [0x8049000]);
    assert_eq!(named(&["mov    eax,DWORD PTR [esp+0x10]"], &[0, 0x3000]), []);
    assert_eq!(named(&["lea    eax,[ebx-0x1000]"], &[0x3000]), [0x2000]);
    // From the own address: here 0x1001.
    let own = ["call   1001 <f+0x1>", "pop    ecx"];
    assert_eq!(named(&[own[0], own[1], "lea    edx,[ecx+0x20]"], &[]), [0x1021]);
    assert_eq!(
        named(&[own[0], own[1], "add    ecx,0x20", "lea    edx,[ecx+0x5]"], &[]),
        [0x20, 0x1021, 0x1026]
    );
    assert_eq!(named(&[own[0], own[1], "sub    ecx,0x20"], &[]), [0x20, 0xfe1]);
    let handed = ["call   1003 <f+0x3>", "add    ebx,0x20", "ret", "mov    ebx,DWORD PTR [esp]"];
    assert_eq!(named(&handed, &[]), [0x20, 0x1021]);
}

/// A program of 32 bits: code at 0x1000, data at 0x2000 whose second word is relocated by
/// the symbol f at 0x1002.
fn program() -> Vec<u8> {
    let names = b"\0.text\0.data\0.rel\0.symtab\0.names\0";
    let words = |list: &[u32]| list.iter().flat_map(|word| word.to_le_bytes()).collect::<Vec<u8>>();
    let code = vec![0x90; 16];
    let data = words(&[0x1004, 3]);
    let relocations = words(&[0x2004, 1 << 8 | 1]);
    let symbols = [vec![0; 16], words(&[0, 0x1002, 4, 0x0001_0012])].concat();
    let parts = [&code[..], &data, &relocations, &symbols, names];
    let place =
        |number: usize| 84 + parts[..number].iter().map(|part| part.len() as u32).sum::<u32>();
    let section = |name, kind, flags, address, part: usize, link| {
        let size = parts[part].len() as u32;
        words(&[name, kind, flags, address, place(part), size, link, 0, 0, 0])
    };
    let sections = [
        vec![0; 40],
        section(1, 1, 6, 0x1000, 0, 0),
        section(7, 1, 3, 0x2000, 1, 0),
        section(13, 9, 0, 0, 2, 4),
        section(18, 2, 0, 0, 3, 0),
        section(26, 3, 0, 0, 4, 0),
    ];
    let mut file = b"\x7fELF\x01\x01\x01\0\0\0\0\0\0\0\0\0\x02\0\x03\0".to_vec();
    file.extend(words(&[1, 0x1001, 52, place(5), 0, 52 | 32 << 16, 1 | 40 << 16, 6 | 5 << 16]));
    file.extend(words(&[1, 84, 0x1000, 0x1000, 16, 16, 5, 0]));
    file.extend(parts.concat());
    file.extend(sections.concat());
    file
}

#[test]
fn files_of_32_bits_are_read() {
    let bytes = program();
    let file = elf::read(&bytes).unwrap();
    assert_eq!((file.bits, file.entry, file.movable), (Bits::B32, Some(0x1001), false));
    assert_eq!(file.code()[0], Span { start: 0x1000, end: 0x1010 });
    assert_eq!(file.functions(), [Span { start: 0x1002, end: 0x1006 }]);
    assert_eq!(file.named(), [0x1002]);
    assert_eq!(file.relocated(), [3, 0x1005]);
    assert_eq!(pointers::stored(&file, &file.code()), [0x1004, 0x1005]);
    assert!(elf::read(&bytes[..100]).is_err());
}

#[test]
fn a_raw_image_is_all_code() {
    let bytes = [0x90, 0x90, 0x34, 0x12, 0, 0];
    let file = elf::raw(&bytes, Bits::B32, 0x1230);
    assert_eq!(file.code()[0], Span { start: 0x1230, end: 0x1236 });
    assert_eq!(file.code_at(0x1232), Some(&bytes[2..]));
    assert_eq!(pointers::stored(&file, &file.code()), [0x1234]);
}

#[test]
fn gates_have_addresses_in_two_parts() {
    let mut bytes = [0x90; 0x20];
    bytes[3..11].copy_from_slice(&[0x10, 0x80, 8, 0, 0, 0x8e, 0x01, 0]);
    let stored = |bytes: &[u8], bits| {
        let file = elf::raw(bytes, bits, 0x1_8000);
        pointers::stored(&file, &file.code())
    };
    assert_eq!(stored(&bytes, Bits::B32), [0x1_8010]);
    assert_eq!(stored(&bytes, Bits::B64), []);
    bytes[11..15].copy_from_slice(&[0; 4]);
    assert_eq!(stored(&bytes, Bits::B64), [0x1_8010]);
    bytes[8] = 0x89;
    assert_eq!(stored(&bytes, Bits::B32), []);
}
