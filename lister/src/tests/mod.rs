mod code_32;
mod disassembly;
mod listing;
mod options;

const HEAD: &str = "\na.out:     file format elf64-x86-64\n\n\nDisassembly of section .text:\n";

/// The disassembly of one function at 0x1000.
fn addressed(lines: &[(u64, &str)]) -> String {
    let lines = lines.iter().map(|(address, text)| format!("    {address:x}:\t{text}\n"));
    format!("{HEAD}\n0000000000001000 <f>:\n{}", lines.collect::<String>())
}

/// The same, with instructions of a byte each.
fn function(instructions: &[&str]) -> String {
    let lines: Vec<(u64, &str)> = (0x1000..).zip(instructions.iter().copied()).collect();
    addressed(&lines)
}
