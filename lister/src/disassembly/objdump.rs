//! What objdump writes: of a whole file, and of code from any of its addresses.

use crate::disassembly::bits::Bits;
use crate::disassembly::elf::File;
use crate::disassembly::hidden::{Decoded, Run};
use crate::disassembly::text;
use std::fs;
use std::path::PathBuf;
use std::process::{self, Command};

const NO_OBJDUMP: &str = "objdump cannot be run (GNU binutils)";

/// No instruction takes more bytes, so each is on one line.
const WIDTH: &str = "--insn-width=16";

/// Bytes that are decoded from an address at a time, and the nops behind them:
/// after so many the next copy starts with an instruction of its own.
const WINDOW: usize = 64;
const NOPS: [u8; 16] = [0x90; 16];

fn objdump(options: &[&str], path: &str) -> Result<String, String> {
    let mut command = Command::new("objdump");
    command.args(["-M", "intel", "--show-raw-insn", WIDTH]).args(options);
    let output = command.arg("--").arg(path).env("LC_ALL", "C").output();
    let output = output.map_err(|error| format!("{NO_OBJDUMP}: {error}"))?;
    if !output.status.success() {
        let words = String::from_utf8_lossy(&output.stderr);
        return Err(format!("objdump: {}", words.trim()));
    }
    Ok(String::from_utf8_lossy(&output.stdout).into_owned())
}

/// The disassembly of a file's code.
pub fn disassembled(path: &str) -> Result<String, String> {
    objdump(&["-d"], path)
}

/// The disassembly of a raw image that is loaded at an address.
pub fn disassembled_raw(path: &str, bits: Bits, base: u64) -> Result<String, String> {
    let base = format!("--adjust-vma={base:#x}");
    objdump(&["-D", "-z", "-b", "binary", "-m", bits.machine(), &base], path)
}

/// A file with some bytes, which is removed when it is dropped.
pub struct Copy {
    path: PathBuf,
}

impl Copy {
    pub fn new(name: &str, bytes: &[u8]) -> Result<Copy, String> {
        let path = std::env::temp_dir().join(format!("pomthija-{}-{name}", process::id()));
        let written = fs::write(&path, bytes);
        written.map_err(|error| format!("{}: {error}", path.display()))?;
        Ok(Copy { path })
    }

    pub fn path(&self) -> Result<&str, String> {
        self.path
            .to_str()
            .ok_or("the name of the folder for temporary files is no text".to_string())
    }
}

impl Drop for Copy {
    fn drop(&mut self) {
        let _ = fs::remove_file(&self.path);
    }
}

/// The instructions from each address on, by way of a file with copies of their
/// bytes one behind the other.
pub fn runs(file: &File, addresses: &[u64]) -> Result<Vec<Run>, String> {
    let mut bytes = Vec::new();
    let mut copies = Vec::new();
    for address in addresses {
        let code = file.code_at(*address).unwrap_or(&[]);
        let window = &code[..code.len().min(WINDOW)];
        copies.push((bytes.len() as u64, *address, window.len() as u64, code.len() > WINDOW));
        bytes.extend(window.iter().chain(&NOPS));
    }
    let copy = Copy::new("runs", &bytes)?;
    let text = disassembled_raw(copy.path()?, file.bits, 0)?;
    let mut lines = text.lines().filter_map(text::shown).peekable();
    let run = |(start, address, length, more): (u64, u64, u64, bool)| {
        let mut run = Run::default();
        let moved = start.wrapping_sub(address);
        while let Some(line) = lines.next_if(|line| line.address < start + length) {
            let own = line.address.wrapping_sub(moved);
            if line.address < start {
                continue;
            }
            if line.address + line.size() > start + length {
                run.rest = more.then_some(own);
                break;
            }
            run.rest = more.then_some(own.wrapping_add(line.size()));
            let (bytes, text) = (line.bytes.to_string(), line.text.to_string());
            run.lines.push(Decoded { address: own, bytes, text, moved });
        }
        run
    };
    Ok(copies.into_iter().map(run).collect())
}
