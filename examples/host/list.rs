//! A host, to start from: list SHEET judges a sheet file and prints its decided branches. To build it, from the
//! repository's root after `make library`: rustc -O -L build -l static=pomthija examples/host/list.rs

use std::process::ExitCode;

extern "C" {
    fn pomthija_listing(
        sheet: *const u8,
        sheet_length: usize,
        list: *mut u8,
        list_length: usize,
        out: *mut u64,
    ) -> u64;
}

const LINE: usize = 18;
const LIST: usize = 2_048 * LINE;

struct Refusal {
    number: u64,
    offset: u64,
}

/// The lines of a sheet, `LINE` bytes each.
fn listing(sheet: &[u8]) -> Result<Vec<u8>, Refusal> {
    let mut list = vec![0; LIST];
    let mut out = 0;
    // The pointers are good for the lengths beside them, and share no byte.
    let number = unsafe {
        pomthija_listing(sheet.as_ptr(), sheet.len(), list.as_mut_ptr(), list.len(), &mut out)
    };
    if number != 0 {
        return Err(Refusal { number, offset: out });
    }
    list.truncate(out as usize * LINE);
    Ok(list)
}

fn address(bytes: &[u8]) -> u64 {
    bytes.iter().rev().fold(0, |value, byte| value << 8 | u64::from(*byte))
}

fn main() -> ExitCode {
    let args: Vec<String> = std::env::args().collect();
    let [_, path] = args.as_slice() else {
        eprintln!("usage: list SHEET");
        return ExitCode::from(2);
    };
    let sheet = match std::fs::read(path) {
        Ok(bytes) => bytes,
        Err(error) => {
            eprintln!("{path}: {error}");
            return ExitCode::from(2);
        }
    };
    match listing(&sheet) {
        Err(Refusal { number, offset }) => {
            println!("refused {number} at {offset}");
            ExitCode::from(1)
        }
        Ok(lines) => {
            for line in lines.chunks(LINE) {
                let verdict = if line[16] == 1 { "always" } else { "never" };
                let (site, target) = (address(&line[..8]), address(&line[8..16]));
                println!("{site:#x} to {target:#x}: {verdict} taken, reason {}", line[17]);
            }
            ExitCode::SUCCESS
        }
    }
}
