//! The comparison of a test program's reading with the independent reader.

use crate::cases::damaged_sheet;
use crate::comparisons::frames::{ask_reading, run};
use crate::judges::reader::{line, read};
use std::io;

/// Sheets for which one process of the program is started.
const BATCH: u64 = 20_000;

/// Differences that are shown in full.
const SHOWN: u64 = 10;

#[derive(Default)]
struct Tally {
    accepted: u64,
    refused: [u64; 10],
    differences: u64,
}

impl Tally {
    fn sheet(&mut self, index: u64, sheet: &[u8], found: Option<&String>) {
        let answer = read(sheet);
        match &answer {
            Ok(_) => self.accepted += 1,
            Err(refusal) => self.refused[refusal.number as usize] += 1,
        }
        let expected = line(&answer);
        if found == Some(&expected) {
            return;
        }
        self.differences += 1;
        if self.differences <= SHOWN {
            println!("difference at sheet {index}");
            println!("  reader:  {expected}");
            println!("  program: {}", found.map_or("no line", String::as_str));
            println!("  sheet:   {}", hex(sheet));
        }
    }

    fn print(&self, compared: u64) {
        println!("accepted {}", self.accepted);
        for number in 1..10 {
            println!("refused {number}: {}", self.refused[number]);
        }
        println!("compared {compared}, differences {}", self.differences);
    }
}

pub fn hex(bytes: &[u8]) -> String {
    bytes.iter().map(|byte| format!("{byte:02x}")).collect()
}

/// Compares on `count` sheets; true if there was no difference.
pub fn compare(program: &[String], count: u64, seed: u64) -> io::Result<bool> {
    let mut tally = Tally::default();
    let mut first = 0;
    while first < count {
        let end = count.min(first + BATCH);
        let sheets: Vec<Vec<u8>> =
            (first..end).map(|index| damaged_sheet::sheet(seed, index)).collect();
        let mut input = Vec::new();
        sheets.iter().for_each(|sheet| ask_reading(&mut input, sheet));
        let lines = run(program, input)?;
        for (index, sheet) in (first..end).zip(&sheets) {
            tally.sheet(index, sheet, lines.get((index - first) as usize));
        }
        if lines.len() > sheets.len() {
            println!("the program wrote {} lines too many", lines.len() - sheets.len());
            tally.differences += 1;
        }
        first = end;
    }
    tally.print(count);
    Ok(tally.differences == 0)
}
