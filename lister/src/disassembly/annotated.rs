//! The disassembly with the verdict before each decided branch, and `dead` before each
//! instruction that is not run because of the verdicts.

use crate::disassembly::judge::verdict;
use crate::disassembly::listing::Listing;
use crate::disassembly::program::Program;
use crate::disassembly::report;

pub fn lines(program: &Program, listing: &Listing) -> Vec<String> {
    let text = &program.text;
    let mut lines = report::head(program);
    let mut labels = text.labels.iter().peekable();
    for (number, line) in text.lines.iter().enumerate() {
        while let Some(label) = labels.next_if(|label| label.address <= line.address) {
            lines.push(format!("\n{:x} <{}>:", label.address, label.name));
        }
        let mark = match listing.branches.get(&line.address) {
            _ if listing.is_dead(number) => "dead",
            Some(branch) => verdict(branch.always),
            None => "",
        };
        lines.push(format!("{mark:6} {:>8x}  {}", line.address, line.text));
    }
    lines
}
