//! The decided branches of a sheet, as the product lists them.

use crate::disassembly::elf::number;

/// A branch that is always or never taken, with the reason's number.
#[derive(Clone, Debug, PartialEq, Eq, PartialOrd, Ord)]
pub struct Decided {
    pub site: u64,
    pub target: u64,
    pub always: bool,
    pub reason: u8,
}

/// Lists the decided branches of a sheet's bytes, by rising sites.
pub type Judge<'a> = dyn Fn(&[u8]) -> Result<Vec<Decided>, String> + 'a;

/// Bytes of a line of the listing: site and target, 8 each, verdict and reason.
pub const LINE: usize = 18;

/// The branches of a listing's lines; nothing where these are not whole.
pub fn decided(lines: &[u8]) -> Option<Vec<Decided>> {
    let branch = |line: &[u8]| {
        let (site, target) = (number(line, 0, 8)?, number(line, 8, 8)?);
        Some(Decided { site, target, always: *line.get(16)? == 1, reason: *line.get(17)? })
    };
    lines.chunks(LINE).map(branch).collect()
}

/// The text that the listing program writes of these branches.
pub fn written(branches: &[Decided]) -> String {
    let line = |branch: &Decided| {
        let Decided { site, target, always, reason } = branch;
        format!("{site:016x} {target:016x} {} {reason}\n", verdict(*always))
    };
    let lines: String = branches.iter().map(line).collect();
    format!("branches {}\n{lines}", branches.len())
}

pub fn verdict(always: bool) -> &'static str {
    if always {
        "always"
    } else {
        "never"
    }
}
