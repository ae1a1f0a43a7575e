//! Sheets as content, bytes and text, and the lister: from a program's disassembly to its
//! decided branches. docs/LISTER.md and docs/TEXT.md describe the command.

pub mod disassembly;
pub mod options;
pub mod sheets;
#[cfg(test)]
mod tests;
