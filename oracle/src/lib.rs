//! Tools for sheets: comparisons, stored cases, benchmark. README.md has an example of
//! each command. The sheets themselves, with their writer, dump and reader, come with
//! the lister.

pub mod answers;
pub mod cases;
pub mod comparisons;
pub mod judges;
pub mod sentences;
pub mod stored;
#[cfg(test)]
mod tests;

pub use lister::sheets;
