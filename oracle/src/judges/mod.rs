//! What says which answer is due, and shares nothing with the product.

pub mod assembler;
pub mod c_compiler;
pub mod evaluator;
pub mod listing;
pub mod node_limits;
pub mod node_runs;
pub mod node_verdict;
pub mod processor;
pub mod substitution;

pub use lister::sheets::reader;
