//! Random sheets and nodes, each aimed at something.

pub mod any_sheet;
pub mod block_sheet;
pub mod damaged_sheet;
pub mod evaluation_node;
pub mod limit_node;
pub mod random;
pub mod sentence_sheet;
pub mod verdict_node;
