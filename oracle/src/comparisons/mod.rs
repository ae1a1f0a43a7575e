//! Test programs held against the judges, and timed.

pub mod blocks;
pub mod evaluations;
pub mod frames;
pub mod listings;
pub mod node_times;
pub mod nodes;
pub mod processor;
pub mod reading;
pub mod runs;
pub mod smaller;
pub mod times;
