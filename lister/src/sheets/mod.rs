//! The sheet: its syntax, its numbers and their names, its bytes, its text.

pub mod encode;
pub mod from_text;
pub mod names;
pub mod reader;
pub mod syntax;
pub mod to_text;
pub mod types;
pub mod words;
