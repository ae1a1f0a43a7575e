//! The stored cases as one list for a replay program: the frames that it reads
//! and the lines that are due. README.md describes their texts.

pub mod blocks;
pub mod evaluation;
pub mod nodes;
pub mod reading;
pub mod text;
pub mod verdicts;

pub const READING: &str = include_str!("../../vectors/reading.txt");
pub const EVALUATION: &str = include_str!("../../vectors/evaluation.txt");
pub const BLOCKS: &str = include_str!("../../vectors/blocks.txt");
pub const NODES: &str = include_str!("../../vectors/nodes.txt");

#[derive(Default)]
pub struct List {
    pub frames: Vec<u8>,
    pub lines: Vec<String>,
    /// Frames at the end whose lines are not known.
    pub open: usize,
}

impl List {
    /// The lines as the program writes them.
    pub fn text(&self) -> String {
        self.lines.iter().map(|line| format!("{line}\n")).collect()
    }
}

/// All cases, checked. The generated ones come last; their lines are the given
/// source's, and open where it is absent.
pub fn list(given: &[String]) -> Result<List, String> {
    let mut list = List::default();
    reading::store(&reading::cases(READING)?, &mut list);
    evaluation::store(&evaluation::cases(EVALUATION)?, &mut list);
    nodes::store(nodes::cases(NODES)?, given, &mut list)?;
    blocks::store(&blocks::cases(BLOCKS)?, given, &mut list)?;
    Ok(list)
}
