//! The answers on blocks and nodes, and the lines in which programs write
//! them. This file alone knows how an answer is written.
//!
//! A line is `blocks` and an answer for each block, `nodes` and an answer for
//! each node, both after each other, or the refusal of the sheet.

use std::fmt;
use std::str::FromStr;

/// What the driver of the given source says that was built without it.
pub const ABSENT: &str = "not compared: source absent";

#[derive(Clone, Copy, Debug, PartialEq, Eq, PartialOrd, Ord)]
pub enum Answer {
    Decided(Decided),
    Undecided,
    /// The block does not end in a conditional branch.
    NoBranch,
    /// The verdict on a node is refused, by this number.
    Refused(u8),
    /// The given source was not run to its end, or not asked.
    NotRun,
}

/// Always where the condition holds, or the branch jumps; else never.
#[derive(Clone, Copy, Debug, PartialEq, Eq, PartialOrd, Ord)]
pub struct Decided {
    pub holds: bool,
    pub reason: u8,
}

/// The reason of a verdict on a block.
pub const FLAGS: u8 = 1;

impl Answer {
    pub fn is_refused(self) -> bool {
        matches!(self, Answer::Refused(_))
    }

    /// The answer in words.
    pub fn named(self) -> String {
        match self {
            Answer::Decided(Decided { holds: true, reason }) => format!("always {reason}"),
            Answer::Decided(Decided { holds: false, reason }) => format!("never {reason}"),
            Answer::Undecided => "undecided".to_string(),
            Answer::NoBranch => "no branch".to_string(),
            Answer::Refused(number) => format!("refused {number}"),
            Answer::NotRun => "not judged by the given source".to_string(),
        }
    }
}

impl fmt::Display for Answer {
    fn fmt(&self, out: &mut fmt::Formatter) -> fmt::Result {
        match self {
            Answer::Decided(Decided { holds: true, reason }) => write!(out, "a{reason}"),
            Answer::Decided(Decided { holds: false, reason }) => write!(out, "v{reason}"),
            Answer::Undecided => write!(out, "u"),
            Answer::NoBranch => write!(out, "n"),
            Answer::Refused(number) => write!(out, "r{number}"),
            Answer::NotRun => write!(out, "-"),
        }
    }
}

impl FromStr for Answer {
    type Err = String;

    fn from_str(word: &str) -> Result<Answer, String> {
        let unclear = || format!("'{word}' is no answer");
        let number = || word[1..].parse().map_err(|_| unclear());
        match word.as_bytes() {
            b"u" => Ok(Answer::Undecided),
            b"n" => Ok(Answer::NoBranch),
            b"-" => Ok(Answer::NotRun),
            [b'a', _, ..] => Ok(Answer::Decided(Decided { holds: true, reason: number()? })),
            [b'v', _, ..] => Ok(Answer::Decided(Decided { holds: false, reason: number()? })),
            [b'r', _, ..] => Ok(Answer::Refused(number()?)),
            _ => Err(unclear()),
        }
    }
}

/// The answers that words stand for.
pub fn answers(words: &[&str]) -> Result<Vec<Answer>, String> {
    words.iter().map(|word| word.parse()).collect()
}

/// The line of answers on blocks, or on nodes, as `records` says.
pub fn line(records: &str, answers: &[Answer]) -> String {
    answers.iter().fold(records.to_string(), |line, answer| format!("{line} {answer}"))
}

/// A program's line taken apart.
#[derive(Debug, PartialEq, Eq)]
pub enum Line {
    Refused(String),
    Answers { blocks: Vec<Answer>, nodes: Vec<Answer> },
    Unclear,
}

impl Line {
    pub fn parse(line: &str) -> Line {
        if line.starts_with("refused ") {
            return Line::Refused(line.to_string());
        }
        let words: Vec<&str> = line.split(' ').collect();
        let mut parts = words.split(|word| *word == "nodes");
        let blocks = match parts.next() {
            Some([]) => Ok(Vec::new()),
            Some(["blocks", words @ ..]) => answers(words),
            _ => return Line::Unclear,
        };
        let nodes = answers(parts.next().unwrap_or(&[]));
        match (blocks, nodes, parts.next()) {
            (Ok(blocks), Ok(nodes), None) => Line::Answers { blocks, nodes },
            _ => Line::Unclear,
        }
    }
}
