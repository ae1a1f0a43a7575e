//! Sentences on blocks: the line in which programs write them, and a count of
//! what was met in them.
//!
//! A line is `sentences` and for each block a bar and its sentence, which is
//! empty where the block has no verdict; or the refusal of the sheet.

use crate::sheets::syntax::{named_registers, register_by_name};
use std::collections::BTreeMap;

const WORD: &str = "sentences";

/// The line of these sentences.
pub fn line<'a>(sentences: impl Iterator<Item = &'a str>) -> String {
    sentences.fold(WORD.to_string(), |line, sentence| line + "|" + sentence)
}

/// The sentences of a line, if it has any to give.
pub fn of_line(line: &str) -> Option<Vec<&str>> {
    let mut parts = line.split('|');
    (parts.next() == Some(WORD)).then(|| parts.collect())
}

/// Sentences from which on each phrase, name and value has to have been met.
const ENOUGH: u64 = 20_000;

const TURN: &str = "cmc turns it round";
const TWO: &str = "two texts, joined";
const ONE_VALUE: &str = "R is N here";
const TWO_VALUES: &str = "R is N and R is N here";
const ITSELF: &str = "R is compared with itself";

const PHRASES: [&str; 15] = [
    "stc sets the carry",
    "clc clears the carry",
    ONE_VALUE,
    TWO_VALUES,
    ITSELF,
    "and clears the carry",
    "or clears the carry",
    "xor clears the carry",
    "test clears the carry",
    "and clears the overflow",
    "or clears the overflow",
    "xor clears the overflow",
    "test clears the overflow",
    TURN,
    TWO,
];

const WIDTHS: [u8; 4] = [8, 16, 32, 64];

/// Values on both sides of the change from base ten to base sixteen, and others.
const VALUES: [i64; 6] = [-10, -9, -1, 0, 9, 10];

/// How an edge is written at a width.
fn value_text(value: i64, width: u8) -> String {
    match value {
        -9..=9 => value.to_string(),
        _ => format!("{:#x}", value as u64 & u64::MAX >> (64 - width)),
    }
}

/// What was met, each with how often.
#[derive(Default)]
pub struct Met {
    sentences: u64,
    longest: usize,
    most_turns: usize,
    phrases: BTreeMap<String, u64>,
    names: BTreeMap<String, u64>,
    values: BTreeMap<(u8, String), u64>,
}

fn count<K: Ord>(counts: &mut BTreeMap<K, u64>, key: K) {
    *counts.entry(key).or_default() += 1;
}

impl Met {
    pub fn sentences(&self) -> u64 {
        self.sentences
    }

    /// Counts what is in a sentence; an empty one is none.
    pub fn note(&mut self, sentence: &str) {
        if sentence.is_empty() {
            return;
        }
        self.sentences += 1;
        self.longest = self.longest.max(sentence.len());
        let (mut texts, mut turns) = (0, 0);
        for part in sentence.split(", and ") {
            if part == TURN {
                turns += 1;
                count(&mut self.phrases, TURN.to_string());
            } else {
                texts += 1;
                self.note_text(part);
            }
        }
        self.most_turns = self.most_turns.max(turns);
        if texts > 1 {
            count(&mut self.phrases, TWO.to_string());
        }
    }

    fn note_text(&mut self, text: &str) {
        let phrase = if let Some(name) = text.strip_suffix(" is compared with itself") {
            count(&mut self.names, name.to_string());
            ITSELF
        } else if let Some(values) = text.strip_suffix(" here") {
            let values: Vec<&str> = values.split(" and ").collect();
            values.iter().for_each(|value| self.note_value(value));
            if values.len() == 1 {
                ONE_VALUE
            } else {
                TWO_VALUES
            }
        } else {
            text
        };
        count(&mut self.phrases, phrase.to_string());
    }

    fn note_value(&mut self, text: &str) {
        let (name, value) = text.split_once(" is ").unwrap_or((text, ""));
        count(&mut self.names, name.to_string());
        if let Some(register) = register_by_name(name) {
            count(&mut self.values, (register.size, value.to_string()));
        }
    }

    /// What is not known here, and in a run that is long enough what was not met.
    fn faults(&self) -> Vec<String> {
        let mut faults = Vec::new();
        for phrase in self.phrases.keys().filter(|phrase| !PHRASES.contains(&phrase.as_str())) {
            faults.push(format!("a phrase that is not known: {phrase}"));
        }
        for name in self.names.keys().filter(|name| register_by_name(name).is_none()) {
            faults.push(format!("a name that is not known: {name}"));
        }
        if self.sentences >= ENOUGH {
            let phrases = PHRASES.iter().filter(|phrase| !self.phrases.contains_key(**phrase));
            faults.extend(phrases.map(|phrase| format!("not met: {phrase}")));
            let names = named_registers().filter(|(name, _)| !self.names.contains_key(*name));
            faults.extend(names.map(|(name, _)| format!("not met: {name}")));
            let values = WIDTHS.iter().flat_map(|width| VALUES.map(|value| (*width, value)));
            let open = values.filter(|(width, value)| self.value(*width, *value) == 0);
            faults.extend(open.map(|(width, value)| format!("not met: {value} at {width} bits")));
        }
        faults
    }

    fn value(&self, width: u8, value: i64) -> u64 {
        self.values.get(&(width, value_text(value, width))).copied().unwrap_or(0)
    }

    /// Prints the counts; true if all is known, and all was met.
    pub fn print(&self) -> bool {
        println!(
            "sentences {}, the longest of {} bytes, with at most {} turns",
            self.sentences, self.longest, self.most_turns
        );
        for phrase in PHRASES {
            println!("  {phrase}: {}", self.phrases.get(phrase).unwrap_or(&0));
        }
        for width in WIDTHS {
            let names = named_registers().filter(|(_, register)| register.size == width);
            let counts =
                names.map(|(name, _)| format!(" {name} {}", self.names.get(name).unwrap_or(&0)));
            println!("  names of {width} bits:{}", counts.collect::<String>());
        }
        for width in WIDTHS {
            let counts = VALUES.map(|value| format!(" {value}: {}", self.value(width, value)));
            println!("  values of {width} bits:{}", counts.join(","));
        }
        let faults = self.faults();
        faults.iter().for_each(|fault| println!("{fault}"));
        faults.is_empty()
    }
}
