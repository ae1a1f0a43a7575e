//! Stored cases of reading: a text of named sheets with the answers expected of
//! them.
//!
//! A case is `case NAME`, then `expect accepted I B N` or
//! `expect refused N at P`, then the sheet as text or as lines `hex ...`.
//! `expect accepted I B N and cuts` adds the sheet cut at every length.

use crate::comparisons::frames::ask_reading;
use crate::judges::reader::{line, read};
use crate::sheets::encode::{place_of_cut, Field};
use crate::stored::text::{sheet_of, sources, Source};
use crate::stored::List;

#[derive(Clone, Copy, Debug, PartialEq, Eq)]
pub enum Expected {
    Accepted([u16; 3]),
    Refused { number: u8, place: u32 },
}

pub struct Case {
    pub name: String,
    pub sheet: Vec<u8>,
    pub expected: Expected,
}

/// All cases of a text, each checked against the independent reader.
pub fn cases(text: &str) -> Result<Vec<Case>, String> {
    let mut list = Vec::new();
    for source in sources(text)? {
        let made = one_source(&source).map_err(|error| format!("case {}: {error}", source.name))?;
        list.extend(made);
    }
    for case in &list {
        check(case)?;
    }
    Ok(list)
}

fn one_source(source: &Source) -> Result<Vec<Case>, String> {
    let (words, body) = source.parts()?;
    let (sheet, fields) = sheet_of(&body, source.first_line)?;
    let (words, mut list) = match words.as_slice() {
        [_, .., "and", "cuts"] if fields.is_empty() => {
            return Err("cuts need a sheet as text, for its field starts".to_string());
        }
        [words @ .., "and", "cuts"] => (words, cuts(source.name, &sheet, &fields)),
        words => (words, Vec::new()),
    };
    let expected = expectation_of(words)?;
    list.push(Case { name: source.name.to_string(), sheet, expected });
    Ok(list)
}

fn expectation_of(words: &[&str]) -> Result<Expected, String> {
    let unclear = || format!("unclear expectation '{}'", words.join(" "));
    let number = |word: &str| word.parse::<u32>().map_err(|_| unclear());
    match words {
        ["accepted", i, b, n] => {
            let counts = [number(i)? as u16, number(b)? as u16, number(n)? as u16];
            Ok(Expected::Accepted(counts))
        }
        ["refused", n, "at", p] => {
            Ok(Expected::Refused { number: number(n)? as u8, place: number(p)? })
        }
        _ => Err(unclear()),
    }
}

/// A good sheet cut at every length, from the writer's field starts.
fn cuts(name: &str, sheet: &[u8], fields: &[Field]) -> Vec<Case> {
    let cut = |length: usize| Case {
        name: format!("{name} cut at {length}"),
        sheet: sheet[..length].to_vec(),
        expected: Expected::Refused { number: 1, place: place_of_cut(fields, length) as u32 },
    };
    (0..sheet.len()).map(cut).collect()
}

fn check(case: &Case) -> Result<(), String> {
    let answer = read(&case.sheet);
    let found = match &answer {
        Ok(accepted) => Expected::Accepted(accepted.counts().map(|count| count as u16)),
        Err(refusal) => Expected::Refused { number: refusal.number, place: refusal.place as u32 },
    };
    if found == case.expected {
        return Ok(());
    }
    let Case { name, expected, .. } = case;
    Err(format!("case {name}: expected {expected:?}, the reader says {}", line(&answer)))
}

/// Adds the cases with the reader's lines, which were checked.
pub fn store(cases: &[Case], list: &mut List) {
    for case in cases {
        ask_reading(&mut list.frames, &case.sheet);
        list.lines.push(line(&read(&case.sheet)));
    }
}
