//! Stored cases of the verdicts on blocks and of their sentences: sheets with
//! answers worked out by hand, and generated sheets with those of the given source.

use crate::answers::{line as due, Answer, Decided, Line, ABSENT, FLAGS};
use crate::cases::{block_sheet, sentence_sheet};
use crate::comparisons::frames::{ask_blocks, ask_sentences, run};
use crate::judges::reader::read;
use crate::sentences::{line, of_line};
use crate::stored::verdicts::{self, Case};
use crate::stored::List;

/// Generated sheets in the list, aimed at verdicts and at sentences, and the seed
/// that they depend on. The sentences of so many of the former are there too.
const SHEETS: usize = 300;
const AIMED_AT_SENTENCES: usize = 60;
const WITH_SENTENCES: usize = 60;
const SEED: u64 = 2_016;

/// Longer sheets are passed over.
const MOST_BYTES: usize = 1_500;

/// The cases of a text.
pub fn cases(text: &str) -> Result<Vec<Case>, String> {
    verdicts::cases(text, "blocks")
}

/// Accepted sheets of a generator, none of them long, with their names.
fn generated(
    count: usize,
    name: &str,
    sheet: impl Fn(u64, u64, bool) -> Vec<u8>,
) -> Vec<(String, Vec<u8>)> {
    let sheets = (0..).map(|index| (index, sheet(SEED, index, false)));
    let fit = sheets.filter(|(_, sheet)| sheet.len() <= MOST_BYTES && read(sheet).is_ok());
    fit.take(count).map(|(index, sheet)| (format!("{name} {index}"), sheet)).collect()
}

/// A question.
struct Asked {
    name: String,
    frame: Vec<u8>,
    /// The line that is due by the given source's, if that one answers in full.
    due: fn(&str) -> Option<String>,
    /// The line that was worked out by hand.
    by_hand: Option<String>,
}

impl Asked {
    fn verdicts(name: &str, sheet: &[u8], by_hand: Option<String>) -> Asked {
        let mut frame = Vec::new();
        ask_blocks(&mut frame, sheet);
        let due = |line: &str| answers(line).map(|answers| due("blocks", &answers));
        Asked { name: name.to_string(), frame, due, by_hand }
    }

    fn sentences(name: &str, sheet: &[u8], by_hand: Option<String>) -> Asked {
        let mut frame = Vec::new();
        ask_sentences(&mut frame, sheet);
        let due = |line: &str| of_line(line).map(|_| line.to_string());
        Asked { name: format!("{name}, sentences"), frame, due, by_hand }
    }
}

/// Adds the cases by hand and the generated ones with the answers of the given
/// source. A case by hand that it answers otherwise is an error. Where it is
/// absent, only the cases by hand have lines.
pub fn store(by_hand: &[Case], given: &[String], list: &mut List) -> Result<(), String> {
    let mut asked = Vec::new();
    for Case { name, sheet, expected, .. } in by_hand {
        asked.push(Asked::verdicts(name, sheet, Some(due("blocks", expected))));
    }
    for Case { name, sheet, sentences, .. } in by_hand {
        let Some(sentences) = sentences else { continue };
        let line = line(sentences.iter().map(String::as_str));
        asked.push(Asked::sentences(name, sheet, Some(line)));
    }
    let sheets = generated(SHEETS, "sheet", block_sheet::sheet);
    let aimed = generated(AIMED_AT_SENTENCES, "sheet for sentences", sentence_sheet::sheet);
    for (name, sheet) in sheets.iter().chain(&aimed) {
        asked.push(Asked::verdicts(name, sheet, None));
    }
    for (name, sheet) in sheets[..WITH_SENTENCES].iter().chain(&aimed) {
        asked.push(Asked::sentences(name, sheet, None));
    }
    let input: Vec<u8> = asked.iter().flat_map(|asked| asked.frame.clone()).collect();
    let lines = run(given, input.clone()).map_err(|error| format!("{}: {error}", given[0]))?;
    list.frames.extend(input);
    let absent = lines.first().is_some_and(|line| line == ABSENT);
    let mut lines = lines.iter().map(String::as_str).chain(std::iter::repeat("no line"));
    for Asked { name, due, by_hand, .. } in asked {
        let line = lines.next().unwrap_or_default();
        match (by_hand, due(line)) {
            (None, _) if absent => list.open += 1,
            (Some(by_hand), _) if absent => list.lines.push(by_hand),
            (None, Some(found)) => list.lines.push(found),
            (Some(by_hand), Some(found)) if by_hand == found => list.lines.push(found),
            _ => return Err(otherwise(&name, line)),
        }
    }
    Ok(())
}

fn otherwise(name: &str, line: &str) -> String {
    format!("case {name}: the given source says '{line}'")
}

/// The given source's answers, if all of them are answers on blocks.
fn answers(line: &str) -> Option<Vec<Answer>> {
    let Line::Answers { blocks, .. } = Line::parse(line) else {
        return None;
    };
    let known = |answer: &Answer| match answer {
        Answer::NoBranch | Answer::Undecided => true,
        Answer::Decided(Decided { reason, .. }) => *reason == FLAGS,
        Answer::Refused(_) | Answer::NotRun => false,
    };
    blocks.iter().all(known).then_some(blocks)
}
