//! Stored cases of the verdicts by hand: sheets that are accepted, with the
//! answers on their blocks or on their nodes.

use crate::answers::{answers, Answer};
use crate::judges::reader::read;
use crate::stored::text::{sheet_of, sources, Source};

pub struct Case {
    pub name: String,
    pub sheet: Vec<u8>,
    pub expected: Vec<Answer>,
    /// The given source's answers as it is, where they are others.
    pub given: Option<Vec<Answer>>,
    /// The sentences of all blocks, where the case has them; empty for a block
    /// without a verdict.
    pub sentences: Option<Vec<String>>,
}

impl Case {
    /// What the given source is to answer as it is.
    pub fn stated(&self) -> &[Answer] {
        self.given.as_ref().unwrap_or(&self.expected)
    }
}

/// The cases of a text: `case NAME`, `expect RECORDS ...`, at times
/// `given RECORDS ...` or a line `sentence ...` for each decided block, the sheet.
/// `records` is the word, blocks or nodes.
pub fn cases(text: &str, records: &str) -> Result<Vec<Case>, String> {
    let named = |source: &Source| format!("case {}: ", source.name);
    let list = sources(text)?;
    list.iter().map(|source| one(source, records).map_err(|error| named(source) + &error)).collect()
}

fn one(source: &Source, records: &str) -> Result<Case, String> {
    let (expectation, body) = source.parts()?;
    let [given, sentences] = ["given", "sentence"].map(|first| source.split(first).0);
    let body: Vec<&str> = body
        .into_iter()
        .map(|line| match line.split_whitespace().next() {
            Some("given" | "sentence") => "",
            _ => line,
        })
        .collect();
    let given = match given.as_slice() {
        [] => None,
        [(_, line)] => {
            Some(answers_on(&line.split_whitespace().skip(1).collect::<Vec<&str>>(), records)?)
        }
        _ => return Err("more than one line 'given ...'".to_string()),
    };
    let expected = answers_on(&expectation, records)?;
    let sentences = match sentences.as_slice() {
        [] => None,
        lines => Some(sentences_of(lines, &expected)?),
    };
    let (sheet, _) = sheet_of(&body, source.first_line)?;
    read(&sheet).map_err(|refusal| refusal.to_string())?;
    Ok(Case { name: source.name.to_string(), sheet, expected, given, sentences })
}

/// The sentences of all blocks, from the lines for the decided ones.
fn sentences_of(lines: &[(usize, &str)], expected: &[Answer]) -> Result<Vec<String>, String> {
    let decided = |answer: &&Answer| matches!(answer, Answer::Decided(_));
    if expected.iter().filter(decided).count() != lines.len() {
        return Err("a line 'sentence ...' for each decided block is needed".to_string());
    }
    let mut texts = lines.iter().map(|(_, line)| written_out(line["sentence".len()..].trim()));
    let text = |answer: &Answer| match answer {
        Answer::Decided(_) => texts.next().expect("they were just counted"),
        _ => Ok(String::new()),
    };
    expected.iter().map(text).collect()
}

/// A text in which `[N WORDS]` stands for N times the words.
fn written_out(text: &str) -> Result<String, String> {
    let Some((before, rest)) = text.split_once('[') else {
        return Ok(text.to_string());
    };
    let unclear = || format!("'{text}' does not say what is repeated");
    let (inside, after) = rest.split_once(']').ok_or_else(unclear)?;
    let (count, words) = inside.split_once(' ').ok_or_else(unclear)?;
    let count = count.parse().map_err(|_| unclear())?;
    Ok(format!("{before}{}{}", words.repeat(count), written_out(after)?))
}

fn answers_on(words: &[&str], records: &str) -> Result<Vec<Answer>, String> {
    match words {
        [first, words @ ..] if *first == records => answers(words),
        _ => Err(format!("'{records} ...' is needed")),
    }
}
