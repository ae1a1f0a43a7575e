//! Stored cases of the evaluation. README.md describes their text.

use crate::comparisons::frames::ask_evaluation;
use crate::judges::evaluator::{evaluation, joined, line, wrapped, Answer};
use crate::judges::reader::Refusal;
use crate::sheets::names::{number_of, refusal, value_type};
use crate::sheets::words::parse_number;
use crate::stored::text::{sheet_of, sources, Source};
use crate::stored::List;

pub struct Case {
    pub name: String,
    pub sheet: Vec<u8>,
    pub number: u32,
    pub values: Vec<u64>,
    pub expected: Answer,
}

/// Where a sheet's node starts if there is nothing before it.
const FIRST_NODE: usize = 6;

/// All cases of a text, each checked against the evaluator.
pub fn cases(text: &str) -> Result<Vec<Case>, String> {
    let mut list = Vec::new();
    for source in sources(text)? {
        let made = one_source(&source).map_err(|error| format!("case {}: {error}", source.name))?;
        list.extend(made);
    }
    list.iter().try_for_each(check)?;
    Ok(list)
}

fn one_source(source: &Source) -> Result<Vec<Case>, String> {
    let (rows, _) = source.split("value");
    let (expectations, body) = source.split("expect");
    match (rows.is_empty(), expectations.is_empty()) {
        (false, true) => rows.iter().try_fold(Vec::new(), |mut list, (number, row)| {
            let made = row_cases(row).map_err(|error| format!("line {number}: {error}"))?;
            list.extend(made.into_iter().map(|case| named(source, *number, case)));
            Ok(list)
        }),
        (true, false) => {
            let (sheet, _) = sheet_of(&body, source.first_line)?;
            let one = |(number, words): &(usize, &str)| {
                let run = run_of(words).map_err(|error| format!("line {number}: {error}"))?;
                Ok(named(source, *number, Run { sheet: sheet.clone(), ..run }))
            };
            expectations.iter().map(one).collect()
        }
        _ => Err("either lines 'expect ...' and a sheet, or lines 'value ...'".to_string()),
    }
}

/// A case without its name.
struct Run {
    sheet: Vec<u8>,
    number: u32,
    values: Vec<u64>,
    expected: Answer,
}

fn named(source: &Source, line: usize, run: Run) -> Case {
    let Run { sheet, number, values, expected } = run;
    Case { name: format!("{}, line {line}", source.name), sheet, number, values, expected }
}

/// `expect ANSWER [node N] [with VALUES]`; the sheet is added later.
fn run_of(text: &str) -> Result<Run, String> {
    let words: Vec<&str> = text.split_whitespace().skip(1).collect();
    let unclear = || format!("unclear expectation '{text}'");
    let number = |word: &str| parse_number(word).ok_or_else(unclear);
    let (expected, rest) = match words.as_slice() {
        ["holds", rest @ ..] => (Ok(true), rest),
        ["fails", rest @ ..] => (Ok(false), rest),
        ["refused", n, "at", p, rest @ ..] => {
            let refusal = Refusal { number: number(n)? as u8, place: number(p)? as usize };
            (Err(refusal), rest)
        }
        _ => return Err(unclear()),
    };
    let (node, rest) = match rest {
        ["node", node, rest @ ..] => (number(node)? as u32, rest),
        rest => (0, rest),
    };
    let values = match rest {
        ["with", values @ ..] => {
            values.iter().map(|word| number(word)).collect::<Result<_, _>>()?
        }
        [] => Vec::new(),
        _ => return Err(unclear()),
    };
    Ok(Run { sheet: Vec::new(), number: node, values, expected })
}

/// A whole number: a minus is its sign.
fn whole(word: &str) -> Result<i128, String> {
    let (digits, sign) = word.strip_prefix('-').map_or((word, 1), |digits| (digits, -1));
    let value = parse_number(digits).ok_or_else(|| format!("'{word}' is not a number"))?;
    Ok(sign * i128::from(value))
}

fn lent(word: &str, code: u8) -> Result<u64, String> {
    let value = whole(word)?;
    if wrapped(value, code) != value {
        return Err(format!("{word} is no value of {}", value_type::NAMES[code as usize]));
    }
    Ok(crate::judges::evaluator::lent(value, code))
}

/// The cases of a line `value EXPRESSION of TYPES: VALUES = RESULT, ...`.
fn row_cases(row: &str) -> Result<Vec<Run>, String> {
    let parts = row.strip_prefix("value ").and_then(|row| row.rsplit_once(" of"));
    let parts = parts.and_then(|(part, rest)| Some((part, rest.split_once(':')?)));
    let Some((part, (types, runs))) = parts else {
        return Err("'value EXPRESSION of TYPES: VALUES = RESULT' is needed".to_string());
    };
    let codes: Vec<u8> = types
        .split_whitespace()
        .map(|name| {
            number_of(value_type::NAMES, name).ok_or_else(|| format!("'{name}' is not a type"))
        })
        .collect::<Result<_, _>>()?;
    let sheet = sheet_of_row(part, types, codes.len())?;
    let mut list = Vec::new();
    for run in runs.split(',') {
        let (words, result) =
            run.split_once('=').ok_or_else(|| format!("'{}' has no result", run.trim()))?;
        let words: Vec<&str> = words.split_whitespace().collect();
        if words.len() != codes.len() {
            return Err(format!("'{}' needs a value for each type", run.trim()));
        }
        let values: Vec<u64> = words
            .iter()
            .zip(&codes)
            .map(|(word, code)| lent(word, *code))
            .collect::<Result<_, _>>()?;
        list.extend(result_cases(&sheet, &values, result.trim())?);
    }
    Ok(list)
}

/// The part's 64 bits compared with one variable, and whether it is negative
/// with another. The two fix the value, whatever the part's type is.
fn sheet_of_row(part: &str, types: &str, count: usize) -> Result<Vec<u8>, String> {
    let value = format!("(== (cast s64 {part}) v{count})");
    let sign = format!("(== (< {part} (cast s32 0:1)) v{})", count + 1);
    let text = format!("node\nvars {types} s64 bool\ncond (&& {value} {sign})");
    Ok(sheet_of(&text.lines().collect::<Vec<&str>>(), 1)?.0)
}

/// The node holds for the result, and fails for a neighbour and for the other
/// sign; for the result `none` it divides by zero.
fn result_cases(sheet: &[u8], values: &[u64], result: &str) -> Result<Vec<Run>, String> {
    let run = |value: u64, negative: u64, expected: Answer| Run {
        sheet: sheet.to_vec(),
        number: 0,
        values: [values, &[value, negative]].concat(),
        expected,
    };
    if result == "none" {
        return Ok(vec![run(0, 0, Err(Refusal { number: refusal::DIVISION, place: FIRST_NODE }))]);
    }
    let result = whole(result)?;
    let (value, negative) = (result as u64, u64::from(result < 0));
    Ok(vec![
        run(value, negative, Ok(true)),
        run(value ^ 1, negative, Ok(false)),
        run(value, negative ^ 1, Ok(false)),
    ])
}

fn check(case: &Case) -> Result<(), String> {
    let found = evaluation(&case.sheet, case.number, &case.values);
    if found == case.expected {
        return Ok(());
    }
    let [expected, found] = [line(&case.expected), line(&found)];
    Err(format!("case {}: expected {expected}, the evaluator says {found}", case.name))
}

/// Adds the cases with the answers expected of them: one frame for those that
/// follow each other with the same sheet, node and number of values.
pub fn store(cases: &[Case], list: &mut List) {
    let alike = |a: &Case, b: &Case| {
        (a.number, a.values.len()) == (b.number, b.values.len()) && a.sheet == b.sheet
    };
    for group in cases.chunk_by(alike) {
        let sets: Vec<&[u64]> = group.iter().map(|case| case.values.as_slice()).collect();
        ask_evaluation(&mut list.frames, &group[0].sheet, group[0].number, &sets);
        list.lines.push(joined(group.iter().map(|case| &case.expected)));
    }
}
