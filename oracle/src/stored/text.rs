//! The text of stored cases: `case NAME`, lines with what is expected, and a
//! sheet as text or as lines `hex ...`.

use crate::sheets::encode::Field;
use crate::sheets::from_text::write_from;
use crate::sheets::words::parse_hex;

/// The lines of one case, the first of them numbered `first_line`.
pub struct Source<'a> {
    pub name: &'a str,
    pub first_line: usize,
    lines: Vec<&'a str>,
}

impl Source<'_> {
    /// The lines that start with the word `first`, each with its number and
    /// without a comment, and all lines with empty ones in their places, so
    /// that line numbers stay.
    pub fn split(&self, first: &str) -> (Vec<(usize, &str)>, Vec<&str>) {
        let (mut chosen, mut rest) = (Vec::new(), Vec::new());
        for (number, line) in (self.first_line..).zip(&self.lines) {
            let content = line.split('#').next().unwrap_or("").trim();
            let found = content.split_whitespace().next() == Some(first);
            if found {
                chosen.push((number, content));
            }
            rest.push(if found { "" } else { *line });
        }
        (chosen, rest)
    }

    /// The words of the one line `expect ...`, and the other lines.
    pub fn parts(&self) -> Result<(Vec<&str>, Vec<&str>), String> {
        let (expectations, body) = self.split("expect");
        let [(_, expectation)] = expectations.as_slice() else {
            return Err("one line 'expect ...' is needed".to_string());
        };
        Ok((expectation.split_whitespace().skip(1).collect(), body))
    }
}

pub fn sources(text: &str) -> Result<Vec<Source<'_>>, String> {
    let mut list: Vec<Source> = Vec::new();
    for (index, line) in text.lines().enumerate() {
        let blank = line.split('#').next().unwrap_or("").trim().is_empty();
        if let Some(name) = line.strip_prefix("case ") {
            list.push(Source { name: name.trim(), first_line: index + 2, lines: Vec::new() });
        } else if let Some(source) = list.last_mut() {
            source.lines.push(line);
        } else if !blank {
            return Err(format!("line {}: a case is expected first", index + 1));
        }
    }
    Ok(list)
}

/// A sheet from its lines, with its fields where it is text.
pub fn sheet_of(lines: &[&str], first_line: usize) -> Result<(Vec<u8>, Vec<Field>), String> {
    let content = |line: &str| line.split('#').next().unwrap_or("").trim().to_string();
    let filled: Vec<String> =
        lines.iter().map(|line| content(line)).filter(|line| !line.is_empty()).collect();
    if filled.first().is_some_and(|line| line == "hex" || line.starts_with("hex ")) {
        let digits: String =
            filled.iter().map(|line| line.trim_start_matches("hex").replace(' ', "")).collect();
        let bytes = parse_hex(&digits).ok_or("the hex lines are not pairs of digits")?;
        return Ok((bytes, Vec::new()));
    }
    let written = write_from(&lines.join("\n"), first_line).map_err(|error| error.to_string())?;
    Ok((written.bytes, written.fields))
}
