//! The text of a sheet cut into lines of words.
//!
//! A `#` starts a comment, commas count as spaces, brackets of any kind are
//! words of their own. `repeat N { ... }` stands for N copies of the words,
//! or of the lines, between its braces.

use std::fmt;

#[derive(Clone, Debug, PartialEq, Eq)]
pub struct TextError {
    pub line: usize,
    pub message: String,
}

impl fmt::Display for TextError {
    fn fmt(&self, f: &mut fmt::Formatter) -> fmt::Result {
        write!(f, "line {}: {}", self.line, self.message)
    }
}

pub type Parsed<T> = Result<T, TextError>;

pub fn error<T>(line: usize, message: impl Into<String>) -> Parsed<T> {
    Err(TextError { line, message: message.into() })
}

#[derive(Clone, Debug)]
struct Hints {
    line: usize,
    text: String,
}

const LINE_END: &str = "\n";

/// Copies beyond this many words are taken for a mistake.
const MOST_WORDS: usize = 4_000_000;

fn split(text: &str, first_line: usize) -> Vec<Hints> {
    let mut words = Vec::new();
    for (index, line) in text.lines().enumerate() {
        let mut spaced = String::new();
        for c in line.split('#').next().unwrap_or("").chars() {
            match c {
                '(' | ')' | '[' | ']' | '{' | '}' => spaced.extend([' ', c, ' ']),
                ',' => spaced.push(' '),
                _ => spaced.push(c),
            }
        }
        let at = first_line + index;
        words.extend(spaced.split_whitespace().map(|w| Hints { line: at, text: w.to_string() }));
        words.push(Hints { line: at, text: LINE_END.to_string() });
    }
    words
}

/// Where the brace that closes the one at `open` stands.
fn closing(words: &[Hints], open: usize) -> Parsed<usize> {
    let mut depth = 0;
    for (index, word) in words.iter().enumerate().skip(open) {
        match word.text.as_str() {
            "{" => depth += 1,
            "}" => depth -= 1,
            _ => {}
        }
        if depth == 0 {
            return Ok(index);
        }
    }
    error(words[open].line, "this { has no }")
}

fn expand(words: &[Hints], out: &mut Vec<Hints>) -> Parsed<()> {
    let mut at = 0;
    while at < words.len() {
        let word = &words[at];
        match word.text.as_str() {
            "repeat" => {
                let times = words.get(at + 1).and_then(|w| w.text.parse::<usize>().ok());
                let open = words.get(at + 2).is_some_and(|w| w.text == "{");
                let (Some(times), true) = (times, open) else {
                    return error(word.line, "repeat needs a number and a {");
                };
                let close = closing(words, at + 2)?;
                for _ in 0..times {
                    expand(&words[at + 3..close], out)?;
                }
                at = close;
            }
            "{" | "}" => return error(word.line, "a brace without repeat"),
            _ => out.push(word.clone()),
        }
        if out.len() > MOST_WORDS {
            return error(word.line, "repeat makes the text too long");
        }
        at += 1;
    }
    Ok(())
}

/// The lines of `text` that have words, each with its number, counted from
/// `first_line`.
pub fn lines(text: &str, first_line: usize) -> Parsed<Vec<Line>> {
    let mut words = Vec::new();
    expand(&split(text, first_line), &mut words)?;
    let lines = words.split(|word| word.text == LINE_END).filter(|words| !words.is_empty());
    Ok(lines.map(Line::new).collect())
}

/// The words of one line, taken one after the other.
pub struct Line {
    pub number: usize,
    words: Vec<String>,
    at: usize,
}

impl Line {
    fn new(words: &[Hints]) -> Line {
        let number = words[0].line;
        Line { number, words: words.iter().map(|word| word.text.clone()).collect(), at: 0 }
    }

    pub fn peek(&self) -> Option<&str> {
        self.words.get(self.at).map(String::as_str)
    }

    pub fn error<T>(&self, message: impl Into<String>) -> Parsed<T> {
        error(self.number, message)
    }

    /// The next word; `what` says what is expected.
    pub fn next(&mut self, what: &str) -> Parsed<String> {
        match self.words.get(self.at) {
            Some(word) => {
                self.at += 1;
                Ok(word.clone())
            }
            None => self.error(format!("the line ends where {what} is expected")),
        }
    }

    /// Takes the next word if it is `word`.
    pub fn take(&mut self, word: &str) -> bool {
        let found = self.peek() == Some(word);
        self.at += usize::from(found);
        found
    }

    pub fn expect(&mut self, word: &str) -> Parsed<()> {
        match self.next(&format!("'{word}'"))? {
            found if found == word => Ok(()),
            found => self.error(format!("'{word}' is expected, not '{found}'")),
        }
    }

    pub fn finish(&self) -> Parsed<()> {
        match self.peek() {
            Some(word) => self.error(format!("'{word}' is one word too many")),
            None => Ok(()),
        }
    }

    /// A number no larger than `most`.
    pub fn number(&mut self, what: &str, most: u64) -> Parsed<u64> {
        let word = self.next(what)?;
        match parse_number(&word) {
            Some(value) if value <= most => Ok(value),
            Some(_) => self.error(format!("{what} '{word}' is above {most}")),
            None => self.error(format!("{what} is expected, not '{word}'")),
        }
    }

    pub fn byte(&mut self, what: &str) -> Parsed<u8> {
        self.number(what, 0xFF).map(|value| value as u8)
    }

    /// `count N`, if it stands here.
    pub fn forced_count(&mut self) -> Parsed<Option<u16>> {
        if !self.take("count") {
            return Ok(None);
        }
        self.number("a count", 0xFFFF).map(|value| Some(value as u16))
    }
}

/// Base ten, or hexadecimal behind 0x; a minus gives the 64-bit complement.
pub fn parse_number(word: &str) -> Option<u64> {
    if let Some(positive) = word.strip_prefix('-') {
        return parse_number(positive).map(u64::wrapping_neg);
    }
    match word.strip_prefix("0x") {
        Some(digits) if hex_digits(digits) => u64::from_str_radix(digits, 16).ok(),
        Some(_) => None,
        None if word.starts_with(|c: char| c.is_ascii_digit()) => word.parse().ok(),
        None => None,
    }
}

fn hex_digits(word: &str) -> bool {
    word.bytes().all(|byte| byte.is_ascii_hexdigit())
}

/// Pairs of hexadecimal digits.
pub fn parse_hex(word: &str) -> Option<Vec<u8>> {
    if !word.len().is_multiple_of(2) || !hex_digits(word) {
        return None;
    }
    (0..word.len()).step_by(2).map(|i| u8::from_str_radix(&word[i..i + 2], 16).ok()).collect()
}
