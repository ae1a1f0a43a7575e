//! The words of a command line: options anywhere among the others, `--` before words that
//! are none, `-` for standard input or output.

use std::collections::BTreeMap;

/// The options that there are, without and with a value.
pub struct Known {
    pub flags: &'static [&'static str],
    pub values: &'static [&'static str],
}

#[derive(Debug, Default)]
pub struct Options {
    /// The options that were named, with their values.
    named: BTreeMap<String, Option<String>>,
    pub words: Vec<String>,
}

impl Options {
    pub fn parse(words: &[String], known: &Known) -> Result<Options, String> {
        let mut options = Options::default();
        let mut words = words.iter();
        while let Some(word) = words.next() {
            let (name, value) = match word.split_once('=') {
                Some((name, value)) => (name, Some(value.to_string())),
                None => (word.as_str(), None),
            };
            if word == "--" {
                options.words.extend(words.by_ref().cloned());
            } else if !word.starts_with('-') || word == "-" {
                options.words.push(word.clone());
            } else if known.flags.contains(&name) && value.is_none() {
                options.named.insert(name.to_string(), None);
            } else if known.values.contains(&name) {
                let value = value.or_else(|| words.next().cloned());
                let value = value.ok_or_else(|| format!("{name} needs a value"))?;
                options.named.insert(name.to_string(), Some(value));
            } else {
                return Err(format!("unknown option {word}"));
            }
        }
        Ok(options)
    }

    /// Whether there is a word for each of these, behind that for the command, and none
    /// besides.
    pub fn expect(&self, words: &[&str]) -> Result<(), String> {
        let found = self.words.len() - 1;
        match (words.get(found), self.words.get(words.len() + 1)) {
            (Some(missing), _) => Err(format!("{missing} is missing")),
            (_, Some(word)) => Err(format!("'{word}' is one word too many")),
            (None, None) => Ok(()),
        }
    }

    /// Whether no option is named.
    pub fn expect_none(&self) -> Result<(), String> {
        match self.named.keys().next() {
            Some(name) => Err(format!("{name} is not for {}", self.words[0])),
            None => Ok(()),
        }
    }

    pub fn has(&self, name: &str) -> bool {
        self.named.contains_key(name)
    }

    pub fn value(&self, name: &str) -> Option<&str> {
        self.named.get(name)?.as_deref()
    }
}
