//! The words of a command line.

use crate::options::{Known, Options};

const KNOWN: Known = Known { flags: &["--plain"], values: &["--value"] };

fn parsed(words: &str) -> Result<Options, String> {
    let words: Vec<String> = words.split(' ').map(str::to_string).collect();
    Options::parse(&words, &KNOWN)
}

#[test]
fn options_stand_anywhere() {
    for words in ["--plain do a --value v", "do a --value v --plain", "--value=v do --plain a"] {
        let options = parsed(words).unwrap();
        assert_eq!(options.words, ["do", "a"], "{words}");
        assert!(options.has("--plain"));
        assert_eq!(options.value("--value"), Some("v"));
        assert!(options.expect_none().is_err());
    }
    let options = parsed("do - -- --plain").unwrap();
    assert_eq!(options.words, ["do", "-", "--plain"]);
    assert!(!options.has("--plain") && options.value("--value").is_none());
    assert_eq!(options.expect_none(), Ok(()));
}

#[test]
fn wrong_words_are_named() {
    let error = |words: &str| parsed(words).expect_err(words);
    assert_eq!(error("do --other"), "unknown option --other");
    assert_eq!(error("do --plain=1"), "unknown option --plain=1");
    assert_eq!(error("do --value"), "--value needs a value");
    let counted = |words: &str| parsed(words).unwrap().expect(&["one", "another"]);
    assert_eq!(counted("do a b"), Ok(()));
    assert_eq!(counted("do a"), Err("another is missing".to_string()));
    assert_eq!(counted("do"), Err("one is missing".to_string()));
    assert_eq!(counted("do a b c"), Err("'c' is one word too many".to_string()));
    let plain = parsed("do --plain").unwrap().expect_none();
    assert_eq!(plain, Err("--plain is not for do".to_string()));
}
