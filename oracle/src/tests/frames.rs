//! Programs under test.

use crate::comparisons::frames::run;

#[test]
fn a_program_that_ends_too_early_is_an_error() {
    let written = |text: &str| run(&["printf".to_string(), text.to_string()], Vec::new());
    assert_eq!(written("holds\\nfails\\n").unwrap(), ["holds", "fails"]);
    assert!(written("holds\\nended too early\\n").is_err());
    assert!(written("blocks a1ended too early\\n").is_err());
}
