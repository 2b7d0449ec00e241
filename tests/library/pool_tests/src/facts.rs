//! What a test asserts.

use std::process::Abort;

// That a fact holds. An assertion is a path of its own wherever it is, so it is here.
pub(crate) fn holds(rt: &impl Abort, what: &str, fact: bool) {
    assert!(rt; fact, "{what}");
}

// That a row is reported as it says.
pub(crate) fn is_text(rt: &impl Abort, row: &str, text: &str, expected: &str) {
    assert!(rt; text == expected, "{row}: {text}");
}
