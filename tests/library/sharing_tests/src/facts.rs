//! What a test asserts.

use std::process::Abort;

// That a fact holds. An assertion is a path of its own wherever it is, so it is here.
pub(crate) fn holds(rt: &impl Abort, fact: bool) {
    assert!(rt; fact);
}

// That two texts are the same, for what a row of a table shows.
pub(crate) fn is_text(rt: &impl Abort, what: &str, found: &str, expected: &str) {
    assert!(rt; found == expected, "{what}: {found}");
}
