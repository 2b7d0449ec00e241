//! What a test asserts.

use std::process::Abort;

// That a fact holds. An assertion is a path of its own wherever it is, so it is here.
pub(crate) fn holds(rt: &impl Abort, fact: bool) {
    assert!(rt; fact);
}
