//! Rows of a table, and the programs that are in them as hex.
//!
//! What can't be read ends the test: there is nothing to clean up, and no path back to be translated and proved.

use ebpf_command::format::Format;
use ebpf_input::ask::{Ask, Input};
use ebpf_input::form::Form;
use ebpf_insn::decode::decode;
use ebpf_insn::program::Program;
use ebpf_one::how::How;
use std::alloc::Global;
use std::process::Abort;

// The first column of a row, and the others.
pub(crate) fn column<'a>(rt: &impl Abort, row: &'a str) -> (&'a str, &'a str) {
    row.split_once(" | ").expect(rt, "a column is missing")
}

// The bytes of hex digits.
pub(crate) fn bytes_of(rt: &impl Abort, alloc: Global, digits: &str) -> Vec<u8> {
    hex::decode(alloc, digits.as_bytes()).expect(rt, "these are no bytes")
}

// The program of hex digits.
pub(crate) fn program_of(rt: &impl Abort, alloc: Global, digits: &str) -> Program {
    let bytes = bytes_of(rt, alloc, digits);
    decode(alloc, &bytes).expect(rt, "these bytes are no program")
}

// That a fact holds. An assertion is a path of its own wherever it is, so it is here.
pub(crate) fn holds(rt: &impl Abort, what: &str, fact: bool) {
    assert!(rt; fact, "{what}");
}

// That a row is reported as it says.
pub(crate) fn is_text(rt: &impl Abort, row: &str, text: &str, expected: &str) {
    assert!(rt; text == expected, "{row}: {text}");
}

// What is asked of a command of a program in a form, to be answered as text.
pub(crate) fn asked(form: Form, context: &str, held: u8) -> Ask<'_> {
    Ask {
        input: Input::Program(form),
        format: Format::Text,
        context,
        held,
    }
}

// How a program is run that isn't traced.
pub(crate) fn how(nulls: bool) -> How<'static> {
    How::new(nulls, None, false)
}
