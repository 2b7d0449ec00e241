//! What `one` and `explain` say if a caller asks for more held objects than the command line lets through, and what the
//! commands over one program say of raw bytes.

use crate::programs::{asked, holds, how};
use ebpf_command::done::Done;
use ebpf_command::format::Format;
use ebpf_input::ask::Input;
use ebpf_input::form::Form;
use ebpf_one::lay_out::lay_out;
use ebpf_one::list::list;
use ebpf_one::one::one;
use ebpf_show::explain::explain;
use std::alloc::Global;
use std::process::Abort;
use std::test::*;

// The input, the context's text, how many objects to hold, and what is reported.
static HELD: [(&str, &str, u8, &str); 4] = [
    (
        "b7000000 07000000  95000000 00000000\n",
        "0aFF",
        64,
        "accepted 2\nexit 7 executed 2 peak 0\n",
    ),
    ("9500000000000000", "-", 65, "fault S4 line 0\n"),
    // it goes before the context
    ("9500000000000000", "zz", 65, "fault S4 line 0\n"),
    // the input goes before it
    ("b70", "-", 65, "fault S5 line 0\n"),
];

// The same, and what is reported by `explain`.
static EXPLAINED: [(&str, &str, u8, &str); 3] = [
    (
        "9500000000000000",
        "-",
        65,
        "fault S4 line 0\n  65 objects are to be held: at most 64 can be declared\n",
    ),
    // it goes before the context
    (
        "9500000000000000",
        "zz",
        255,
        "fault S4 line 0\n  255 objects are to be held: at most 64 can be declared\n",
    ),
    // the input goes before it
    (
        "b70",
        "-",
        65,
        "fault S5 line 0\n  the input has an odd number of hex digits, 3: two make a byte\n",
    ),
];

// Tries a row, with nulls or without.
fn is_written(rt: &impl Abort, alloc: Global, row: (&str, &str, u8, &str), nulls: bool) {
    let (input, context, held, text) = row;
    let mut reader = input.as_bytes();
    let mut written = Vec::new(alloc);
    let done = one(
        alloc,
        &mut reader,
        &mut written,
        &asked(Form::Hex, context, held),
        how(nulls),
    )
    .expect(rt, "it is done");
    let is_clean = matches!(done, Done::Clean);
    holds(
        rt,
        text,
        is_clean == (held == 64) && written.as_slice() == text.as_bytes(),
    );
}

#[test]
fn more_than_64_held_is_a_fault(rt: HostRuntime) {
    for row in HELD.iter().copied() {
        is_written(&rt, rt.alloc(), row, false);
        is_written(&rt, rt.alloc(), row, true);
    }
}

// Tries a row of `explain`.
fn is_explained_so(rt: &impl Abort, alloc: Global, row: (&str, &str, u8, &str)) {
    let (input, context, held, text) = row;
    let mut reader = input.as_bytes();
    let mut written = Vec::new(alloc);
    let done = explain(
        alloc,
        &mut reader,
        &mut written,
        &asked(Form::Hex, context, held),
        false,
    )
    .expect(rt, "it is done");
    let is_refused = matches!(done, Done::Refused);
    holds(
        rt,
        text,
        is_refused && written.as_slice() == text.as_bytes(),
    );
}

#[test]
fn more_than_64_held_is_explained(rt: HostRuntime) {
    for row in EXPLAINED.iter().copied() {
        is_explained_so(&rt, rt.alloc(), row);
    }
}

// A program that returns 7, as it is.
const SEVEN: &[u8] = b"\xb7\0\0\0\x07\0\0\0\x95\0\0\0\0\0\0\0";

// Each command, and what it says of `SEVEN`.
static OF_RAW: [(&str, &str); 4] = [
    ("one", "accepted 2\nexit 7 executed 2 peak 0\n"),
    ("list", "0: mov64 r0, 7\n1: exit\n"),
    (
        "explain",
        "  r1 context+0  r10 stack+0\n0: mov64 r0, 7\n  r0 7  r1 context+0  r10 stack+0\n1: exit\naccepted 2\n",
    ),
    ("lay-out", "b7000000070000009500000000000000\n"),
];

// Tries a row of it.
fn is_text_of_raw(rt: &impl Abort, alloc: Global, command: &str, text: &str) {
    let mut reader = SEVEN;
    let mut written = Vec::new(alloc);
    let done = match command {
        "one" => one(alloc, &mut reader, &mut written, &asked(Form::Raw, "-", 0), how(false)),
        "list" => list(alloc, &mut reader, &mut written, Format::Text, &Input::Program(Form::Raw), false),
        "explain" => explain(alloc, &mut reader, &mut written, &asked(Form::Raw, "-", 0), false),
        _ => lay_out(alloc, &mut reader, &mut written, &asked(Form::Raw, "-", 0)),
    };
    let is_clean = matches!(done, Ok(Done::Clean));
    holds(
        rt,
        command,
        is_clean && written.as_slice() == text.as_bytes(),
    );
}

#[test]
fn raw_bytes_are_read_as_they_are(rt: HostRuntime) {
    for (command, text) in OF_RAW.iter().copied() {
        is_text_of_raw(&rt, rt.alloc(), command, text);
    }
}

// Asks for a cell, writes to it, reads it and frees it.
const ASKS: &str = "b701000000000000850000000100000015000500000000007a000000050000007906000000000000bf010000000000008500000002000000bf600000000000009500000000000000";

// What is reported of that many of its first bytes.
fn text_of_first(bytes: usize) -> &'static str {
    match bytes {
        // its second slot, the call, is not there, or what follows it, or what the branch jumps to
        8 => "refused F4 0\n",
        16 => "refused F4 1\n",
        24 | 32 | 40 | 48 | 56 | 64 => "refused F1 2\n",
        72 => "accepted 9\nexit 5 executed 9 peak 1\n",
        _ => "refused I1 0\n",
    }
}

// Tries that many of its first bytes.
fn is_text_of_first(rt: &impl Abort, alloc: Global, bytes: usize) {
    let mut reader = &ASKS.as_bytes()[..2 * bytes];
    let mut written = Vec::new(alloc);
    let done = one(
        alloc,
        &mut reader,
        &mut written,
        &asked(Form::Hex, "-", 1),
        how(false),
    )
    .expect(rt, "it is done");
    let text = text_of_first(bytes);
    let is_clean = matches!(done, Done::Clean);
    assert!(rt;
        is_clean == (bytes == 72) && written.as_slice() == text.as_bytes(),
        "{bytes} bytes"
    );
}

#[test]
fn a_program_that_is_cut_off_is_refused(rt: HostRuntime) {
    for bytes in 0..=72 {
        is_text_of_first(&rt, rt.alloc(), bytes);
    }
}
