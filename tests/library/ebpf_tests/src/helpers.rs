//! What `one` and `replay` say of programs that call helpers.

use crate::events::is_replayed;
use crate::programs::{asked, column, holds, how, is_text};
use ebpf_command::done::Done;
use ebpf_input::form::Form;
use ebpf_one::one::one;
use std::alloc::Global;
use std::process::Abort;
use std::test::*;

// The options, or `-` for none, the program, and what is reported, a `;` for each end of a line.
const PROGRAMS: &str = "\
# no helper has this number
- | 85000000090000009500000000000000 | refused V14 0;
# a number is emitted
- | b70100000500000085000000030000009500000000000000 | accepted 3;emit 5;exit 0 executed 3 peak 0;
# an object is granted, or not, and compared with null; where it is there it is written, read and freed
--held 1 | b701000000000000850000000100000015000500000000007a000000050000007906000000000000bf010000000000008500000002000000bf600000000000009500000000000000 | accepted 9;exit 5 executed 9 peak 1;
--held 1 --nulls | b701000000000000850000000100000015000500000000007a000000050000007906000000000000bf010000000000008500000002000000bf600000000000009500000000000000 | accepted 9;exit 0 executed 4 peak 0;
# none is declared
- | b701000000000000850000000100000015000500000000007a000000050000007906000000000000bf010000000000008500000002000000bf600000000000009500000000000000 | refused V16 1;
# it is not compared with null
--held 1 | b70100000000000085000000010000007a000000050000007906000000000000bf010000000000008500000002000000bf600000000000009500000000000000 | refused V11 2;
# it is held at the exit
--held 1 | b70100000000000085000000010000001500020000000000b70000000000000095000000000000009500000000000000 | refused V17 4;
# it is held on one of the paths that meet
--held 1 | b7010000000000008500000001000000150004000000000079060000000000001506020000000000bf0100000000000085000000020000009500000000000000 | refused V19 7;
# it is freed twice
--held 1 | b701000000000000850000000100000015000700000000007a000000050000007906000000000000bf010000000000008500000002000000bf010000000000008500000002000000bf600000000000009500000000000000 | refused V15 8;
# its last 8 bytes are written, or a byte after them
--held 1 | b701000000000000850000000100000015000500000000007a000800050000007906000000000000bf010000000000008500000002000000bf600000000000009500000000000000 | accepted 9;exit 0 executed 9 peak 1;
--held 1 | b701000000000000850000000100000015000500000000007a000900050000007906000000000000bf010000000000008500000002000000bf600000000000009500000000000000 | refused V10 3;
# another register has it when it is freed, and is unset from then on
--held 1 | b70100000000000085000000010000001500040000000000bf06000000000000bf01000000000000850000000200000079600000000000009500000000000000 | refused V1 6;
# it is put on the shelf of its kind, or of another
--held 1 | b701000000000000850000000100000015000800000000007a00000005000000bf02000000000000b70100000000000085000000040000001500020000000000bf010000000000008500000002000000b7000000010000009500000000000000 | accepted 12;exit 1 executed 10 peak 1;
--held 1 | b701000000000000850000000100000015000800000000007a00000005000000bf02000000000000b70100000100000085000000040000001500020000000000bf010000000000008500000002000000b7000000010000009500000000000000 | refused V15 6;
# nothing is on the shelf; none is declared
--held 1 | b701000000000000b702000000000000850000000400000015000400000000007906000000000000bf010000000000008500000002000000bf600000000000009500000000000000 | accepted 9;exit 0 executed 5 peak 0;
- | b701000000000000b702000000000000850000000400000015000400000000007906000000000000bf010000000000008500000002000000bf600000000000009500000000000000 | refused V16 2;";

// Tries a row of `PROGRAMS`.
fn is_run(rt: &impl Abort, alloc: Global, row: &str) {
    let (options, rest) = column(rt, row);
    let (input, expected) = column(rt, rest);
    let expected = expected
        .replace(alloc, ';', "\n")
        .expect(rt, "out of memory");
    let held = u8::from(options.contains("--held 1"));
    let nulls = options.contains("--nulls");
    let mut reader = input.as_bytes();
    let mut written = Vec::new(alloc);
    let done = one(
        alloc,
        &mut reader,
        &mut written,
        &asked(Form::Hex, "-", held),
        how(nulls),
    )
    .expect(rt, "it is done");
    let text = str::from_utf8(&written).expect(rt, "it is a text");
    is_text(rt, row, text, expected.as_str());
    let is_refused = text.starts_with("refused ");
    holds(rt, row, matches!(done, Done::Refused) == is_refused);
}

#[test]
fn calls_are_reported(rt: HostRuntime) {
    for row in PROGRAMS.lines() {
        if !row.starts_with('#') {
            is_run(&rt, rt.alloc(), row);
        }
    }
}

// A program that asks for an object, compares it with null, writes, reads and frees it.
const ASKS: &str = "\
program p 0 1 b701000000000000850000000100000015000500000000007a000000050000007906000000000000bf010000000000008500000002000000bf600000000000009500000000000000
";

// What is answered, the events after `ASKS`, a `;` for each end of a line, and what is reported of them.
const ANSWERS: &str = "\
the answer is null | start p -;exec 0;exec 0 null;exec 0;exec 0; | run 0 exit 0 executed 4;kind 0 slots 0 held 0;kind 1 slots 0 held 0;kind 2 slots 0 held 0;
the answer is a slot of no ledger | start p -;exec 0;exec 0 0; | stopped E3 2;
there is none | start p -;exec 0;exec 0; | stopped E6 2;
it comes before the call | start p -;exec 0 null; | stopped E5 1;
it comes twice | start p -;exec 0;exec 0 null;exec 0 null; | stopped E5 3;";

#[test]
fn answers_to_a_call_are_reported(rt: HostRuntime) {
    for row in ANSWERS.lines() {
        is_replayed(&rt, rt.alloc(), ASKS, "p accepted 9\n", row);
    }
}
