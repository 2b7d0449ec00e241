//! What `check` says of scripts, with `--explain` and without.

use crate::programs::{column, holds, is_text};
use ebpf_command::done::Done;
use ebpf_command::format::Format;
use ebpf_script::check;
use ebpf_script::check_script::check_script;
use std::alloc::Global;
use std::process::Abort;
use std::test::*;

// A script, whose lines `;` ends, and what is reported of it.
const SCRIPTS: &str = "\
# the verdicts, in the order of the programs
program a 0 1 b7000000070000009500000000000000; | a accepted 2;
program a 0 0 95; | a refused I1 0;
program b 0 0 9500000000000000;program a 0 0 b7000000070000009500000000000000; | b refused V1 0;a accepted 2;
program f 0 0 b700000007000000;run f -; | f refused F4 0;
# nothing is said of what is to be run, nor of what is skipped
program a 2 1 b7000000070000009500000000000000;run a 00fF;arena 16;reap;run a 0908;reap; | a accepted 2;
;# run a -;program a 0 1 b7000000070000009500000000000000;\t \r;  run a -;  # exec; | a accepted 2;
arena 0256;program a 0 0 95; | a refused I1 0;
# without a newline at the end
program a 0 1 b7000000070000009500000000000000;run a - | a accepted 2;
program a 0 1 b7000000070000009500000000000000;run a | fault S3 line 2;
# only one fault is reported: that of the lowest line, whatever code a later line has, and in it the lowest code
program a 0 1 95;run b - | fault S7 line 2;
\x01 reap 1; | fault S2 line 1;
reap 1;#\x7f; | fault S3 line 1;
arena 0;exec 0; | fault S4 line 1;
program a 0 0 0;arena x; | fault S5 line 1;
run a! -;program b 0 0 zz; | fault S6 line 1;
run a -;program a! 0 0 -; | fault S7 line 1;
arena 16;arena 16;run a -; | fault S8 line 2;
program a 1 0 95;run a 0000;arena 1;arena 1; | fault S9 line 2;
program b 0 0 9500000000000000;run b 00;reap; | fault S9 line 2;
# of one line with three faults the lowest code is reported; and one fault alone
program ! 9999 0 9; | fault S4 line 1;
program a 0 0 9; | fault S5 line 1;
program a 0 0 -; | a refused I1 0;
program a 0 0 -;program a 0 0 -; | fault S6 line 2;
arena 1;arena 2; | fault S8 line 2;
program a 2 0 95;run a 00; | fault S9 line 2;
start a -; | fault S3 line 1;
# the lines of events, and what is no line of jobs
start a - | fault S3 line 1;
exec 0 | fault S3 line 1;
exec 0 null | fault S3 line 1;
grow 0 0 | fault S3 line 1;
reap 0 0 | fault S3 line 1;
reap 1 | fault S3 line 1;
arena | fault S3 line 1;
arena 1 1 | fault S3 line 1;
run a - - | fault S3 line 1;
program a 0 0 | fault S3 line 1;
ARENA 1 | fault S3 line 1;
# an arena has 1 to 256 pages, and is set once
arena 0 | fault S4 line 1;
arena 257 | fault S4 line 1;
arena x | fault S4 line 1;
arena 16;arena 0 | fault S4 line 2;
arena 16;arena 257 | fault S4 line 2;
arena 16;reap;arena 256 | fault S8 line 3;
# a job has a context as hex, a name that is allowed and defined, and as many bytes as are declared
program a 1 0 95;run a! 0 | fault S5 line 2;
program a 1 0 95;run b! - | fault S6 line 2;
program a 1 0 95;run b - | fault S7 line 2;
run a -;program a 0 0 95 | fault S7 line 1;
program a 1 0 95;run a - | fault S9 line 2;
program a 1 0 95;run a 00;run a 0000 | fault S9 line 3;
program a 1 0 95;program b 2 0 95;run b 00 | fault S9 line 3;
program a 1 0 95;program b 2 0 95;run b 0000;run a 00 | a refused I1 0;b refused I1 0;
# programs are the same in each command
program a! 4097 0 zz | fault S4 line 1;
program a 0 65 - | fault S4 line 1;
program a 0 0 -;program a 0 0 - | fault S6 line 2;";

// The same of scripts whose refusals are explained.
const EXPLAINED: &str = "\
program a 0 0 b7000000070000009500000000000000; | a accepted 2;
program a 0 0 95;program b 0 0 b7000000070000009500000000000000;program c 4 0 71100400000000009500000000000000;program d 0 0 05000100000000009500000000000000; | a refused I1 0;  there is 1 byte: a program is one or more whole slots of 8 bytes;b accepted 2;c refused V8 0;  slot 0 reads 1 byte at [r1+4],  r1 context+0, but the context has 4 bytes: use an offset of 0..3 from r1, or declare a context of 5 bytes;d refused F1 0;  slot 0 jumps +1 slots from the next one, but the program has 2 slots: make it lead to one of them;
program a 0 0 b7010000000000008500000001000000b7000000000000009500000000000000;run a - | a refused V16 1;  slot 1 asks for an object while holding 0, the most the program declares: free one, put one on a shelf, or declare more;
program a 0 1 b7010000000000008500000001000000b7000000000000009500000000000000;run a - | a refused V17 3;  slot 3 exits while holding objects,  may hold 1 (cell): free each, or put it on a shelf, on every path here;";

// Tries a row.
fn is_checked(rt: &impl Abort, alloc: Global, row: &str, explains: bool) {
    let (script, expected) = column(rt, row);
    let script = script.replace(alloc, ';', "\n").expect(rt, "out of memory");
    let expected = expected
        .replace(alloc, ';', "\n")
        .expect(rt, "out of memory");
    let mut reader = script.as_bytes();
    let mut written = Vec::new(alloc);
    let done = if explains {
        check_script(alloc, &mut reader, &mut written, Format::Text, true)
    } else {
        check(alloc, &mut reader, &mut written)
    };
    let done = done.expect(rt, "it is done");
    let text = str::from_utf8(&written).expect(rt, "it is a text");
    is_text(rt, row, text, expected.as_str());
    let is_refused = text.contains(" refused ") || text.starts_with("fault ");
    holds(rt, row, matches!(done, Done::Refused) == is_refused);
}

#[test]
fn the_programs_of_a_script_are_judged(rt: HostRuntime) {
    for row in SCRIPTS.lines() {
        if !row.starts_with('#') {
            is_checked(&rt, rt.alloc(), row, false);
        }
    }
}

#[test]
fn why_programs_are_refused_is_explained(rt: HostRuntime) {
    for row in EXPLAINED.lines() {
        is_checked(&rt, rt.alloc(), row, true);
    }
}
