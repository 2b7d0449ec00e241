//! What `one` says of programs that load and store.

use crate::programs::{asked, column, how, is_text};
use ebpf_input::form::Form;
use ebpf_one::one::one;
use std::alloc::Global;
use std::process::Abort;

// The context's text, the input, and what is reported, a `;` for each end of a line.
const ROWS: &str = "\
2a | 7b1af8ff0000000079a2f8ff0000000071200000000000009500000000000000 | accepted 4;exit 42 executed 4 peak 0;
2a | 7b1af8ff0000000061a2f8ff0000000071200000000000009500000000000000 | refused V12 1;
2a | 7b1af7ff0000000079a2f8ff0000000071200000000000009500000000000000 | refused V12 0;
2a | 7b1af9ff0000000079a2f8ff0000000071200000000000009500000000000000 | refused V6 0;
- | 7a0af8ff01000000720af8ff0200000079a0f8ff000000009500000000000000 | accepted 4;exit 2 executed 4 peak 0;
- | 7b1af8ff00000000720af8ff0200000079a0f8ff000000009500000000000000 | refused V7 2;
00 | 72010000000000009500000000000000 | refused V9 0;
- | b70100000000000071100000000000009500000000000000 | refused V13 1;
ff | 91100000000000009500000000000000 | accepted 2;exit 18446744073709551615 executed 2 peak 0;
- | 7a0af4ff0700000079a0f4ff000000009500000000000000 | accepted 3;exit 7 executed 3 peak 0;
- | 7a0af4ff0700000079a0f3ff000000009500000000000000 | refused V7 1;
03000009 | 711200000000000057020000030000000f2100000000000071100000000000009500000000000000 | accepted 5;exit 9 executed 5 peak 0;
030000 | 711200000000000057020000030000000f2100000000000071100000000000009500000000000000 | refused V8 3;
- | 720a00fe0700000071a000fe000000009500000000000000 | accepted 3;exit 7 executed 3 peak 0;
- | 720afffd0700000071a000fe000000009500000000000000 | refused V6 0;
- | 79a0f8ff000000009500000000000000 | refused V7 0;";

fn is_written(rt: &impl Abort, alloc: Global, row: &str) {
    let (context, rest) = column(rt, row);
    let (input, expected) = column(rt, rest);
    let expected = expected
        .replace(alloc, ';', "\n")
        .expect(rt, "out of memory");
    let mut reader = input.as_bytes();
    let mut written = Vec::new(alloc);
    let _ = one(
        alloc,
        &mut reader,
        &mut written,
        &asked(Form::Hex, context, 0),
        how(false),
    )
    .expect(rt, "it is done");
    let text = str::from_utf8(&written).expect(rt, "it is a text");
    is_text(rt, row, text, expected.as_str());
}

#[test]
fn loads_and_stores_are_reported(rt: HostRuntime) {
    for row in ROWS.lines() {
        is_written(&rt, rt.alloc(), row);
    }
}
