//! Programs laid out anew: which program comes of one, or why none does.

use crate::programs::{column, holds, is_text, program_of};
use ebpf_flow::check::check;
use ebpf_insn::encode::encode;
use ebpf_insn::program::Program;
use ebpf_layout::layout::lay_out;
use std::alloc::Global;
use std::process::Abort;
use std::test::*;

// What a row shows, the program, and the one that comes of it, or why none does.
const CASES: &str = "\
a program whose edges lead forward stays | b7000000070000009500000000000000 | b7000000070000009500000000000000
both edges of a branch may lead to the next slot | 15000000000000009500000000000000 | 15000000000000009500000000000000
what is not reached is left out | b7000000070000009500000000000000b7000000080000009500000000000000 | b7000000070000009500000000000000
a loop that is not reached is left out | 95000000000000000500ffff00000000 | 9500000000000000
a fault that is not reached is left out | 95000000000000000500090000000000 | 9500000000000000
a jump back without a loop leads forward | 0500020000000000b70000000100000095000000000000000500fdff00000000 | 05000000000000000500000000000000b7000000010000009500000000000000
a far jump stays a far one | 0500020000000000b700000001000000950000000000000006000000fdffffff | 05000000000000000600000000000000b7000000010000009500000000000000
a jump is added over what the branch jumps to | 1500020000000000b7000000010000009500000000000000b7000000020000000500fdff00000000 | 15000100000000000500020000000000b7000000020000000500010000000000b7000000010000009500000000000000
a wide one stays before what it falls to | 1500030000000000180000000100000000000000020000009500000000000000b7000000020000000500fdff00000000 | 15000100000000000500020000000000\
b7000000020000000500020000000000180000000100000000000000020000009500000000000000
a jump to itself is a loop | 0500ffff00000000 | slot 0 leads back to slot 0
a branch back to what leads to it is a loop | b7000000000000001500feff000000009500000000000000 | slot 1 leads back to slot 0
a loop is reported before a fault | 15000500000000000500feff00000000 | slot 1 leads back to slot 0
past the last slot there is nothing | 0500050000000000 | slot 0 is refused with JumpOutside
nor is there below slot 0 | 0500fdff00000000 | slot 0 is refused with JumpOutside
a second half is no instruction | 050001000000000018000000010000000000000002000000 | slot 0 is refused with JumpIntoWide
the last instruction doesn't fall | b700000001000000 | slot 0 is refused with FallsOffEnd
the lowest slot is reported | 150002000000000005000900000000009500000000000000b700000001000000 | slot 1 is refused with JumpOutside";

// The bytes of a program that the check of the flow takes.
fn text_of(rt: &impl Abort, alloc: Global, laid: Program) -> String {
    let bytes = encode(alloc, &laid).expect(rt, "out of memory");
    holds(rt, "it leads forward", check(alloc, laid).is_ok());
    hex::encode(alloc, &bytes).expect(rt, "out of memory")
}

// Tries a row.
fn is_laid_out(rt: &impl Abort, alloc: Global, row: &str) {
    let (_, columns) = column(rt, row);
    let (digits, expected) = column(rt, columns);
    let program = program_of(rt, alloc, digits);
    let text = match lay_out(alloc, &program) {
        Ok(laid) => text_of(rt, alloc, laid.program),
        Err(fault) => format!(in alloc; "{fault}").expect(rt, "out of memory"),
    };
    is_text(rt, row, text.as_str(), expected);
}

#[test]
fn programs_are_laid_out_anew(rt: HostRuntime) {
    for row in CASES.lines() {
        is_laid_out(&rt, rt.alloc(), row);
    }
}
