//! Programs of a few slots, and where their instructions lead.

use crate::programs::{column, is_text, program_of};
use ebpf_flow::check::check;
use ebpf_flow::edges::{displacement_of, falls};
use std::alloc::Global;
use std::process::Abort;
use std::test::*;

// What a row shows, the program, and why it is refused.
const REFUSED: &str = "\
an exit after an exit is not reached | 95000000000000009500000000000000 | slot 1 is refused with Unreachable";

// Tries a row of the refused.
fn has_its_fault(rt: &impl Abort, alloc: Global, row: &str) {
    let (_, columns) = column(rt, row);
    let (digits, expected) = column(rt, columns);
    let program = program_of(rt, alloc, digits);
    let fault = check(alloc, program).err().expect(rt, "it is taken");
    let text = format!(in alloc; "{fault}").expect(rt, "out of memory");
    is_text(rt, row, text.as_str(), expected);
}

#[test]
fn a_refused_program_has_its_fault(rt: HostRuntime) {
    for row in REFUSED.lines() {
        has_its_fault(&rt, rt.alloc(), row);
    }
}

#[test]
fn a_move_leads_to_the_exit_after_it(rt: HostRuntime) {
    // r0 = 7, exit
    let program = program_of(&rt, rt.alloc(), "b7000000070000009500000000000000");
    let flowed = check(rt.alloc(), program).expect(&rt, "it is refused");
    assert!(rt; flowed.program().slots() == 2);
    let of_move = flowed.successors(0);
    assert!(rt; matches!(of_move.fall, Some(1)) && of_move.jump.is_none());
    let of_exit = flowed.successors(1);
    assert!(rt; of_exit.fall.is_none() && of_exit.jump.is_none());
}

#[test]
fn a_branch_falls_and_jumps_back(rt: HostRuntime) {
    // if r0 == 0 goto -1, exit
    let program = program_of(&rt, rt.alloc(), "1500ffff000000009500000000000000");
    let branch = *program.at(0).expect(&rt, "no instruction");
    assert!(rt; displacement_of(branch) == Some(-1) && falls(branch));
    let exit = *program.at(1).expect(&rt, "no instruction");
    assert!(rt; displacement_of(exit).is_none() && !falls(exit));
}
