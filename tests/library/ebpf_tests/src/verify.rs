//! Declarations, and the verdicts on programs of two slots.

use crate::programs::{holds, program_of};
use ebpf_flow::check::check;
use ebpf_flow::flowed::Flowed;
use ebpf_state::kinds::{KindRow, kinds};
use ebpf_verify::decl::Decl;
use ebpf_verify::fault::{VerifyCode, VerifyFault};
use ebpf_verify::verified::Verified;
use ebpf_verify::verify::verify;
use std::alloc::Global;
use std::process::Abort;

// The program of the bytes in hex.
fn flowed_of(rt: &impl Abort, alloc: Global, digits: &str) -> Flowed {
    check(alloc, program_of(rt, alloc, digits)).expect(rt, "the flow has a fault")
}

// What is declared.
fn decl_of(rt: &impl Abort, context: u32, held: u8) -> Decl {
    Decl::new(context, held).expect(rt, "a number is out of its range")
}

#[test]
fn a_context_has_4096_bytes_and_64_objects_are_held_at_most(rt: HostRuntime) {
    let decl = decl_of(&rt, 16, 3);
    holds(
        &rt,
        "16 bytes and 3 objects",
        decl.context == 16 && decl.held == 3,
    );
    holds(&rt, "4097 bytes", Decl::new(4097, 0).is_none());
    holds(&rt, "65 objects", Decl::new(0, 65).is_none());
}

// What is kept of a program that was verified with these kinds: r0 = 7, exit; it declares 16 bytes and 3 objects.
fn is_kept(rt: &impl Abort, verified: &Verified, rows: &[KindRow]) {
    let decl = verified.decl();
    holds(rt, "what it declares", decl.context == 16 && decl.held == 3);
    let program = verified.program();
    let slots = program.slots();
    holds(rt, "its lengths", slots == 2 && verified.len() == 2);
    let first = verified.successors(0);
    holds(
        rt,
        "its edges",
        first.fall == Some(1) && first.jump.is_none(),
    );
    holds(rt, "three kinds", verified.rows().len() == rows.len());
    for (kept, row) in verified.rows().iter().zip(rows) {
        let is_same = kept.name == row.name && kept.size == row.size && kept.fill == row.fill;
        holds(rt, row.name, is_same);
    }
}

#[test]
fn an_accepted_program_is_kept_with_what_it_declares(rt: HostRuntime) {
    let flowed = flowed_of(&rt, rt.alloc(), "b7000000070000009500000000000000");
    let rows = kinds();
    let verified = verify(rt.alloc(), flowed, decl_of(&rt, 16, 3), &rows);
    let verified = verified.expect(&rt, "a slot is refused");
    is_kept(&rt, &verified, &rows);
}

#[test]
fn a_pointer_is_no_result(rt: HostRuntime) {
    // r0 = r10, exit
    let flowed = flowed_of(&rt, rt.alloc(), "bfa00000000000009500000000000000");
    let refused = verify(rt.alloc(), flowed, decl_of(&rt, 0, 0), &kinds());
    let is_refused = matches!(
        refused,
        Err(VerifyFault::Refused {
            slot: 1,
            code: VerifyCode::NoNumberReturned
        })
    );
    holds(&rt, "V18 at slot 1", is_refused);
}
