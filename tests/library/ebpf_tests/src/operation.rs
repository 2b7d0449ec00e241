//! A program of a few slots, and what a run does at each.

use crate::programs::{holds, program_of};
use ebpf_flow::check::check;
use ebpf_insn::register::Reg;
use ebpf_operation::flat::FlatOperation;
use ebpf_operation::translate::operations_of;
use ebpf_state::kinds::kinds;
use ebpf_verify::decl::Decl;
use ebpf_verify::verify::verify;
use std::test::*;

// r0 = the low half of -1, r0 += -1, to slot 4 if r0 is 5, r0 in the order of the network, r1 = 7 in two slots, r0 to the last word
// of the stack, its low half to r3, emit, exit
const SLOTS: &str =
    "b4000000ffffffff07000000ffffffff1500010005000000dc00000010000000180100000700000000000000000000007b0af8ff\
0000000061a3f8ff0000000085000000030000009500000000000000";

// Whether these are the operations of the program.
fn are_its(operations: &[FlatOperation]) -> bool {
    matches!(
        operations,
        [
            FlatOperation::MovImm(Reg::R0, 0xffff_ffff),
            FlatOperation::Add64Imm(Reg::R0, 0xffff_ffff_ffff_ffff),
            FlatOperation::JEq64Imm(Reg::R0, 4, 5),
            FlatOperation::Swap(_, 16, Reg::R0),
            FlatOperation::Wide(Reg::R1, 7),
            FlatOperation::Unreached,
            FlatOperation::StoreFrameD(63, Reg::R0),
            FlatOperation::LoadFrameW(Reg::R3, -8),
            FlatOperation::Emit(8),
            FlatOperation::Exit(9),
        ]
    )
}

#[test]
fn each_slot_has_the_operation_of_its_instruction(rt: HostRuntime) {
    let flowed = check(rt.alloc(), program_of(&rt, rt.alloc(), SLOTS)).expect(&rt, "it is refused");
    let operations = operations_of(rt.alloc(), &flowed).expect(&rt, "out of memory");
    holds(&rt, "each slot has its own", are_its(&operations));
    let decl = Decl::new(0, 0).expect(&rt, "no context and no object can be declared");
    match verify(rt.alloc(), flowed, decl, &kinds()) {
        Ok(verified) => holds(
            &rt,
            "an accepted program keeps them",
            are_its(verified.operations()),
        ),
        Err(_) => panic!(rt; "it is refused"),
    }
}
