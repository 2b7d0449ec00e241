//! Why bytes are no program, and why a flow is refused, in sentences written down by hand.

use crate::programs::{bytes_of, column, is_text};
use ebpf_explain::decode_sentence::write_decode_sentence;
use ebpf_explain::reason::write_misled;
use ebpf_explain::why::write_why;
use ebpf_flow::followed::{Followed, follow};
use ebpf_insn::decode::decode;
use ebpf_insn::fault::{DecodeCode, DecodeFault};
use ebpf_state::kinds::kinds;
use ebpf_verify::decl::Decl;
use ebpf_verify::examined::examine;
use std::alloc::Global;
use std::process::Abort;
use std::test::*;

// What a row shows, the bytes, and the line that is reported of them.
const BYTES: &str = "\
no bytes |  |   there are 0 bytes: a program is one or more whole slots of 8 bytes
half a slot | 95000000 |   there are 4 bytes: a program is one or more whole slots of 8 bytes
no opcode | 0d00000000000000 |   slot 0 has the opcode 0x0d, which no instruction has
no opcode in the second slot | 9500000000000000ff00000000000000 |   slot 1 has the opcode 0xff, which no instruction has
a low nibble of 11 | b70b000000000000 |   slot 0 names a register above 10: 0x0b
a high nibble of 11 | b7b0000000000000 |   slot 0 names a register above 10: 0xb0
an exit with an immediate | 9500000000000000950000000100afff |   slot 1 sets a field that its instruction does not use: 950000000100afff
a wide load at the end | 1801000001000000 |   slot 0 is a wide load without its second slot
a wide load and another | 950000000000000018010000010000001861000001000000 |   slot 1 is a wide load whose second slot has more than the upper half of a number: 1861000001000000
a move of 32 bits at 32 bits | bc10200000000000 |   slot 0 has an offset or an immediate that its operation does not allow: bc10200000000000
an atomic operation | c300000000000000 |   slot 0 is a form that is not supported: c300000000000000 (an atomic operation, a function call, or a load of a map's address)";

// What a row shows, the program, and the line that is reported of it.
const PROGRAMS: &str = "\
a jump past the last slot | 05000500000000009500000000000000 |   slot 0 jumps +5 slots from the next one, but the program has 2 slots: make it lead to one of them
a jump below slot 0 | 0500fdff000000009500000000000000 |   slot 0 jumps -3 slots from the next one, but the program has 2 slots: make it lead to one of them
a jump into a wide load | 0500010000000000180000000100000000000000000000009500000000000000 |   slot 0 jumps +1 slots from the next one, into the second half of a wide instruction: make it lead to an instruction
a jump to itself | 0500ffff00000000 |   slot 0 jumps back by -1 slots, which closes a loop: programs only go forward: unroll the loop, as ebpf_run unroll does
a far jump to itself | 06000000ffffffff |   slot 0 jumps back by -1 slots, which closes a loop: programs only go forward: unroll the loop, as ebpf_run unroll does
a branch back | b7000000070000001500feff000000009500000000000000 |   slot 1 jumps back by -2 slots, which closes a loop: programs only go forward: unroll the loop, as ebpf_run unroll does
a block out of order | b7000000000000001500020000000000b70000000700000095000000000000000500fdff00000000 |   slot 4 jumps back by -3 slots, where no path leads forward to it again: programs only go forward: have lay-out put the blocks in order
a loop with a branch in it | b7000000000000001500010000000000b7010000000000001500fdff00000000 |   slot 3 jumps back by -3 slots, which closes a loop: programs only go forward: unroll the loop, as ebpf_run unroll does
a move at the end | b700000007000000 |   slot 0 continues past the last slot: end the program with exit
an exit after an exit | 95000000000000009500000000000000 |   slot 1 cannot be reached from slot 0 by going forward: remove it, or make an earlier jump lead to it";

// The line of bytes that are no program.
fn line_of_bytes(rt: &impl Abort, alloc: Global, digits: &str) -> String {
    let bytes = bytes_of(rt, alloc, digits);
    let fault = decode(alloc, &bytes).err().expect(rt, "it is a program");
    let mut text = String::new(alloc);
    if let DecodeFault::Bad { slot, code } = fault {
        write_decode_sentence(&mut text, &bytes, slot as usize, code).expect(rt, "out of memory");
    }
    text
}

// The line of a program whose flow is refused.
fn line_of_program(rt: &impl Abort, alloc: Global, digits: &str) -> String {
    let bytes = bytes_of(rt, alloc, digits);
    let mut text = String::new(alloc);
    match follow(alloc, &bytes).expect(rt, "out of memory") {
        Followed::Misled {
            program,
            slot,
            code,
        } => {
            write_misled(alloc, &mut text, &program, slot as usize, code).expect(rt, "out of memory")
        }
        _ => panic!(rt; "the flow is not refused"),
    }
    text
}

// Why the bytes of a program that declares nothing are refused.
fn why(rt: &impl Abort, alloc: Global, digits: &str) -> String {
    let bytes = bytes_of(rt, alloc, digits);
    let decl = Decl::new(0, 0).expect(rt, "nothing is declared");
    let rows = kinds();
    let examined = examine(alloc, &bytes, decl, &rows).expect(rt, "out of memory");
    let mut text = String::new(alloc);
    write_why(alloc, &mut text, &bytes, &examined, decl, &rows).expect(rt, "out of memory");
    text
}

// That a line is reported, with a newline after it.
fn is_line(rt: &impl Abort, row: &str, text: &str, expected: &str) {
    let line = text.strip_suffix("\n").expect(rt, "there is no newline");
    is_text(rt, row, line, expected);
}

#[test]
fn each_code_of_decoding_has_its_sentence(rt: HostRuntime) {
    for row in BYTES.lines() {
        let (_, columns) = column(&rt, row);
        let (digits, expected) = column(&rt, columns);
        let text = line_of_bytes(&rt, rt.alloc(), digits);
        is_line(&rt, row, text.as_str(), expected);
        is_line(&rt, row, why(&rt, rt.alloc(), digits).as_str(), expected);
    }
}

#[test]
fn each_code_of_the_flow_has_its_sentence(rt: HostRuntime) {
    for row in PROGRAMS.lines() {
        let (_, columns) = column(&rt, row);
        let (digits, expected) = column(&rt, columns);
        let text = line_of_program(&rt, rt.alloc(), digits);
        is_line(&rt, row, text.as_str(), expected);
        is_line(&rt, row, why(&rt, rt.alloc(), digits).as_str(), expected);
    }
}

// The verifier's sentences are those of tests/commands.txt; of an accepted program there is none.
#[test]
fn why_tells_of_the_verifier_too(rt: HostRuntime) {
    let text = why(&rt, rt.alloc(), "9500000000000000");
    let expected =
        "  slot 0 reads r0, which is not set on every path here: set it first (a call unsets r1 to r5, and free unsets every pointer to its object)";
    is_line(&rt, "r0 is unset", text.as_str(), expected);
    let text = why(&rt, rt.alloc(), "b7000000070000009500000000000000");
    is_text(&rt, "an accepted program", text.as_str(), "");
}

#[test]
fn a_byte_that_is_not_there_is_zero(rt: HostRuntime) {
    let mut text = String::new(rt.alloc());
    write_decode_sentence(&mut text, &[0x95, 1], 0, DecodeCode::UnusedFieldSet).expect(&rt, "out of memory");
    write_decode_sentence(&mut text, &[0x95, 1], usize::MAX, DecodeCode::BadSecondSlot).expect(
        &rt,
        "out of memory",
    );
    write_decode_sentence(&mut text, &[], 4096, DecodeCode::ProgramTooLong).expect(&rt, "out of memory");
    let expected =
        "  slot 0 sets a field that its instruction does not use: 9501000000000000
  slot 18446744073709551615 is a wide load whose second slot has more than the upper half of a number: 0000000000000000
  the program has more than 4096 slots
";
    is_text(&rt, "bytes that are not there", text.as_str(), expected);
}
