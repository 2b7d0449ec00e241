//! Bytes, and what they are decoded to by the rules of RFC 9669 and of the fault codes, written down by hand.

mod cases;
mod opcodes;

use crate::insn::cases::CASES;
use crate::programs::{bytes_of, column, is_text};
use ebpf_insn::decode::{bytes_encode_one_program, decode};
use ebpf_insn::encode::encode;
use ebpf_insn::fault::DecodeFault;
use ebpf_insn::insn::Insn;
use ebpf_insn::program::Program;
use ebpf_insn::register::Reg;
use ebpf_text::line::line;
use std::alloc::{AllocError, Global};
use std::process::Abort;
use std::test::*;

const EXIT: [u8; 8] = [0x95, 0, 0, 0, 0, 0, 0, 0];

// This many exits, and more bytes after them.
fn exits_and(alloc: Global, exits: usize, more: &[u8]) -> Result<Vec<u8>, AllocError> {
    let mut bytes = Vec::new(alloc);
    for _ in 0..exits {
        bytes.extend_from_slice(&EXIT)?;
    }
    bytes.extend_from_slice(more)?;
    Ok(bytes)
}

// That a program is encoded as its bytes again.
fn has_bytes(rt: &impl Abort, alloc: Global, program: &Program, bytes: &[u8]) {
    let again = encode(alloc, program).expect(rt, "out of memory");
    assert!(rt; again.as_slice() == bytes);
}

// How many instructions the bytes are, or why they are no program.
fn outcome(rt: &impl Abort, alloc: Global, bytes: &[u8]) -> Result<String, AllocError> {
    match decode(alloc, bytes) {
        Ok(program) => {
            has_bytes(rt, alloc, &program, bytes);
            format!(in alloc; "{}", program.len())
        }
        Err(fault) => format!(in alloc; "{fault}"),
    }
}

// Tries a row of the cases.
fn is_what_it_says(rt: &impl Abort, alloc: Global, row: &str) {
    let (_, columns) = column(rt, row);
    let (exits, columns) = column(rt, columns);
    let (digits, expected) = column(rt, columns);
    let exits = exits.parse::<usize>().expect(rt, "the exits are no number");
    let more = bytes_of(rt, alloc, digits);
    let bytes = exits_and(alloc, exits, &more).expect(rt, "out of memory");
    let text = outcome(rt, alloc, &bytes).expect(rt, "out of memory");
    is_text(rt, row, text.as_str(), expected);
}

#[test]
fn bytes_are_what_the_table_says(rt: HostRuntime) {
    for row in CASES.lines() {
        if !row.starts_with('#') {
            is_what_it_says(&rt, rt.alloc(), row);
        }
    }
}

// A slot for each kind of instruction, and its line, which says each field; the fifth is the second half of the fourth.
const KINDS: &str = "\
37010100feffffff | 0: sdiv64 r1, -2
2c21000000000000 | 1: mul32 r1, r2
bf3a200000000000 | 2: movs32_64 r10, r3
18040000feffffff | 3: lddw r4, 9223372045444710398
0000000001000080 | -
8405000000000000 | 5: neg32 r5
dc06000040000000 | 6: be64 r6
8987feff00000000 | 7: ldxsh r7, [r8-2]
7b9a008000000000 | 8: stxdw [r10-32768], r9
0500ff7f00000000 | 9: ja +32767
0600000000000080 | 10: ja32 -2147483648
c601ffff02000000 | 11: jslt32 r1, 2, -1
8500000003000000 | 12: call 3
9500000000000000 | 13: exit
0403000001000080 | 14: add32 r3, -2147483647
7ba3feff00000000 | 15: stxdw [r3-2], r10";

// r3 = 2^32 + 2, exit
const WIDE_AND_EXIT: &str = "\
1803000002000000 | 0: lddw r3, 4294967298
0000000001000000 | -
9500000000000000 | 2: exit";

// The bytes of a table's slots.
fn bytes_of_slots(rt: &impl Abort, alloc: Global, table: &str) -> Vec<u8> {
    let mut bytes = Vec::new(alloc);
    for row in table.lines() {
        let slot = bytes_of(rt, alloc, column(rt, row).0);
        bytes.extend_from_slice(&slot).expect(rt, "out of memory");
    }
    bytes
}

// The line of the instruction that begins at a slot, or `-` if none does.
fn line_at(alloc: Global, program: &Program, slot: usize) -> Result<String, AllocError> {
    match program.at(slot) {
        Some(insn) => line(alloc, slot, insn),
        None => "-\n".to_string(alloc),
    }
}

// The program of a table's slots, whose instructions are the table's.
fn read_slots(rt: &impl Abort, alloc: Global, table: &str) -> Program {
    let bytes = bytes_of_slots(rt, alloc, table);
    let program = decode(alloc, &bytes).expect(rt, "these slots are no program");
    for (slot, row) in table.lines().enumerate() {
        let text = line_at(alloc, &program, slot).expect(rt, "out of memory");
        is_text(rt, row, text.as_str().trim_end(), column(rt, row).1);
    }
    has_bytes(rt, alloc, &program, &bytes);
    program
}

#[test]
fn each_kind_of_instruction_is_decoded_and_encoded(rt: HostRuntime) {
    let kinds = read_slots(&rt, rt.alloc(), KINDS);
    assert!(rt; kinds.len() == 15 && kinds.slots() == 16 && kinds.at(16).is_none());
    let wide_and_exit = read_slots(&rt, rt.alloc(), WIDE_AND_EXIT);
    assert!(rt; wide_and_exit.len() == 2 && wide_and_exit.slots() == 3);
    bytes_encode_one_program();
}

#[test]
fn numbers_and_words_of_the_parts(rt: HostRuntime) {
    assert!(rt; Insn::Exit.slots() == 1);
    assert!(rt; Reg::R10.number() == 10);
    let text = format!(in rt.alloc(); "{}", DecodeFault::NoMemory).expect(&rt, "out of memory");
    assert!(rt; text.as_str() == "out of memory");
}
