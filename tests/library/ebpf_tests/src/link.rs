//! Programs linked with data: by which word of the stack, and which program comes of one, or why none does.

use crate::programs::{column, holds, is_text};
use ebpf_assembly::assemble::assemble;
use ebpf_flow::check::check;
use ebpf_insn::encode::encode;
use ebpf_insn::program::Program;
use ebpf_link::choice::linked;
use ebpf_link::fault::LinkFault;
use ebpf_link::linked::Linked;
use ebpf_link::right::is_right;
use ebpf_link::words::is_free;
use ebpf_state::kinds::kinds;
use ebpf_verify::decl::Decl;
use ebpf_verify::verify::verify;
use std::alloc::Global;
use std::process::Abort;
use std::test::*;

// What a row shows; the offset in the data that each slot has, or a dash; the program, with ` / ` at the end of a line; and the word with
// the linked program, or why there is none. The context has two bytes, and the data six.
const CASES: &str = "\
an address is the context's pointer, moved | 1 | lddw r2, 0 / ldxb r0, [r2+0] / exit | -512: stxdw [r10-512], r1 / ldxdw r2, [r10-512] / add64 r2, 3 / ldxb r0, [r2+0] / exit
an immediate without an offset stays | - | lddw r0, 7 / exit | -512: stxdw [r10-512], r1 / lddw r0, 7 / exit
a jump leads where it led | - 0 | jeq64 r1, 0, done / lddw r2, 0 / done: exit | -512: stxdw [r10-512], r1 / jeq64 r1, 0, done / ldxdw r2, [r10-512] / add64 r2, 2 / done: exit
a word that r10 reaches is not free | - 0 | stb [r10-505], 7 / lddw r2, 0 / ldxb r0, [r2+0] / exit | -384: stxdw [r10-384], r1 / stb [r10-505], 7 / \
ldxdw r2, [r10-384] / add64 r2, 2 / ldxb r0, [r2+0] / exit
a word that a copy of r10 writes is not taken | - - 0 | mov64 r3, r10 / stdw [r3-512], 7 / lddw r2, 0 / ldxb r0, [r2+0] / exit | -384: stxdw [r10-384], r1 / mov64 r3, r10 / \
stdw [r3-512], 7 / ldxdw r2, [r10-384] / add64 r2, 2 / ldxb r0, [r2+0] / exit
nor is one that it only reads, so the refusal without it is reported | - - 0 | mov64 r3, r10 / ldxdw r4, [r3-512] / lddw r2, 0 / ldxb r0, [r2+0] / exit | -384: stxdw [r10-384], r1 / mov64 r3, r10 / \
ldxdw r4, [r3-512] / ldxdw r2, [r10-384] / add64 r2, 2 / ldxb r0, [r2+0] / exit
a program that is refused with each word has the first | 9 | lddw r2, 0 / ldxb r0, [r2+0] / exit | -512: stxdw [r10-512], r1 / ldxdw r2, [r10-512] / add64 r2, 11 / ldxb r0, [r2+0] / exit
a loop is linked | 0 | lddw r2, 0 / turn: ja turn | -512: stxdw [r10-512], r1 / ldxdw r2, [r10-512] / add64 r2, 2 / turn: ja turn
an address before the context may be near | -3 | lddw r2, 0 / exit | -512: stxdw [r10-512], r1 / ldxdw r2, [r10-512] / add64 r2, -1 / exit
a jump into an address is refused | - 0 | ja +1 / lddw r2, 0 / exit | slot 0 is refused with JumpIntoWide
so is one that leads nowhere | - | ja +1 / exit | slot 0 is refused with JumpOutside
an address is no other instruction | - 0 | mov64 r0, 0 / mov64 r2, 0 / exit | slot 1 loads no 64-bit immediate
nor a second half | - 0 | lddw r2, 0 / exit | slot 1 loads no 64-bit immediate
an address may be too far | 4095 | lddw r2, 0 / exit | the address of slot 0 is too far from the context";

// The offsets of a column.
fn offsets_of(rt: &impl Abort, alloc: Global, words: &str) -> Vec<Option<i64>> {
    let mut offsets = Vec::new(alloc);
    for word in words.split_whitespace() {
        let offset = if word == "-" {
            None
        } else {
            Some(word.parse::<i64>().expect(rt, "this is no offset"))
        };
        offsets.push(offset).expect(rt, "out of memory");
    }
    offsets
}

// The program of a column.
fn program_in(rt: &impl Abort, alloc: Global, words: &str) -> Program {
    let text = words.replace(alloc, " / ", "\n").expect(rt, "out of memory");
    assemble(alloc, text.as_bytes()).expect(rt, "the text is no program")
}

// The bytes of a program, as hex.
fn hex_of(rt: &impl Abort, alloc: Global, program: &Program) -> String {
    let bytes = encode(alloc, program).expect(rt, "out of memory");
    hex::encode(alloc, &bytes).expect(rt, "out of memory")
}

// What comes of a program whose context has two bytes, and its data six.
fn linked_with(rt: &impl Abort, alloc: Global, program: &Program, offsets: &[Option<i64>]) -> Result<Linked, LinkFault> {
    let decl = Decl::new(8, 0).expect(rt, "it can't be declared");
    linked(alloc, program, offsets, 2, decl, &kinds())
}

// That a linked program which is accepted is right.
fn is_right_if_accepted(rt: &impl Abort, alloc: Global, row: &str, found: Linked) {
    let decl = Decl::new(8, 0).expect(rt, "it can't be declared");
    if let Ok(flowed) = check(alloc, found.program) {
        if let Ok(verified) = verify(alloc, flowed, decl, &kinds()) {
            holds(rt, row, is_right(alloc, &verified, found.word).expect(rt, "out of memory"));
        }
    }
}

// Tries a row.
fn is_linked(rt: &impl Abort, alloc: Global, row: &str) {
    let (_, columns) = column(rt, row);
    let (offsets, columns) = column(rt, columns);
    let (words, expected) = column(rt, columns);
    let program = program_in(rt, alloc, words);
    match linked_with(rt, alloc, &program, &offsets_of(rt, alloc, offsets)) {
        Ok(found) => {
            let (word, lines) = expected.split_once(": ").expect(rt, "the word is missing");
            let text = format!(in alloc; "{}", found.word).expect(rt, "out of memory");
            is_text(rt, row, text.as_str(), word);
            let wanted = hex_of(rt, alloc, &program_in(rt, alloc, lines));
            is_text(rt, row, hex_of(rt, alloc, &found.program).as_str(), wanted.as_str());
            holds(rt, row, is_free(&program, found.word));
            is_right_if_accepted(rt, alloc, row, found);
        }
        Err(fault) => {
            let why = format!(in alloc; "{fault}").expect(rt, "out of memory");
            is_text(rt, row, why.as_str(), expected);
        }
    }
}

#[test]
fn programs_are_linked_with_data(rt: HostRuntime) {
    for row in CASES.lines() {
        is_linked(&rt, rt.alloc(), row);
    }
}

#[test]
fn a_program_may_use_each_word(rt: HostRuntime) {
    let mut text = String::new(rt.alloc());
    for number in 0..64 {
        let offset = 512 - 8 * number;
        write!(text, "stdw [r10-{offset}], 0\n").expect(&rt, "out of memory");
    }
    write!(text, "mov64 r0, 0\nexit").expect(&rt, "out of memory");
    let program = assemble(rt.alloc(), text.as_bytes()).expect(&rt, "the text is no program");
    let fault = linked_with(&rt, rt.alloc(), &program, &[]).err();
    assert!(rt; matches!(fault, Some(LinkFault::NoWord)), "a word is free");
}

#[test]
fn a_word_that_is_used_is_not_right(rt: HostRuntime) {
    let program = program_in(&rt, rt.alloc(), "stdw [r10-8], 0 / mov64 r0, 0 / exit");
    let flowed = check(rt.alloc(), program).expect(&rt, "its flow has a fault");
    let decl = Decl::new(0, 0).expect(&rt, "it can't be declared");
    let verified = verify(rt.alloc(), flowed, decl, &kinds()).expect(&rt, "it is refused");
    let used = is_right(rt.alloc(), &verified, -8).expect(&rt, "out of memory");
    let other = is_right(rt.alloc(), &verified, -16).expect(&rt, "out of memory");
    assert!(rt; !used && other, "another word is used");
}
