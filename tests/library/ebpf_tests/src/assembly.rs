//! Texts, and the programs that they are. The bytes were written down by hand from the format.

use crate::programs::{column, holds, is_text, program_of};
use crate::text::LINES;
use ebpf_assembly::assemble::assemble;
use ebpf_assembly::fault::AssemblyFault;
use ebpf_insn::encode::encode;
use ebpf_text::listing::listing;
use std::alloc::Global;
use std::process::Abort;
use std::test::*;

// The bytes of a program, and texts of it: ` / ` is the end of a line.
const TEXTS: &str = "\
# spaces, tabs and commas separate words
b7000000070000009500000000000000 | mov64 r0, 7 / exit
b7000000070000009500000000000000 | mov64 r0,7 / exit
b7000000070000009500000000000000 | mov64 r0 7 / exit
b7000000070000009500000000000000 |   mov64\t\tr0 , 7 ,  /  \t exit \t
# the last line may end with a newline, and a line with a carriage return
9500000000000000 | exit / \u{20}
9500000000000000 | exit\r / \r
# a semicolon begins a comment
9500000000000000 | exit ; the end; of it
9500000000000000 | exit;
b7000000070000009500000000000000 | ; seven / mov64 r0, 7 ; is the answer /  / ;; / exit
# a line may begin with its slot
9500000000000000 | 0: exit
b7000000070000009500000000000000 | 0: mov64 r0, 7 / 1: exit
b7000000070000009500000000000000 | mov64 r0, 7 / ; the end /  / 1: exit
b7000000070000009500000000000000 | 0: mov64 r0, 7 / exit
# or with a label, for which a jump may have an offset
9500000000000000 | start: exit
b7000000070000009500000000000000 | start: /  / mov64 r0, 7 / end: / exit
0500010000000000b7000000070000009500000000000000 | ja end / mov64 r0, 7 / end: exit
0500ffff000000000500feff00000000 | loop: ja loop / ja loop
0600000001000000b7000000070000009500000000000000 | ja32 end / mov64 r0, 7 / end: exit
15000200000000001601feff000000009500000000000000 | a: jeq64 r0, 0, b ; to b / jeq32 r1, 0, a / exit / b:
0500020000000000180100000100000000000000000000009500000000000000 | ja _end.1 / lddw r1, 1 / _end.1: exit
050000000000000005000000000000009500000000000000 | 0: ja a / a: ja b / b: / 2: exit
# a slot may have two labels, and a label may be another word
050001000000000005000000000000009500000000000000 | ja b / ja a / a: / b: exit
9500000000000000 | a: / a: exit
05000000000000001d10ffff000000009500000000000000 | ja exit / exit: / r1: jeq64 r0, r1, exit / exit
# a wide instruction takes two
180100000100000000000000000000009500000000000000 | lddw r1, 1 / exit
180100000100000000000000000000009500000000000000 | 0: lddw r1, 1 / 2: exit
# the ends of the ranges
05000080000000000500ff7f000000000600000000000080 | ja -32768 / ja +32767 / ja32 -2147483648
b700000000000080b4000000ffffff7f | mov64 r0, -2147483648 / mov32 r0, 2147483647
1800000000000000000000000000000018000000ffffffff00000000ffffffff | lddw r0, 0 / lddw r0, 18446744073709551615";

// What is reported of texts that are no programs.
const REFUSED: &str = "\
# there are no such words
line 1: this is not an instruction | mov r0, 7
line 1: this is not an instruction | MOV64 r0, 7
line 2: this is not an instruction | exit / halt
line 3: this is not an instruction | exit / ; halt / halt / halt
line 1: this is not an instruction | 0:
line 1: this is not an instruction | 0:exit
line 1: this is not an instruction | 0 : exit
line 1: this is not an instruction | 0: 0: exit
line 1: this is not an instruction | 0: a: exit
line 1: this is not an instruction | exit exit
line 1: this is not an instruction | movs32_32 r0, r1
line 1: this is not an instruction | le8 r0
line 1: this is not an instruction | ldxsdw r0, [r1+0]
# there are too many operands, or too few, or others
line 1: this is not an instruction | exit r0
line 1: this is not an instruction | mov64 r0
line 1: this is not an instruction | mov64 r0, 7, 8
line 1: this is not an instruction | mov64 7, r0
line 1: this is not an instruction | neg64 7
line 1: this is not an instruction | call r1
line 1: this is not an instruction | stw [r1+0], r2
line 1: this is not an instruction | stxw [r1+0], 2
line 1: this is not an instruction | jeq64 r0, +1
# registers are r0 to r10
line 1: this is not an instruction | mov64 r11, 7
line 1: this is not an instruction | mov64 r, 7
line 1: this is not an instruction | mov64 r01, 7
line 1: this is not an instruction | mov64 R1, 7
# immediates are decimal, with no sign but a minus
line 1: this is not an instruction | mov64 r0, +7
line 1: this is not an instruction | mov64 r0, 07
line 1: this is not an instruction | mov64 r0, -0
line 1: this is not an instruction | mov64 r0, -
line 1: this is not an instruction | mov64 r0, --7
line 1: this is not an instruction | mov64 r0, 0x10
line 1: this is not an instruction | mov64 r0, 2147483648
line 1: this is not an instruction | mov64 r0, -2147483649
line 1: this is not an instruction | lddw r0, -1
line 1: this is not an instruction | lddw r0, 18446744073709551616
# offsets have a sign
line 1: this is not an instruction | ja 5
line 1: this is not an instruction | ja -0
line 1: this is not an instruction | ja +05
line 1: this is not an instruction | ja +
line 1: this is not an instruction | ja +32768
line 1: this is not an instruction | ja -32769
line 1: this is not an instruction | ja32 +2147483648
# a place is one word
line 1: this is not an instruction | ldxw r0, [r1]
line 1: this is not an instruction | ldxw r0, [r1 +4]
line 1: this is not an instruction | ldxw r0, [r1+4
line 1: this is not an instruction | ldxw r0, r1+4
line 1: this is not an instruction | ldxw r0, [r11+4]
line 1: this is not an instruction | ldxw r0, [r1+32768]
line 1: this is not an instruction | ldxw r0, []
line 1: this is not an instruction | ldxw r0, [
# the slot is that of another instruction
line 1: the slot or the label belongs to another instruction | 1: exit
line 1: the slot or the label belongs to another instruction | 00: exit
line 1: the slot or the label belongs to another instruction | : exit
line 1: the slot or the label belongs to another instruction | 1st: exit
line 1: the slot or the label belongs to another instruction | a: b: exit
line 1: the slot or the label belongs to another instruction | 1: halt
line 2: the slot or the label belongs to another instruction | lddw r1, 1 / 1: exit
line 3: the slot or the label belongs to another instruction | mov64 r0, 7 /  / 2: exit
# the label is that of another
line 2: the slot or the label belongs to another instruction | a: exit / a: exit
line 3: the slot or the label belongs to another instruction | ja a / a: exit / a: exit
# there is no such label, or no jump
line 1: this is not an instruction | ja end / exit
line 1: this is not an instruction | ja END / end: exit
line 1: this is not an instruction | ja end: / end: exit
line 1: this is not an instruction | mov64 r0, end / end: exit
line 1: this is not an instruction | call end / end: exit
line 1: this is not an instruction | jeq64 end, 0, end / end: exit
line 2: this is not an instruction | end: / exit end
# there is none
line 1: there is no instruction | ;
line 3: there is no instruction | ; nothing /  / \u{20}
line 2: there is no instruction | a: / b:";

// The lines of a text.
fn lines_of(rt: &impl Abort, alloc: Global, text: &str) -> String {
    text.replace(alloc, " / ", "\n").expect(rt, "out of memory")
}

// The bytes that a text is assembled to, as hex.
fn bytes_of(rt: &impl Abort, alloc: Global, text: &[u8]) -> String {
    let program = assemble(alloc, text).expect(rt, "the text is no program");
    let bytes = encode(alloc, &program).expect(rt, "out of memory");
    hex::encode(alloc, &bytes).expect(rt, "out of memory")
}

// Why a text is refused.
fn fault_of(rt: &impl Abort, alloc: Global, text: &[u8]) -> AssemblyFault {
    match assemble(alloc, text) {
        Ok(_) => rt.panic("the text is a program"),
        Err(fault) => fault,
    }
}

#[test]
fn a_text_is_its_program(rt: HostRuntime) {
    for row in TEXTS.lines() {
        if !row.starts_with('#') {
            let (digits, text) = column(&rt, row);
            let lines = lines_of(&rt, rt.alloc(), text);
            is_text(
                &rt,
                row,
                bytes_of(&rt, rt.alloc(), lines.as_bytes()).as_str(),
                digits,
            );
        }
    }
}

#[test]
fn a_text_of_no_program_is_refused(rt: HostRuntime) {
    for row in REFUSED.lines() {
        if !row.starts_with('#') {
            let (want, text) = column(&rt, row);
            let lines = lines_of(&rt, rt.alloc(), text);
            let fault = fault_of(&rt, rt.alloc(), lines.as_bytes());
            let words = fault.to_string(rt.alloc()).expect(&rt, "out of memory");
            is_text(&rt, row, words.as_str(), want);
        }
    }
}

// The instructions of `text`, each on its own: without its slot it is at slot 0.
#[test]
fn each_instruction_is_read(rt: HostRuntime) {
    for row in LINES.lines() {
        if !row.starts_with('#') {
            let (digits, line) = column(&rt, row);
            let (_, text) = line.split_once(": ").expect(&rt, "a line has its slot");
            is_text(
                &rt,
                row,
                bytes_of(&rt, rt.alloc(), text.as_bytes()).as_str(),
                digits,
            );
        }
    }
}

// A program of all of them, by its listing.
#[test]
fn a_listing_is_its_program(rt: HostRuntime) {
    let mut digits = String::new(rt.alloc());
    for row in LINES.lines() {
        if !row.starts_with('#') {
            let (more, _) = column(&rt, row);
            digits.push_str(more).expect(&rt, "out of memory");
        }
    }
    let program = program_of(&rt, rt.alloc(), digits.as_str());
    let list = listing(rt.alloc(), &program).expect(&rt, "out of memory");
    holds(
        &rt,
        "the same bytes",
        bytes_of(&rt, rt.alloc(), list.as_bytes()) == digits,
    );
}

#[test]
fn bytes_of_a_comment_are_any(rt: HostRuntime) {
    let exit = bytes_of(&rt, rt.alloc(), b"exit ; \xff\x00");
    is_text(&rt, "a comment", exit.as_str(), "9500000000000000");
    let fault = fault_of(&rt, rt.alloc(), b"exit\nexit\xff");
    let words = fault.to_string(rt.alloc()).expect(&rt, "out of memory");
    is_text(
        &rt,
        "a word",
        words.as_str(),
        "line 2: this is not an instruction",
    );
    let fault = fault_of(&rt, rt.alloc(), b"");
    let words = fault.to_string(rt.alloc()).expect(&rt, "out of memory");
    is_text(
        &rt,
        "no text",
        words.as_str(),
        "line 1: there is no instruction",
    );
}

#[test]
fn a_program_has_4096_slots(rt: HostRuntime) {
    let mut text = String::new(rt.alloc());
    for _ in 0..4095 {
        text.push_str("exit\n").expect(&rt, "out of memory");
    }
    let mut full = text.clone().expect(&rt, "out of memory");
    text.push_str("lddw r0, 1\nhalt")
        .expect(&rt, "out of memory");
    let fault = fault_of(&rt, rt.alloc(), text.as_bytes());
    let words = fault.to_string(rt.alloc()).expect(&rt, "out of memory");
    is_text(
        &rt,
        "a wide one",
        words.as_str(),
        "line 4096: a program has at most 4096 slots",
    );
    full.push_str("4095: exit\n").expect(&rt, "out of memory");
    holds(
        &rt,
        "all slots",
        bytes_of(&rt, rt.alloc(), full.as_bytes()).len() == 4096 * 16,
    );
    full.push_str("\n; more\nexit").expect(&rt, "out of memory");
    let fault = fault_of(&rt, rt.alloc(), full.as_bytes());
    let words = fault.to_string(rt.alloc()).expect(&rt, "out of memory");
    is_text(
        &rt,
        "one more",
        words.as_str(),
        "line 4099: a program has at most 4096 slots",
    );
}
