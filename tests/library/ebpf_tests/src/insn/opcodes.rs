//! Every opcode with each of its fields, by a table that was written by hand from the rules of RFC 9669.

use ebpf_insn::decode::decode;
use ebpf_insn::fault::{DecodeCode, DecodeFault};
use std::alloc::Global;
use std::process::Abort;
use std::test::*;

// What the five variants of each opcode give as a program of one slot, by its high (lines) and low four bits (columns): `.`
// is a program, a digit n the code In, and `-` I2 in all of them.
const OPCODES: &str = "\
-     -     -     -     ..44. .44.4 .444. ..44. -     -     -     -     ...44 -     -     ...44
-     -     -     -     ..44. ..4.. ..4.. ..44. 55845 -     -     -     ...44 ....4 ....4 ...44
88888 -     -     -     ..44. ..4.. ..4.. ..44. 88888 -     -     -     ...44 ....4 ....4 ...44
88888 -     -     -     ..4.. ..4.. ..4.. ..4.. -     -     -     -     ....4 ....4 ....4 ....4
88888 -     -     -     ..44. ..4.. ..4.. ..44. 88888 -     -     -     ...44 ....4 ....4 ...44
88888 -     -     -     ..44. ..4.. ..4.. ..44. -     -     -     -     ...44 ....4 ....4 ...44
-     ....4 ..4.. ....4 ..44. ..4.. ..4.. ..44. -     ....4 ..4.. ....4 ...44 ....4 ....4 ...44
-     ....4 ..4.. ....4 ..44. ..4.. ..4.. ..44. -     ....4 ..4.. ....4 ...44 ....4 ....4 ...44
-     ....4 -     -     ..444 .484. -     ..444 -     ....4 -     -     -     88888 -     -
-     ....4 -     -     ..4.. .4444 -     ..4.. -     -     -     -     ....4 -     -     ....4
-     -     -     -     ..44. ..4.. ..4.. ..44. -     -     -     -     ...44 ....4 ....4 ...44
-     -     -     -     ..44. ..4.. ..4.. ..44. -     -     -     -     ...74 ....4 ....4 ...74
-     -     -     88888 ..44. ..4.. ..4.. ..44. -     -     -     -     ...44 ....4 ....4 ...44
-     -     -     -     77447 ..4.. ..4.. 77447 -     -     -     88888 77447 ....4 ....4 -
-     -     -     -     -     -     -     -     -     -     -     -     -     -     -     -
-     -     -     -     -     -     -     -     -     -     -     -     -     -     -     -";

// The slot of a variant of an opcode: all zero, dst is 1, src is 1, the offset is 1, the immediate is 1.
fn variant(opcode: u8, number: usize) -> [u8; 8] {
    let mut bytes = [opcode, 0, 0, 0, 0, 0, 0, 0];
    match number {
        1 => bytes[1] = 0x01,
        2 => bytes[1] = 0x10,
        3 => bytes[2] = 1,
        4 => bytes[4] = 1,
        _ => {}
    }
    bytes
}

// The digit of the code that refuses slot 0, or `.` for a program.
fn letter_of(alloc: Global, bytes: &[u8]) -> char {
    match decode(alloc, bytes) {
        Ok(_) => '.',
        Err(DecodeFault::Bad { slot: 0, code }) => match code {
            DecodeCode::UnknownOpcode => '2',
            DecodeCode::UnusedFieldSet => '4',
            DecodeCode::MissingSecondSlot => '5',
            DecodeCode::UndefinedField => '7',
            DecodeCode::UnsupportedForm => '8',
            _ => '?',
        },
        Err(_) => '?',
    }
}

// What the five variants of an opcode give.
fn letters_of(rt: &impl Abort, alloc: Global, opcode: u8) -> String {
    let mut letters = String::new(alloc);
    for number in 0..5 {
        let letter = letter_of(alloc, &variant(opcode, number));
        letters.push(letter).expect(rt, "out of memory");
    }
    letters
}

#[test]
fn each_field_of_each_opcode(rt: HostRuntime) {
    let mut cells = OPCODES.split_whitespace();
    for opcode in 0..=u8::MAX {
        let cell = cells.next().expect(&rt, "a cell is missing");
        let expected = if cell == "-" { "22222" } else { cell };
        let text = letters_of(&rt, rt.alloc(), opcode);
        assert!(rt; text.as_str() == expected, "opcode {opcode}: {text}");
    }
    assert!(rt; cells.next().is_none());
}
