//! Programs unrolled: which slots their copies are of, or why there are none.

use crate::programs::{column, is_text};
use ebpf_assembly::assemble::assemble;
use ebpf_insn::register::Reg;
use ebpf_state::kinds::kinds;
use ebpf_state::value::Abs;
use ebpf_unroll::fault::UnrollFault;
use ebpf_unroll::known::known_at_end;
use ebpf_unroll::long_loop::long_loop;
use ebpf_unroll::unroll::unroll;
use ebpf_verify::decl::Decl;
use std::alloc::Global;
use std::process::Abort;
use std::test::*;

// What a row shows, the bytes of the context, the program with ` / ` at the end of a line, and for each new slot the old one that it copies,
// or why there are none. A dash is a slot that copies none.
const CASES: &str = "\
what has no loop is copied once | 0 | mov64 r0, 7 / exit | 0 1
a loop is copied turn by turn, and what leads out of an earlier turn goes to the stub by a jump | 0 | mov64 r1, 2 / turn: add64 r1, -1 / jne64 r1, 0, turn / mov64 r0, 0 / exit | 0 1 2 - 1 2 3 4 - -
a bound beside a condition of the data | 1 | ldxb r2, [r1+0] / mov64 r0, 2 / turn: add64 r0, -1 / jeq64 r0, 0, done / jne64 r2, 7, turn / done: exit | 0 1 2 3 4 - 2 3 - 5 - -
a loop without an end | 0 | turn: ja turn | slot 0 was visited 4096 times, and the program would have more than 4096 slots
a loop of too many turns | 0 | mov64 r1, 2000 / turn: add64 r1, -1 / mov64 r2, 1 / jne64 r1, 0, turn / mov64 r0, 0 / exit | slot 1 was visited 1365 times, and the program would have more than 4096 slots
a load past the context at the third turn | 2 | mov64 r2, 0 / turn: ldxb r0, [r1+0] / add64 r1, 1 / add64 r2, 1 / jlt64 r2, 5, turn / exit | slot 1 is refused with OutsideContext at visit 3
a jump past the last slot | 0 | ja +5 | slot 0 is refused with JumpOutside";

// The slots that are copied.
fn slots_in(rt: &impl Abort, alloc: Global, of: &[Option<u16>]) -> String {
    let mut text = String::new(alloc);
    for slot in of {
        let written = match slot {
            Some(slot) => write!(text, " {slot}"),
            None => write!(text, " -"),
        };
        written.expect(rt, "out of memory");
    }
    text
}

// What comes of a program.
fn unrolled(rt: &impl Abort, alloc: Global, context: u32, text: &[u8]) -> Result<String, UnrollFault> {
    let program = assemble(alloc, text).expect(rt, "the text is no program");
    let decl = Decl::new(context, 0).expect(rt, "it can't be declared");
    let found = unroll(alloc, &program, decl, &kinds())?;
    Ok(slots_in(rt, alloc, &found.of))
}

// Tries a row.
fn is_unrolled(rt: &impl Abort, alloc: Global, row: &str) {
    let (_, columns) = column(rt, row);
    let (context, columns) = column(rt, columns);
    let (words, expected) = column(rt, columns);
    let text = words.replace(alloc, " / ", "\n").expect(rt, "out of memory");
    let context = context.parse::<u32>().expect(rt, "the context has no length");
    match unrolled(rt, alloc, context, text.as_bytes()) {
        Ok(slots) => is_text(rt, row, slots.trim(), expected),
        Err(fault) => {
            let why = format!(in alloc; "{fault}").expect(rt, "out of memory");
            is_text(rt, row, why.as_str(), expected);
        }
    }
}

#[test]
fn programs_are_unrolled(rt: HostRuntime) {
    for row in CASES.lines() {
        is_unrolled(&rt, rt.alloc(), row);
    }
}

#[test]
fn a_long_loop_has_the_branches_that_lead_out_of_it(rt: HostRuntime) {
    let text = b"mov64 r1, 2000\nturn: add64 r1, -1\nmov64 r2, 1\njne64 r1, 0, turn\nmov64 r0, 0\nexit";
    let program = assemble(rt.alloc(), text).expect(&rt, "the text is no program");
    let decl = Decl::new(0, 0).expect(&rt, "it can't be declared");
    let found = long_loop(rt.alloc(), &program, decl, &kinds()).expect(&rt, "out of memory");
    assert!(rt; found.head == 1 && found.last == 3, "another loop");
    assert!(rt; found.turns == 1365, "another number of turns");
    assert!(rt; found.exits.len() == 1 && found.exits[0].slot == 3, "another way out");
    assert!(rt; matches!(found.exits[0].first.left, Abs::Num(range) if range.lo == 1999 && range.hi == 1999), "another first turn");
    assert!(rt; matches!(found.exits[0].last.left, Abs::Num(range) if range.lo == 635 && range.hi == 635), "another last turn");
}

#[test]
fn what_is_refused_in_a_turn_is_known(rt: HostRuntime) {
    let text = b"mov64 r2, 0\nturn: ldxb r0, [r1+0]\nadd64 r1, 1\nadd64 r2, 1\njlt64 r2, 5, turn\nexit";
    let program = assemble(rt.alloc(), text).expect(&rt, "the text is no program");
    let decl = Decl::new(2, 0).expect(&rt, "it can't be declared");
    let found = known_at_end(rt.alloc(), &program, decl, &kinds()).expect(&rt, "out of memory");
    let known = found.expect(&rt, "nothing is refused");
    assert!(rt; known.slot == 1, "another slot");
    assert!(rt; matches!(known.by_slots.reg(Reg::R1), Abs::Ctx(2, 2)), "another place in the context");
}
