//! Kinds of object, joins, and the functions of states on their plain uses.

use crate::programs::holds;
use ebpf_insn::insn::Size;
use ebpf_insn::register::Reg;
use ebpf_range::range::Range;
use ebpf_state::kinds::kinds;
use ebpf_state::stack::{StackFault, StoreFault, bytes_in, is_whole_word, loaded_range, place_of};
use ebpf_state::state::State;
use ebpf_state::value::Abs;
use ebpf_state::word::Word;
use std::alloc::Global;
use std::process::Abort;

// Their names, sizes and fills.
const KINDS: [(&str, u32, u8); 3] = [
    ("cell", 16, 0x00),
    ("record", 64, 0xff),
    ("block", 512, 0x5a),
];

#[test]
fn kinds_are_cell_record_and_block(rt: HostRuntime) {
    for (row, (name, size, fill)) in kinds().iter().zip(KINDS) {
        assert!(rt;
            row.name == name && row.size == size && row.fill == fill,
            "{name}"
        );
    }
}

// The number, known exactly.
fn number(value: u64) -> Abs {
    Abs::Num(Range::constant(value))
}

// A word that holds it.
fn spilled_number(value: u64) -> Word {
    Word::Spill(Abs::Num(Range::constant(value)))
}

// What is known of a register where two paths meet, one of which knows each.
fn joined(rt: &impl Abort, alloc: Global, left: Abs, right: Abs) -> Abs {
    let mut one = State::start(alloc).expect(rt, "out of memory");
    let mut other = State::start(alloc).expect(rt, "out of memory");
    one.set(Reg::R2, left);
    other.set(Reg::R2, right);
    one.join(&other).expect(rt, "out of memory").reg(Reg::R2)
}

#[test]
fn values_are_joined_to_what_both_know(rt: HostRuntime) {
    let hull = joined(&rt, rt.alloc(), number(1), number(5));
    let is_hull = matches!(hull, Abs::Num(Range { lo: 1, hi: 5 }));
    holds(&rt, "two numbers", is_hull);
    let none = joined(&rt, rt.alloc(), number(1), Abs::Stk(0));
    holds(&rt, "a number and a pointer", none.is_unset());
    let same = joined(&rt, rt.alloc(), Abs::Stk(8), Abs::Stk(8));
    holds(
        &rt,
        "the same place of the stack",
        matches!(same, Abs::Stk(8)),
    );
    let none = joined(&rt, rt.alloc(), Abs::Stk(8), Abs::Stk(0));
    holds(&rt, "two places of the stack", none.is_unset());
    let both = joined(&rt, rt.alloc(), Abs::Ctx(0, 1), Abs::Ctx(4, 4));
    holds(
        &rt,
        "two places of the context",
        matches!(both, Abs::Ctx(0, 4)),
    );
    let both = joined(&rt, rt.alloc(), Abs::Ob(1, 0, 0), Abs::Ob(1, 8, 8));
    holds(
        &rt,
        "two places of an object",
        matches!(both, Abs::Ob(1, 0, 8)),
    );
    let none = joined(&rt, rt.alloc(), Abs::Ob(1, 0, 0), Abs::Ob(2, 0, 0));
    holds(&rt, "two objects", none.is_unset());
    let same = joined(&rt, rt.alloc(), Abs::May(1), Abs::May(1));
    holds(&rt, "the same answer", matches!(same, Abs::May(1)));
    let none = joined(&rt, rt.alloc(), Abs::May(1), Abs::May(2));
    holds(&rt, "two answers", none.is_unset());
}

#[test]
fn a_value_is_unset_a_pointer_or_an_answer(rt: HostRuntime) {
    holds(&rt, "unset", Abs::Unset.is_unset());
    holds(&rt, "a pointer", Abs::Stk(0).is_pointer());
    holds(&rt, "an answer", Abs::May(0).is_may());
}

// The bytes that are set in a word that is no spill.
fn mask_of(word: Word) -> Option<u8> {
    match word {
        Word::Bytes(mask) => Some(mask),
        Word::Spill(_) => None,
    }
}

#[test]
fn words_are_joined_to_the_bytes_that_both_set(rt: HostRuntime) {
    let spilled = spilled_number(1);
    let pointer = Word::Spill(Abs::Stk(0));
    let common = mask_of(Word::Bytes(0x0f).join(Word::Bytes(0x3c)));
    holds(&rt, "two masks", common == Some(0x0c));
    let common = mask_of(spilled.join(Word::Bytes(0x0f)));
    holds(&rt, "a number and a mask", common == Some(0x0f));
    let common = mask_of(pointer.join(Word::Bytes(0xff)));
    holds(&rt, "a pointer and a mask", common == Some(0));
    let same = pointer.join(pointer);
    holds(
        &rt,
        "the same pointer",
        matches!(same, Word::Spill(Abs::Stk(0))),
    );
    let common = mask_of(spilled.join(pointer));
    holds(&rt, "a number and a pointer", common == Some(0));
}

#[test]
fn a_state_is_copied_changed_and_joined(rt: HostRuntime) {
    let mut state = State::start(rt.alloc()).expect(&rt, "out of memory");
    let first = state.copy().expect(&rt, "out of memory");
    holds(
        &rt,
        "the frame pointer",
        matches!(state.reg(Reg::R10), Abs::Stk(0)),
    );
    state.set(Reg::R2, number(2));
    let is_set = matches!(state.reg(Reg::R2), Abs::Num(Range { lo: 2, hi: 2 }));
    holds(&rt, "what was set", is_set);
    holds(&rt, "nothing is held", state.held() == 0);
    let joined = state.join(&first).expect(&rt, "out of memory");
    holds(
        &rt,
        "the context",
        matches!(joined.reg(Reg::R1), Abs::Ctx(0, 0)),
    );
    holds(&rt, "what one knows", joined.reg(Reg::R2).is_unset());
    let is_joined = state.join_with(&first);
    let what_one_knows = state.reg(Reg::R2).is_unset();
    holds(&rt, "a join in place", is_joined && what_one_knows);
}

#[test]
fn an_answer_turns_out_to_be_null_or_an_object(rt: HostRuntime) {
    let mut state = State::start(rt.alloc()).expect(&rt, "out of memory");
    state.set(Reg::R0, Abs::May(3));
    state.set(Reg::R6, Abs::May(4));
    let mut other = state.copy().expect(&rt, "out of memory");
    state.settle(3, true);
    let is_null = matches!(state.reg(Reg::R0), Abs::Num(Range { lo: 0, hi: 0 }));
    holds(&rt, "null", is_null);
    other.settle(3, false);
    let is_object = matches!(other.reg(Reg::R0), Abs::Ob(3, 0, 0));
    holds(&rt, "an object", is_object);
    let stays = matches!(other.reg(Reg::R6), Abs::May(4));
    holds(&rt, "another answer", stays);
}

// A state in which two calls hold objects, of different kinds, and the earlier one did so first or last.
fn holding_two(rt: &impl Abort, alloc: Global, is_in_order: bool) -> State {
    let mut state = State::start(alloc).expect(rt, "out of memory");
    let (first, second) = if is_in_order {
        ((3, 1), (7, 2))
    } else {
        ((7, 2), (3, 1))
    };
    state.hold(first.0, first.1).expect(rt, "out of memory");
    state.hold(second.0, second.1).expect(rt, "out of memory");
    state
}

#[test]
fn each_call_holds_the_object_that_it_asked_for(rt: HostRuntime) {
    let mut state = holding_two(&rt, rt.alloc(), true);
    let both = state.kind(3) == Some(1) && state.kind(7) == Some(2);
    holds(&rt, "two calls", state.held() == 2 && both);
    holds(&rt, "a call that holds none", state.kind(4).is_none());
    let other = holding_two(&rt, rt.alloc(), false);
    let both = other.kind(3) == Some(1) && other.kind(7) == Some(2);
    holds(&rt, "in the other order", other.held() == 2 && both);
    holds(&rt, "the same references", state.join_with(&other));
    state.settle(3, false);
    holds(&rt, "one that was tested", !state.join_with(&other));
    holds(&rt, "its kind", state.kind(3) == Some(1));
    state.hold(3, 0).expect(&rt, "out of memory");
    let is_replaced = state.held() == 2 && state.kind(3) == Some(0);
    holds(&rt, "the same call again", is_replaced);
}

#[test]
fn an_object_that_was_given_back_is_forgotten(rt: HostRuntime) {
    let mut state = holding_two(&rt, rt.alloc(), true);
    state.set(Reg::R0, Abs::May(3));
    state.set(Reg::R6, Abs::Ob(3, 0, 8));
    state.set(Reg::R7, Abs::Ob(7, 0, 0));
    let spilled = state.store(Size::D, -8, Abs::Ob(3, 0, 0));
    let kept = state.store(Size::D, -16, Abs::May(7));
    holds(&rt, "two spills", spilled.is_ok() && kept.is_ok());
    state.forget(3);
    holds(&rt, "an answer", state.reg(Reg::R0).is_unset());
    holds(&rt, "a pointer", state.reg(Reg::R6).is_unset());
    let copy = state.load(Size::D, false, -8);
    let is_unset = matches!(copy, Err(StackFault::UnsetByte));
    holds(&rt, "a spilled copy", is_unset);
    holds(&rt, "its reference", state.kind(3).is_none());
    state.forget(4);
    let stays = matches!(state.reg(Reg::R7), Abs::Ob(7, 0, 0));
    holds(&rt, "a pointer to the other object", stays);
    let spill = state.load(Size::D, false, -16);
    let stays = matches!(spill, Ok(Abs::May(7)));
    holds(&rt, "a spill of the other answer", stays);
    let stays = state.held() == 1 && state.kind(7) == Some(2);
    holds(&rt, "the other reference", stays);
}

#[test]
fn the_stack_is_stored_to_and_loaded_from(rt: HostRuntime) {
    let mut state = State::start(rt.alloc()).expect(&rt, "out of memory");
    let unset = state.load(Size::B, false, -8);
    let is_unset = matches!(unset, Err(StackFault::UnsetByte));
    holds(&rt, "nothing was stored", is_unset);
    let stored = state.store(Size::D, -8, number(5));
    let loaded = state.load(Size::D, false, -8);
    let is_five = matches!(loaded, Ok(Abs::Num(Range { lo: 5, hi: 5 })));
    holds(&rt, "a number", stored.is_ok() && is_five);
    let byte = state.load(Size::B, false, -1);
    let is_byte = matches!(byte, Ok(Abs::Num(Range { lo: 0, hi: 255 })));
    holds(&rt, "a byte of it", is_byte);
    let stored = state.store(Size::D, -512, Abs::Stk(0));
    let split = state.load(Size::W, false, -512);
    let is_split = matches!(split, Err(StackFault::SplitPointer));
    holds(&rt, "half a pointer", stored.is_ok() && is_split);
    let below = state.store(Size::B, -513, number(0));
    let is_outside = matches!(below, Err(StoreFault::Refused(StackFault::Bounds)));
    holds(&rt, "below the stack", is_outside);
}

#[test]
fn bytes_of_the_stack_have_their_place(rt: HostRuntime) {
    holds(&rt, "two bytes", bytes_in(Size::H) == 2);
    holds(&rt, "the lowest word", place_of(-512, 8) == Some(0));
    holds(&rt, "a byte after it", place_of(-7, 8).is_none());
    let only_words = is_whole_word(8, 8) && !is_whole_word(4, 8) && !is_whole_word(8, 4);
    holds(&rt, "aligned words", only_words);
    let pair = loaded_range(2, false);
    holds(&rt, "two bytes", pair.lo == 0 && pair.hi == 65_535);
    holds(&rt, "with their sign", loaded_range(2, true).hi == u64::MAX);
}
