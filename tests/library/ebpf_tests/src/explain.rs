//! What is known before a slot, in words written down by hand, and why programs are refused.

mod sentences;

use crate::programs::is_text;
use ebpf_explain::known::write_known;
use ebpf_explain::values::write_value;
use ebpf_insn::insn::Size;
use ebpf_insn::register::Reg;
use ebpf_range::range::Range;
use ebpf_state::kinds::kinds;
use ebpf_state::state::State;
use ebpf_state::value::Abs;
use std::alloc::Global;
use std::process::Abort;
use std::test::*;

// The state before slot 0.
fn first(rt: &impl Abort, alloc: Global) -> State {
    State::start(alloc).expect(rt, "out of memory")
}

// That a state is reported by these words.
fn is_known(rt: &impl Abort, alloc: Global, what: &str, state: &State, expected: &str) {
    let mut text = String::new(alloc);
    write_known(&mut text, state, &kinds()).expect(rt, "out of memory");
    is_text(rt, what, text.as_str(), expected);
}

// Says that a value is stored.
fn put(rt: &impl Abort, state: &mut State, size: Size, offset: i64, value: Abs) {
    assert!(rt;
        state.store(size, offset, value).is_ok(),
        "it can't be stored"
    );
}

// Says that a call was asked for an object of a kind.
fn ask(rt: &impl Abort, state: &mut State, call: u16, kind: u8) {
    state.hold(call, kind).expect(rt, "out of memory");
}

// The number, known exactly.
fn number(value: u64) -> Abs {
    Abs::Num(Range::constant(value))
}

#[test]
fn each_sort_of_value_has_its_words(rt: HostRuntime) {
    let mut state = first(&rt, rt.alloc());
    state.set(Reg::R0, Abs::May(4095));
    state.set(Reg::R1, number(u64::MAX));
    state.set(Reg::R2, Abs::Num(Range { lo: 0, hi: 255 }));
    state.set(Reg::R3, Abs::Stk(-512));
    state.set(Reg::R4, Abs::Ctx(4, 4));
    state.set(Reg::R5, Abs::Ctx(0, 255));
    state.set(Reg::R6, Abs::Ob(4, 8, 8));
    state.set(Reg::R7, Abs::Ob(4, -1, 8));
    state.set(Reg::R8, Abs::Num(Range { lo: 0, hi: u64::MAX }));
    state.set(Reg::R9, Abs::Num(Range { lo: 1, hi: u64::MAX }));
    let words =
        "  r0 answer of 4095  r1 18446744073709551615  r2 0..255  r3 stack-512  r4 context+4  r5 context+0..+255  r6 object of 4+8  r7 object of 4-1..+8  r8 any number  r9 1..18446744073709551615  r10 stack+0";
    is_known(&rt, rt.alloc(), "values", &state, words);
}

#[test]
fn a_value_is_written_by_itself(rt: HostRuntime) {
    let mut text = String::new(rt.alloc());
    write_value(&mut text, Abs::Ctx(0, 255)).expect(&rt, "out of memory");
    is_text(&rt, "a value", text.as_str(), "context+0..+255");
}

#[test]
fn words_of_the_stack_are_listed_from_the_lowest(rt: HostRuntime) {
    let mut state = first(&rt, rt.alloc());
    put(&rt, &mut state, Size::D, -8, number(5));
    put(&rt, &mut state, Size::W, -16, number(5));
    put(&rt, &mut state, Size::W, -24, number(5));
    put(&rt, &mut state, Size::W, -20, number(5));
    put(&rt, &mut state, Size::B, -505, number(5));
    put(&rt, &mut state, Size::B, -512, number(5));
    let words =
        "  r1 context+0  r10 stack+0  [r10-512] set 0 7  [r10-24] set  [r10-16] set 0 1 2 3  [r10-8] 5";
    is_known(&rt, rt.alloc(), "words", &state, words);
}

// There are three kinds.
#[test]
fn a_reference_has_its_call_and_its_kind(rt: HostRuntime) {
    let mut state = first(&rt, rt.alloc());
    ask(&rt, &mut state, 9, 3);
    ask(&rt, &mut state, 7, 2);
    ask(&rt, &mut state, 4, 0);
    state.settle(4, false);
    let words = "  r1 context+0  r10 stack+0  holds 4 (cell)  may hold 7 (block)  may hold 9 (3)";
    is_known(&rt, rt.alloc(), "references", &state, words);
}

#[test]
fn all_that_is_known_stands_in_one_line(rt: HostRuntime) {
    let mut state = first(&rt, rt.alloc());
    let words = "  r1 context+0  r10 stack+0";
    is_known(&rt, rt.alloc(), "the first state", &state, words);
    ask(&rt, &mut state, 4, 0);
    state.set(Reg::R2, Abs::Num(Range { lo: 0, hi: 255 }));
    state.set(Reg::R6, Abs::May(4));
    state.settle(4, false);
    put(&rt, &mut state, Size::D, -8, number(5));
    let words =
        "  r1 context+0  r2 0..255  r6 object of 4+0  r10 stack+0  [r10-8] 5  holds 4 (cell)";
    is_known(&rt, rt.alloc(), "all", &state, words);
}
