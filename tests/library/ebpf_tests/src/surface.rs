//! Each public call of the crates from bytes to scripts, made once, and each type with its variants and fields: first of ebpf_insn,
//! ebpf_text, ebpf_flow and ebpf_range, then of ebpf_state, ebpf_verify, ebpf_machine, ebpf_core and ebpf_script.
//!
//! They are written only from the signatures, so a reader of these can see here how a call looks. What a call that allocates takes
//! first is the allocator. If the signatures speak of want of memory, a result has the error `AllocError` of std.

use crate::programs::{bytes_of, column, holds, is_text};
use crate::things::{Thing, Things};
use ebpf_core::event::{Answer, Event};
use ebpf_core::fault::{ApplyCode, ApplyFault, ReplayFault};
use ebpf_core::replay::replay;
use ebpf_core::world::{Status, World};
use ebpf_flow::edges::Edges;
use ebpf_flow::fault::{FlowCode, FlowFault};
use ebpf_flow::flowed::Flowed;
use ebpf_insn::decode::decode;
use ebpf_insn::encode::encode;
use ebpf_insn::fault::{DecodeCode, DecodeFault};
use ebpf_insn::insn::{AluOp, Cond, Insn, Order, Size, Source, Width};
use ebpf_insn::program::Program;
use ebpf_insn::register::Reg;
use ebpf_machine::context::Context;
use ebpf_machine::report::{Reply, Report};
use ebpf_machine::run::{Run, StartFault, Turn};
use ebpf_range::branches::refine;
use ebpf_range::range::{Range, hull};
use ebpf_range::results::{alu, neg, sext, swap};
use ebpf_script::{Done, EngineFault};
use ebpf_state::kinds::{KindRow, kinds};
use ebpf_state::state::{JoinFault, State};
use ebpf_state::value::Abs;
use ebpf_text::line::line;
use ebpf_text::listing::listing;
use ebpf_verify::decl::Decl;
use ebpf_verify::fault::{VerifyCode, VerifyFault};
use ebpf_verify::verified::Verified;
use ebpf_verify::verify::verify;
use std::alloc::{AllocError, Global};
use std::process::Abort;
use std::sync::Wait;
use std::test::*;
use std::thread::Threads;

// The greatest number of 64 bits.
const M: u64 = u64::MAX;

// r0 = 7, exit
const SEVEN: &str = "b700000007000000 9500000000000000";

// r0 = 4294967298 in two slots, exit
const WIDE: &str = "1800000002000000 0000000001000000 9500000000000000";

// Asks for a cell, writes 5 to it, reads it and frees it; it returns what it read.
const ASKS: &str = "b701000000000000 8500000001000000 1500050000000000 7a00000005000000 7906000000000000 bf01000000000000 8500000002000000 bf60000000000000 9500000000000000";

// The same with a record.
const ASKS_RECORD: &str = "b701000001000000 8500000001000000 1500050000000000 7a00000005000000 7906000000000000 bf01000000000000 8500000002000000 bf60000000000000 9500000000000000";

// Asks for a cell, writes 5 to it, and exchanges it for what is on the shelf of cells, which it frees.
const LEAVES: &str = "b701000000000000 8500000001000000 1500080000000000 7a00000005000000 bf02000000000000 b701000000000000 8500000004000000 1500020000000000 bf01000000000000 8500000002000000 b700000001000000 9500000000000000";

// Takes what is on the shelf of cells, reads it and frees it; it returns what it read.
const TAKES: &str = "b701000000000000 b702000000000000 8500000004000000 1500040000000000 7906000000000000 bf01000000000000 8500000002000000 bf60000000000000 9500000000000000";

// emit(5), exit
const EMITS: &str = "b701000005000000 8500000003000000 9500000000000000";

// The bytes of slots.
fn bytes(rt: &impl Abort, alloc: Global, slots: &str) -> Vec<u8> {
    let mut bytes = Vec::new(alloc);
    for slot in slots.split_whitespace() {
        let more = bytes_of(rt, alloc, slot);
        bytes.extend_from_slice(&more).expect(rt, "out of memory");
    }
    bytes
}

fn program(rt: &impl Abort, alloc: Global, slots: &str) -> Program {
    let given = bytes(rt, alloc, slots);
    decode(alloc, &given).expect(rt, "these slots are no program")
}

fn flowed(rt: &impl Abort, alloc: Global, slots: &str) -> Flowed {
    let program = program(rt, alloc, slots);
    ebpf_flow::check::check(alloc, program).expect(rt, "an edge leads nowhere")
}

fn verified(rt: &impl Abort, alloc: Global, slots: &str, context: u32, held: u8) -> Verified {
    let decl = Decl::new(context, held).expect(rt, "too much is declared");
    match verify(alloc, flowed(rt, alloc, slots), decl, &kinds()) {
        Ok(verified) => verified,
        Err(_) => panic!(rt; "it is refused"),
    }
}

fn no_context(alloc: Global) -> Context {
    Context {
        bytes: Vec::new(alloc),
    }
}

// ebpf_insn

#[test]
fn a_program_is_read_and_written(rt: HostRuntime) {
    let alloc = rt.alloc();
    let given = bytes(&rt, alloc, WIDE);
    let program = decode(alloc, &given).expect(&rt, "it is a program");
    holds(&rt, "instructions", program.len() == 2);
    holds(&rt, "slots", program.slots() == 3);
    let wide = matches!(program.at(0), Some(Insn::Wide { dst: Reg::R0, value: 4_294_967_298 }));
    holds(&rt, "slot 0", wide);
    holds(&rt, "a second half", program.at(1).is_none());
    holds(&rt, "slot 2", matches!(program.at(2), Some(Insn::Exit)));
    holds(&rt, "outside", program.at(3).is_none());
    let again = encode(alloc, &program).expect(&rt, "out of memory");
    holds(&rt, "its one spelling", again.as_slice() == given.as_slice());
}

fn decode_name(code: DecodeCode) -> &'static str {
    match code {
        DecodeCode::WrongLength => "I1",
        DecodeCode::UnknownOpcode => "I2",
        DecodeCode::UnknownRegister => "I3",
        DecodeCode::UnusedFieldSet => "I4",
        DecodeCode::MissingSecondSlot => "I5",
        DecodeCode::BadSecondSlot => "I6",
        DecodeCode::UndefinedField => "I7",
        DecodeCode::UnsupportedForm => "I8",
        DecodeCode::ProgramTooLong => "I9",
    }
}

// Slots, and why they are no program.
const NO_PROGRAMS: &str = "\
95 | I1 0
9910000000000000 | I2 0
b70b000000000000 | I3 0
9500000001000000 | I4 0
1800000001000000 | I5 0
1801000000000000 9500000000000000 | I6 0
d400000011000000 | I7 0
db10000000000000 9500000000000000 | I8 0";

// Why bytes are no program.
fn why_not(alloc: Global, bytes: &[u8]) -> Result<String, AllocError> {
    match decode(alloc, bytes) {
        Ok(_) => "a program".to_string(alloc),
        Err(DecodeFault::Bad { slot, code }) => format!(in alloc; "{} {slot}", decode_name(code)),
        Err(DecodeFault::NoMemory) => "no memory".to_string(alloc),
    }
}

#[test]
fn bytes_that_are_no_program_have_a_slot_and_a_code(rt: HostRuntime) {
    let alloc = rt.alloc();
    for row in NO_PROGRAMS.lines() {
        let (slots, expected) = column(&rt, row);
        let got = why_not(alloc, &bytes(&rt, alloc, slots)).expect(&rt, "out of memory");
        is_text(&rt, row, got.as_str(), expected);
    }
    let got = why_not(alloc, &[]).expect(&rt, "out of memory");
    is_text(&rt, "no bytes", got.as_str(), "I1 0");
    let exit = bytes(&rt, alloc, "9500000000000000");
    let mut long = Vec::new(alloc);
    for _ in 0..4097 {
        long.extend_from_slice(&exit).expect(&rt, "out of memory");
    }
    let got = why_not(alloc, &long).expect(&rt, "out of memory");
    is_text(&rt, "4097 slots", got.as_str(), "I9 4096");
}

// ebpf_text

// An instruction of each kind with each of its fields, and its text.
fn instructions() -> [(Insn, &'static str); 18] {
    let (dst, src, base) = (Reg::R0, Reg::R1, Reg::R10);
    let (w32, w64) = (Width::W32, Width::W64);
    let (number, register) = (Source::Imm(-5), Source::Register(src));
    [
        (Insn::Alu { width: w64, op: AluOp::Mov, dst, src: register }, "mov64 r0, r1"),
        (Insn::Alu { width: w32, op: AluOp::Add, dst, src: number }, "add32 r0, -5"),
        (Insn::Sext { width: w64, bits: 8, dst, src }, "movs8_64 r0, r1"),
        (Insn::Neg { width: w32, dst }, "neg32 r0"),
        (Insn::Swap { order: Order::Little, bits: 16, dst }, "le16 r0"),
        (Insn::Swap { order: Order::Big, bits: 32, dst }, "be32 r0"),
        (Insn::Swap { order: Order::Flip, bits: 64, dst }, "swap64 r0"),
        (Insn::Wide { dst, value: 4_294_967_298 }, "lddw r0, 4294967298"),
        (Insn::Load { size: Size::B, signed: false, dst, base: src, offset: 4 }, "ldxb r0, [r1+4]"),
        (Insn::Load { size: Size::W, signed: true, dst, base, offset: -4 }, "ldxsw r0, [r10-4]"),
        (Insn::Store { size: Size::H, base, offset: -2, src: register }, "stxh [r10-2], r1"),
        (Insn::Store { size: Size::D, base, offset: -8, src: number }, "stdw [r10-8], -5"),
        (Insn::Jump { offset: 5 }, "ja +5"),
        (Insn::JumpFar { offset: 0 }, "ja32 +0"),
        (Insn::Branch { width: w64, cond: Cond::Eq, left: dst, right: register, offset: 5 }, "jeq64 r0, r1, +5"),
        (Insn::Branch { width: w32, cond: Cond::SLe, left: dst, right: number, offset: -1 }, "jsle32 r0, -5, -1"),
        (Insn::Call { number: 1 }, "call 1"),
        (Insn::Exit, "exit"),
    ]
}

// That an instruction at slot 7 has this text.
fn has_text(rt: &impl Abort, alloc: Global, insn: &Insn, text: &str) {
    let got = line(alloc, 7, insn).expect(rt, "out of memory");
    let expected = format!(in alloc; "7: {text}\n").expect(rt, "out of memory");
    is_text(rt, text, got.as_str(), expected.as_str());
}

#[test]
fn an_instruction_of_each_kind_has_a_text(rt: HostRuntime) {
    for (insn, text) in instructions() {
        has_text(&rt, rt.alloc(), &insn, text);
    }
}

// Every operation, and its name.
fn operations() -> [(AluOp, &'static str); 14] {
    [
        (AluOp::Add, "add"),
        (AluOp::Sub, "sub"),
        (AluOp::Mul, "mul"),
        (AluOp::Div, "div"),
        (AluOp::SDiv, "sdiv"),
        (AluOp::Or, "or"),
        (AluOp::And, "and"),
        (AluOp::Lsh, "lsh"),
        (AluOp::Rsh, "rsh"),
        (AluOp::Rem, "mod"),
        (AluOp::SRem, "smod"),
        (AluOp::Xor, "xor"),
        (AluOp::Mov, "mov"),
        (AluOp::Arsh, "arsh"),
    ]
}

// Every condition, and its name.
fn conditions() -> [(Cond, &'static str); 11] {
    [
        (Cond::Eq, "jeq"),
        (Cond::Ne, "jne"),
        (Cond::Gt, "jgt"),
        (Cond::Ge, "jge"),
        (Cond::Lt, "jlt"),
        (Cond::Le, "jle"),
        (Cond::Set, "jset"),
        (Cond::SGt, "jsgt"),
        (Cond::SGe, "jsge"),
        (Cond::SLt, "jslt"),
        (Cond::SLe, "jsle"),
    ]
}

// Every register, in order.
fn registers() -> [Reg; 11] {
    [Reg::R0, Reg::R1, Reg::R2, Reg::R3, Reg::R4, Reg::R5, Reg::R6, Reg::R7, Reg::R8, Reg::R9, Reg::R10]
}

#[test]
fn operations_conditions_and_registers_have_names(rt: HostRuntime) {
    let alloc = rt.alloc();
    let (width, dst, number) = (Width::W64, Reg::R3, Source::Imm(1));
    for (op, name) in operations() {
        let text = format!(in alloc; "{name}64 r3, 1").expect(&rt, "out of memory");
        has_text(&rt, alloc, &Insn::Alu { width, op, dst, src: number }, text.as_str());
    }
    for (cond, name) in conditions() {
        let text = format!(in alloc; "{name}64 r3, 1, +5").expect(&rt, "out of memory");
        let insn = Insn::Branch { width, cond, left: dst, right: number, offset: 5 };
        has_text(&rt, alloc, &insn, text.as_str());
    }
    for (place, dst) in registers().iter().copied().enumerate() {
        let text = format!(in alloc; "neg64 r{place}").expect(&rt, "out of memory");
        has_text(&rt, alloc, &Insn::Neg { width, dst }, text.as_str());
    }
}

#[test]
fn a_program_has_a_listing(rt: HostRuntime) {
    let got = listing(rt.alloc(), &program(&rt, rt.alloc(), WIDE)).expect(&rt, "out of memory");
    is_text(&rt, "a listing", got.as_str(), "0: lddw r0, 4294967298\n2: exit\n");
}

// ebpf_flow

#[test]
fn a_slot_has_two_edges_at_most(rt: HostRuntime) {
    let flowed = flowed(&rt, rt.alloc(), ASKS);
    holds(&rt, "its program", flowed.program().len() == 9);
    let Edges { fall, jump } = flowed.successors(2);
    holds(&rt, "a branch", fall == Some(3) && jump == Some(8));
    let Edges { fall, jump } = flowed.successors(8);
    holds(&rt, "an exit", fall.is_none() && jump.is_none());
}

fn flow_name(code: FlowCode) -> &'static str {
    match code {
        FlowCode::JumpOutside => "F1",
        FlowCode::JumpIntoWide => "F2",
        FlowCode::JumpBackward => "F3",
        FlowCode::FallsOffEnd => "F4",
        FlowCode::Unreachable => "F5",
    }
}

// A program, and what is wrong with its edges.
const NO_FLOWS: &str = "\
0500050000000000 9500000000000000 | F1 0
0500010000000000 1800000001000000 0000000000000000 9500000000000000 | F2 0
0500ffff00000000 9500000000000000 | F3 0
b700000000000000 | F4 0
9500000000000000 9500000000000000 | F5 1";

#[test]
fn edges_that_lead_nowhere_have_a_slot_and_a_code(rt: HostRuntime) {
    let alloc = rt.alloc();
    for row in NO_FLOWS.lines() {
        let (slots, expected) = column(&rt, row);
        let got = match ebpf_flow::check::check(alloc, program(&rt, alloc, slots)) {
            Ok(_) => "taken".to_string(alloc),
            Err(FlowFault::Bad { slot, code }) => format!(in alloc; "{} {slot}", flow_name(code)),
            Err(FlowFault::NoMemory) => "no memory".to_string(alloc),
        };
        is_text(&rt, row, got.expect(&rt, "out of memory").as_str(), expected);
    }
}

// ebpf_range

fn range(lo: u64, hi: u64) -> Range {
    Range { lo, hi }
}

fn is(rt: &impl Abort, what: &str, got: Range, lo: u64, hi: u64) {
    holds(rt, what, got.lo == lo && got.hi == hi);
}

// That two ranges are known after a branch.
fn are(rt: &impl Abort, what: &str, got: Option<(Range, Range)>, first: Range, second: Range) {
    let Some((a, b)) = got else {
        panic!(rt; "it goes there");
    };
    is(rt, what, a, first.lo, first.hi);
    is(rt, what, b, second.lo, second.hi);
}

#[test]
fn ranges_are_computed_with(rt: HostRuntime) {
    let (w32, w64) = (Width::W32, Width::W64);
    let new = Range::new(1, M).expect(&rt, "1 is less");
    is(&rt, "new", new, 1, M);
    holds(&rt, "none", Range::new(2, 1).is_none());
    is(&rt, "add", alu(AluOp::Add, w64, new, range(1, 1)), 0, M);
    is(&rt, "add", alu(AluOp::Add, w64, range(M - 1, M), range(2, 3)), 0, 2);
    is(&rt, "sub", alu(AluOp::Sub, w64, range(0, 3), range(4, 5)), M - 4, M);
    is(&rt, "or", alu(AluOp::Or, w64, range(1, 4), range(2, 2)), 2, 7);
    is(&rt, "lsh", alu(AluOp::Lsh, w64, range(1, 2), range(65, 65)), 2, 4);
    is(&rt, "lsh", alu(AluOp::Lsh, w32, range(1, 2), range(31, 31)), 0, 4_294_967_295);
    is(&rt, "sext", sext(w64, 8, range(0x80, 0x80)), M - 127, M - 127);
    is(&rt, "sext", sext(w32, 8, range(0, 1)), 0, 4_294_967_295);
    is(&rt, "neg", neg(w64, range(1, 1)), M, M);
    is(&rt, "swap", swap(Order::Big, 16, range(0x1234, 0x1234)), 0x3412, 0x3412);
    is(&rt, "swap", swap(Order::Flip, 16, range(0, 1)), 0, 65_535);
    is(&rt, "hull", hull(range(1, 2), range(5, 6)), 1, 6);
    let got = refine(Cond::Ne, w64, range(0, 5), range(0, 0), true);
    are(&rt, "ne", got, range(1, 5), range(0, 0));
    let got = refine(Cond::Gt, w64, range(0, 255), range(3, 3), false);
    are(&rt, "not gt", got, range(0, 3), range(3, 3));
    let got = refine(Cond::Set, w64, range(4, 4), range(3, 3), true);
    holds(&rt, "set", got.is_none());
}

// ebpf_state

fn number(n: u64) -> Abs {
    Abs::Num(range(n, n))
}

#[test]
fn there_are_three_kinds(rt: HostRuntime) {
    let [cell, record, block] = kinds();
    let KindRow { name, size, fill } = cell;
    holds(&rt, "cell", name == "cell" && size == 16 && fill == 0);
    let KindRow { name, size, fill } = record;
    holds(&rt, "record", name == "record" && size == 64 && fill == 0xff);
    let KindRow { name, size, fill } = block;
    holds(&rt, "block", name == "block" && size == 512 && fill == 0x5a);
}

#[test]
fn a_state_has_registers_and_a_stack(rt: HostRuntime) {
    let mut state = State::start(rt.alloc()).expect(&rt, "out of memory");
    holds(&rt, "the context", matches!(state.reg(Reg::R1), Abs::Ctx(0, 0)));
    holds(&rt, "the stack", matches!(state.reg(Reg::R10), Abs::Stk(0)));
    holds(&rt, "the others", matches!(state.reg(Reg::R0), Abs::Unset));
    state.set(Reg::R2, number(2));
    holds(&rt, "a number", matches!(state.reg(Reg::R2), Abs::Num(Range { lo: 2, hi: 2 })));
    holds(&rt, "a store", state.store(Size::D, -8, number(5)).is_ok());
    let loaded = state.load(Size::D, false, -8);
    holds(&rt, "a word", matches!(loaded, Ok(Abs::Num(Range { lo: 5, hi: 5 }))));
    let loaded = state.load(Size::B, false, -8);
    holds(&rt, "a byte", matches!(loaded, Ok(Abs::Num(Range { lo: 0, hi: 255 }))));
}

#[test]
fn a_state_has_what_is_held(rt: HostRuntime) {
    let mut state = State::start(rt.alloc()).expect(&rt, "out of memory");
    holds(&rt, "nothing", state.held() == 0 && state.kind(3).is_none());
    state.hold(3, 1).expect(&rt, "out of memory");
    state.set(Reg::R0, Abs::May(3));
    holds(&rt, "a record", state.held() == 1 && state.kind(3) == Some(1));
    let mut other = state.copy().expect(&rt, "out of memory");
    other.settle(3, true);
    holds(&rt, "null", matches!(other.reg(Reg::R0), Abs::Num(Range { lo: 0, hi: 0 })) && other.held() == 0);
    holds(&rt, "they differ", matches!(state.join(&other), Err(JoinFault::HeldDiffer)));
    holds(&rt, "not for memory", !matches!(state.join(&other), Err(JoinFault::NoMemory)));
    state.settle(3, false);
    holds(&rt, "an object", matches!(state.reg(Reg::R0), Abs::Ob(3, 0, 0)));
    let same = state.copy().expect(&rt, "out of memory");
    state.set(Reg::R0, Abs::Ob(3, 8, 8));
    let joined = state.join(&same).expect(&rt, "they hold the same");
    holds(&rt, "both places", matches!(joined.reg(Reg::R0), Abs::Ob(3, 0, 8)));
    state.forget(3);
    holds(&rt, "forgotten", matches!(state.reg(Reg::R0), Abs::Unset) && state.held() == 0);
}

// ebpf_verify

#[test]
fn a_declaration_has_bounds(rt: HostRuntime) {
    let decl = Decl::new(4096, 64).expect(&rt, "it is the largest");
    holds(&rt, "what it says", decl.context == 4096 && decl.held == 64);
    holds(&rt, "a byte more", Decl::new(4097, 0).is_none());
    holds(&rt, "an object more", Decl::new(0, 65).is_none());
}

#[test]
fn an_accepted_program_is_kept(rt: HostRuntime) {
    let verified = verified(&rt, rt.alloc(), ASKS, 2, 1);
    let decl = verified.decl();
    holds(&rt, "what it declares", decl.context == 2 && decl.held == 1);
    holds(&rt, "its program", verified.program().slots() == 9);
    holds(&rt, "the kinds", verified.rows().len() == 3 && verified.rows()[2].size == 512);
    holds(&rt, "its length", verified.len() == 9);
}

fn verify_name(code: VerifyCode) -> &'static str {
    match code {
        VerifyCode::UnsetRegister => "V1",
        VerifyCode::FramePointerWritten => "V2",
        VerifyCode::PointerMisused => "V3",
        VerifyCode::MovedTooFar => "V4",
        VerifyCode::PointerCompared => "V5",
        VerifyCode::OutsideStack => "V6",
        VerifyCode::UnsetStack => "V7",
        VerifyCode::OutsideContext => "V8",
        VerifyCode::ContextWritten => "V9",
        VerifyCode::OutsideObject => "V10",
        VerifyCode::UntestedAnswer => "V11",
        VerifyCode::PartialPointer => "V12",
        VerifyCode::NumberAsAddress => "V13",
        VerifyCode::UnknownHelper => "V14",
        VerifyCode::WrongArgument => "V15",
        VerifyCode::TooManyHeld => "V16",
        VerifyCode::HeldAtExit => "V17",
        VerifyCode::NoNumberReturned => "V18",
        VerifyCode::PathsDiffer => "V19",
    }
}

// The bytes of the context, the most that is held, a program, and why it is refused.
const REFUSED: &str = "\
0 0 | 9500000000000000 | V1 0
0 0 | b70a000000000000 9500000000000000 | V2 0
0 0 | 0f11000000000000 9500000000000000 | V3 0
0 0 | 0701000001000020 b700000000000000 9500000000000000 | V4 0
0 0 | 1501000000000000 b700000000000000 9500000000000000 | V5 0
0 0 | 720afffd07000000 71a000fe00000000 9500000000000000 | V6 0
0 0 | 79a0f8ff00000000 9500000000000000 | V7 0
3 0 | 7112000000000000 5702000003000000 0f21000000000000 7110000000000000 9500000000000000 | V8 3
1 0 | 7201000000000000 9500000000000000 | V9 0
0 1 | b701000000000000 8500000001000000 1500050000000000 7a00090005000000 7906000000000000 bf01000000000000 8500000002000000 bf60000000000000 9500000000000000 | V10 3
0 1 | b701000000000000 8500000001000000 7a00000005000000 7906000000000000 bf01000000000000 8500000002000000 bf60000000000000 9500000000000000 | V11 2
1 0 | 7b1af8ff00000000 61a2f8ff00000000 7120000000000000 9500000000000000 | V12 1
0 0 | b701000000000000 7110000000000000 9500000000000000 | V13 1
0 0 | 8500000009000000 9500000000000000 | V14 0
0 1 | b701000000000000 8500000001000000 1500070000000000 7a00000005000000 7906000000000000 bf01000000000000 8500000002000000 bf01000000000000 8500000002000000 bf60000000000000 9500000000000000 | V15 8
0 0 | b701000000000000 8500000001000000 1500050000000000 7a00000005000000 7906000000000000 bf01000000000000 8500000002000000 bf60000000000000 9500000000000000 | V16 1
0 1 | b701000000000000 8500000001000000 1500020000000000 b700000000000000 9500000000000000 9500000000000000 | V17 4
0 0 | bfa0000000000000 9500000000000000 | V18 1
0 1 | b701000000000000 8500000001000000 1500040000000000 7906000000000000 1506020000000000 bf01000000000000 8500000002000000 9500000000000000 | V19 7";

// Why a program is refused.
fn verdict(rt: &impl Abort, alloc: Global, declared: &str, slots: &str) -> Result<String, AllocError> {
    let (context, held) = declared.split_once(' ').expect(rt, "a number is missing");
    let decl = Decl::new(context.parse().unwrap_or(0), held.parse().unwrap_or(0));
    let decl = decl.expect(rt, "too much is declared");
    match verify(alloc, flowed(rt, alloc, slots), decl, &kinds()) {
        Ok(_) => "accepted".to_string(alloc),
        Err(VerifyFault::Refused { slot, code }) => format!(in alloc; "{} {slot}", verify_name(code)),
        Err(VerifyFault::NoMemory) => "no memory".to_string(alloc),
    }
}

#[test]
fn a_refused_program_has_a_slot_and_a_code(rt: HostRuntime) {
    for row in REFUSED.lines() {
        let (declared, columns) = column(&rt, row);
        let (slots, expected) = column(&rt, columns);
        let got = verdict(&rt, rt.alloc(), declared, slots).expect(&rt, "out of memory");
        is_text(&rt, row, got.as_str(), expected);
    }
}

// ebpf_machine

fn started<'v>(rt: &impl Abort, alloc: Global, verified: &'v Verified) -> Run<'v, Thing> {
    match Run::start(alloc, verified, Vec::new(alloc)) {
        Ok(run) => run,
        Err(StartFault::ContextLength) => panic!(rt; "it declares no context"),
        Err(StartFault::NoMemory) => panic!(rt; "out of memory"),
    }
}

// That a run goes this many instructions on.
fn goes(rt: &impl Abort, run: &mut Run<'_, Thing>, things: &mut Things, count: u32) {
    for _ in 0..count {
        holds(rt, "it goes on", matches!(run.step(things), Turn::Went));
    }
}

#[test]
fn a_run_goes_by_steps(rt: HostRuntime) {
    let verified = verified(&rt, rt.alloc(), ASKS, 0, 1);
    let mut things = Things::new(rt.alloc(), true);
    let mut run = started(&rt, rt.alloc(), &verified);
    holds(&rt, "no kind is asked for", run.pc() == 0 && run.wants().is_none());
    goes(&rt, &mut run, &mut things, 1);
    holds(&rt, "a cell is asked for", run.pc() == 1 && run.wants() == Some(0));
    goes(&rt, &mut run, &mut things, 7);
    holds(&rt, "eight are done", run.executed() == 8 && run.exit().is_none());
    holds(&rt, "it exits", matches!(run.step(&mut things), Turn::Exited(5)));
    holds(&rt, "and stays so", matches!(run.step(&mut things), Turn::Exited(5)));
    holds(&rt, "what is read", run.exit() == Some(5) && run.executed() == 9 && run.output().is_empty());
    let Report { exit, output, executed, answers, taken, peak } = run.finish(&mut things);
    holds(&rt, "its exit", exit == Some(5) && executed == 9 && peak == 1);
    holds(&rt, "its answers", matches!(answers.replies.as_slice(), [Reply::Granted]));
    holds(&rt, "no output", output.numbers.is_empty() && taken.bytes.is_empty());
}

// What a run to its exit reports.
fn report(rt: &impl Abort, alloc: Global, slots: &str, things: &mut Things) -> Report {
    let verified = verified(rt, alloc, slots, 0, 1);
    let mut run = started(rt, alloc, &verified);
    let mut turn = Turn::Went;
    for _ in 0..verified.len() {
        turn = run.step(things);
    }
    holds(rt, "it exits", matches!(turn, Turn::Exited(_)));
    run.finish(things)
}

#[test]
fn a_run_reports_what_it_did(rt: HostRuntime) {
    let mut things = Things::new(rt.alloc(), true);
    let left = report(&rt, rt.alloc(), LEAVES, &mut things);
    holds(&rt, "an object is left", left.exit == Some(1) && left.executed == 10 && left.peak == 1);
    let answers = left.answers.replies.as_slice();
    holds(&rt, "nothing was there", matches!(answers, [Reply::Granted, Reply::Empty]));
    let took = report(&rt, rt.alloc(), TAKES, &mut things);
    holds(&rt, "it is taken", took.exit == Some(5) && took.executed == 9 && took.peak == 1);
    holds(&rt, "it was there", matches!(took.answers.replies.as_slice(), [Reply::Shelf]));
    let bytes = took.taken.bytes.as_slice();
    holds(&rt, "its bytes", bytes.len() == 16 && bytes[0] == 5 && bytes[1..].iter().all(|byte| *byte == 0));
    let emitted = report(&rt, rt.alloc(), EMITS, &mut things);
    holds(&rt, "a number is emitted", matches!(emitted.output.numbers.as_slice(), [5]));
    holds(&rt, "no answer", emitted.answers.replies.is_empty() && emitted.exit == Some(0));
    let refused = report(&rt, rt.alloc(), ASKS, &mut Things::new(rt.alloc(), false));
    holds(&rt, "null is returned", refused.exit == Some(0) && refused.executed == 4 && refused.peak == 0);
    holds(&rt, "null is answered", matches!(refused.answers.replies.as_slice(), [Reply::Null]));
}

#[test]
fn a_run_that_is_given_up_gives_its_objects_back(rt: HostRuntime) {
    let verified = verified(&rt, rt.alloc(), ASKS, 0, 1);
    let mut things = Things::new(rt.alloc(), true);
    let mut run = started(&rt, rt.alloc(), &verified);
    goes(&rt, &mut run, &mut things, 4);
    let report = run.finish(&mut things);
    holds(&rt, "no exit", report.exit.is_none() && report.executed == 4 && report.peak == 1);
    let refused = Run::<Thing>::start(rt.alloc(), &verified, bytes(&rt, rt.alloc(), "00"));
    holds(&rt, "a context too long", matches!(refused, Err(StartFault::ContextLength)));
}

// ebpf_core

fn exec(run: usize, answer: Answer) -> Event {
    Event::Exec { run, answer }
}

fn start(alloc: Global, program: usize) -> Event {
    Event::Start {
        program,
        context: no_context(alloc),
    }
}

fn is_applied(rt: &impl Abort, world: &mut World<'_>, event: Event) {
    match world.apply(event) {
        Ok(()) => {}
        Err(ApplyFault::Bad(code)) => is_text(rt, "it is legal", apply_name(code), ""),
        Err(ApplyFault::NoMemory) => panic!(rt; "out of memory"),
    }
}

#[test]
fn a_world_changes_by_events(rt: HostRuntime) {
    let alloc = rt.alloc();
    let programs = [verified(&rt, alloc, ASKS_RECORD, 0, 1)];
    let mut world = World::new(alloc, &programs).expect(&rt, "out of memory");
    is_applied(&rt, &mut world, Event::Grow { kind: 1, slot: 7 });
    is_applied(&rt, &mut world, start(alloc, 0));
    is_applied(&rt, &mut world, exec(0, Answer::Absent));
    is_applied(&rt, &mut world, exec(0, Answer::Slot(7)));
    holds(&rt, "a run", world.runs() == 1 && matches!(world.status(0), Some(Status::Going(2))));
    holds(&rt, "two instructions", world.executed(0) == Some(2));
    holds(&rt, "no output", matches!(world.output(0), Some([])));
    holds(&rt, "it owns slot 7", matches!(world.owner(7), Some((0, 1))));
    let image = world.bytes(7).expect(&rt, "the slot has bytes");
    holds(&rt, "a record", image.len() == 64 && image.iter().all(|byte| *byte == 0xff));
    holds(&rt, "the ledgers", matches!(world.ledger(1), [7]) && world.ledger(0).is_empty());
    holds(&rt, "no object is on a shelf", world.shelf(1).is_none());
    let refused = world.apply(Event::Reap { kind: 1, slot: 7 });
    holds(&rt, "it is owned", matches!(refused, Err(ApplyFault::Bad(ApplyCode::SlotNotReapable))));
    holds(&rt, "nothing has changed", matches!(world.ledger(1), [7]));
    for _ in 0..7 {
        is_applied(&rt, &mut world, exec(0, Answer::Absent));
    }
    holds(&rt, "it exits", matches!(world.status(0), Some(Status::Exited(5))));
    is_applied(&rt, &mut world, Event::Reap { kind: 1, slot: 7 });
    holds(&rt, "nothing is left", world.bytes(7).is_none() && world.owner(7).is_none());
    holds(&rt, "a second run", world.status(1).is_none() && world.output(1).is_none());
}

#[test]
fn a_world_is_replayed(rt: HostRuntime) {
    let alloc = rt.alloc();
    let programs = [verified(&rt, alloc, LEAVES, 0, 1)];
    let (none, cell) = (Answer::Absent, Answer::Slot(7));
    let events = [
        Event::Grow { kind: 0, slot: 7 },
        start(alloc, 0),
        exec(0, none),
        exec(0, cell),
        exec(0, none),
        exec(0, none),
        exec(0, none),
        exec(0, none),
        exec(0, none),
    ];
    let world = replay(alloc, &programs, &events).expect(&rt, "each event is legal");
    holds(&rt, "it is on its shelf", world.shelf(0) == Some(7) && world.owner(7).is_none());
    holds(&rt, "a run goes on", matches!(world.status(0), Some(Status::Going(7))));
}

// The letters of a fault.
fn apply_name(code: ApplyCode) -> &'static str {
    match code {
        ApplyCode::NoSuchRun => "E1",
        ApplyCode::RunEnded => "E2",
        ApplyCode::SlotNotHome => "E3",
        ApplyCode::SlotOfAnotherKind => "E4",
        ApplyCode::AnswerUnasked => "E5",
        ApplyCode::AnswerMissing => "E6",
        ApplyCode::SlotInLedger => "E7",
        ApplyCode::SlotNotReapable => "E8",
        ApplyCode::NoSuchProgramOrKind => "E9",
        ApplyCode::WrongContext => "E10",
    }
}

// That the last of events is not legal, for this cause.
fn is_stopped(rt: &impl Abort, alloc: Global, programs: &[Verified], events: &[Event], name: &str) {
    match replay(alloc, programs, events) {
        Ok(_) => panic!(rt; "each event is legal"),
        Err(ReplayFault::Bad { index, code }) => {
            holds(rt, "the last event", index + 1 == events.len());
            is_text(rt, name, apply_name(code), name);
        }
        Err(ReplayFault::NoMemory) => panic!(rt; "out of memory"),
    }
}

#[test]
fn an_event_that_is_not_legal_has_a_code(rt: HostRuntime) {
    let alloc = rt.alloc();
    let (none, null) = (Answer::Absent, Answer::Null);
    let seven = [verified(&rt, alloc, SEVEN, 0, 0)];
    let asks = [verified(&rt, alloc, ASKS_RECORD, 0, 1)];
    is_stopped(&rt, alloc, &seven, &[exec(0, none)], "E1");
    is_stopped(&rt, alloc, &seven, &[start(alloc, 0), exec(0, none), exec(0, none), exec(0, none)], "E2");
    is_stopped(&rt, alloc, &seven, &[start(alloc, 0), exec(0, Answer::Slot(0))], "E3");
    let cell = [Event::Grow { kind: 0, slot: 0 }, start(alloc, 0), exec(0, none), exec(0, Answer::Slot(0))];
    is_stopped(&rt, alloc, &asks, &cell, "E4");
    is_stopped(&rt, alloc, &seven, &[start(alloc, 0), exec(0, null)], "E5");
    is_stopped(&rt, alloc, &asks, &[start(alloc, 0), exec(0, none), exec(0, none)], "E6");
    is_stopped(&rt, alloc, &[], &[Event::Grow { kind: 1, slot: 0 }, Event::Grow { kind: 0, slot: 0 }], "E7");
    is_stopped(&rt, alloc, &[], &[Event::Grow { kind: 1, slot: 0 }, Event::Reap { kind: 0, slot: 0 }], "E8");
    is_stopped(&rt, alloc, &[], &[Event::Grow { kind: 3, slot: 0 }], "E9");
    let context = Context { bytes: bytes(&rt, alloc, "00") };
    is_stopped(&rt, alloc, &seven, &[Event::Start { program: 0, context }], "E10");
}

// ebpf_script

// That a command ended so, and wrote this text.
fn is_written(rt: &impl Abort, done: Result<Done, EngineFault>, is_clean: bool, written: &[u8], text: &str) {
    match done {
        Ok(Done::Clean) => holds(rt, text, is_clean),
        Ok(Done::Refused) => holds(rt, text, !is_clean),
        Err(EngineFault::Input) => panic!(rt; "the script can't be read"),
        Err(EngineFault::Output) => panic!(rt; "the text can't be written"),
        Err(EngineFault::NoMemory) => panic!(rt; "out of memory"),
    }
    let got = str::from_utf8(written).expect(rt, "it is a text");
    is_text(rt, "a command", got, text);
}

#[test]
fn a_script_is_checked(rt: HostRuntime) {
    let mut written = Vec::new(rt.alloc());
    let mut script = b"program a 0 0 b7000000070000009500000000000000\nrun a -\n".as_slice();
    let done = ebpf_script::check(rt.alloc(), &mut script, &mut written);
    is_written(&rt, done, true, &written, "a accepted 2\n");
    let mut written = Vec::new(rt.alloc());
    let mut script = b"program a 0 1 95\nrun b -\n".as_slice();
    let done = ebpf_script::check(rt.alloc(), &mut script, &mut written);
    is_written(&rt, done, false, &written, "fault S7 line 2\n");
}

#[test]
fn a_script_is_replayed(rt: HostRuntime) {
    let mut written = Vec::new(rt.alloc());
    let mut script = b"program a 0 0 b7000000070000009500000000000000\nstart a -\nstart a -\nexec 1\nexec 0\nexec 0\n".as_slice();
    let done = ebpf_script::replay(rt.alloc(), &mut script, &mut written);
    let text = "a accepted 2\nrun 0 exit 7 executed 2\nrun 1 going 1 executed 1\nkind 0 slots 0 held 0\nkind 1 slots 0 held 0\nkind 2 slots 0 held 0\n";
    is_written(&rt, done, true, &written, text);
}

// Runs a script by 2 workers with 10 passes of the reaper.
fn is_run<R: Abort + Threads + Wait + Sync>(rt: &R, alloc: Global, script: &str, text: &str) {
    let mut reader = script.as_bytes();
    let mut written = Vec::new(alloc);
    let done = ebpf_script::run(rt, alloc, &mut reader, &mut written, 2, 10);
    is_written(rt, done, true, &written, text);
}

#[test]
fn a_script_is_run(rt: HostRuntime) {
    is_run(
        &rt,
        rt.alloc(),
        "arena 16\nprogram a 0 0 b7000000070000009500000000000000\nrun a -\nreap\n",
        "a accepted 2\njob 0 exit 7 executed 2 peak 0\ncache cell allocs 0 frees 0 nulls 0 missing 0\ncache record allocs 0 frees 0 nulls 0 missing 0\ncache block allocs 0 frees 0 nulls 0 missing 0\n",
    );
}
