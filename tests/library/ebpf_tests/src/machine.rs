//! What runs compute, against Rust's own arithmetic: every operation and every condition, at both widths, on a register and
//! on an immediate, for all pairs of numbers at which something changes. The programs are written slot by slot, by the
//! opcodes of RFC 9669.

use crate::programs::{asked, holds, how};
use crate::range::{
    CONDITIONS, ENDS, OPERATIONS, condition, extended, is_so, kept, low_half, operation, orders,
    readings, result,
};
use ebpf_input::form::Form;
use ebpf_insn::insn::{AluOp, Cond, Width};
use ebpf_one::one::one;
use std::alloc::Global;
use std::process::Abort;
use std::test::*;

const EXIT: u8 = 0x95;

// What is added to the opcode of an operation or a branch on an immediate if it is on a register.
const REGISTER: u8 = 8;

// Writes a slot: its opcode, its registers, the low byte of its offset, and its immediate.
fn put(rt: &impl Abort, bytes: &mut Vec<u8>, opcode: u8, registers: u8, offset: u8, imm: u32) {
    let [a, b, c, d] = imm.to_le_bytes();
    let slot = [opcode, registers, offset, 0, a, b, c, d];
    bytes.extend_from_slice(&slot).expect(rt, "out of memory");
}

// Sets a register to a number.
fn set(rt: &impl Abort, bytes: &mut Vec<u8>, register: u8, n: u64) {
    put(rt, bytes, 0x18, register, 0, low_half(n));
    put(rt, bytes, 0, 0, 0, low_half(n >> 32));
}

// That a program is reported so.
fn is_written(rt: &impl Abort, alloc: Global, program: Vec<u8>, want: &str) {
    let text = hex::encode(alloc, program).expect(rt, "out of memory");
    let mut reader = text.as_bytes();
    let mut written = Vec::new(alloc);
    let done = one(alloc, &mut reader, &mut written, &asked(Form::Hex, "-", 0), how(false));
    let is_done = done.is_ok();
    holds(rt, want, is_done && written.as_slice() == want.as_bytes());
}

// The number that the immediate of these low bits means.
fn immediate(width: Width, b: u64) -> u64 {
    match width {
        Width::W32 => low_half(b) as u64,
        Width::W64 => (low_half(b).cast_signed() as i64).cast_unsigned(),
    }
}

// The class of the operations of a width.
fn class(width: Width) -> u8 {
    match width {
        Width::W32 => 4,
        Width::W64 => 7,
    }
}

// Tries an instruction, as the slot that it is in: it makes this number of a in r0 and b in r1.
fn makes(
    rt: &impl Abort,
    alloc: Global,
    (a, b): (u64, u64),
    (opcode, registers, offset, imm): (u8, u8, u8, u32),
    n: u64,
) {
    let mut program = Vec::new(alloc);
    set(rt, &mut program, 0, a);
    set(rt, &mut program, 1, b);
    put(rt, &mut program, opcode, registers, offset, imm);
    put(rt, &mut program, EXIT, 0, 0, 0);
    let text = format!(in alloc; "accepted 4\nexit {n} executed 4 peak 0\n");
    is_written(
        rt,
        alloc,
        program,
        text.expect(rt, "out of memory").as_str(),
    );
}

// The code of an operation, and its offset.
fn operation_code(op: AluOp) -> (u8, u8) {
    match op {
        AluOp::Add => (0x00, 0),
        AluOp::Sub => (0x10, 0),
        AluOp::Mul => (0x20, 0),
        AluOp::Div => (0x30, 0),
        AluOp::SDiv => (0x30, 1),
        AluOp::Or => (0x40, 0),
        AluOp::And => (0x50, 0),
        AluOp::Lsh => (0x60, 0),
        AluOp::Rsh => (0x70, 0),
        AluOp::Rem => (0x90, 0),
        AluOp::SRem => (0x90, 1),
        AluOp::Xor => (0xa0, 0),
        AluOp::Mov => (0xb0, 0),
        AluOp::Arsh => (0xc0, 0),
    }
}

// Tries an operation of a number and each one.
fn computes_with(rt: &impl Abort, alloc: Global, op: AluOp, width: Width, a: u64) {
    let (code, offset) = operation_code(op);
    let opcode = code | class(width);
    for b in ENDS {
        let slot = (opcode | REGISTER, 0x10, offset, 0);
        makes(rt, alloc, (a, b), slot, result(op, width, a, b));
        let given = result(op, width, a, immediate(width, b));
        makes(rt, alloc, (a, 0), (opcode, 0, offset, low_half(b)), given);
    }
}

fn computes(rt: &impl Abort, alloc: Global, op: AluOp, width: Width) {
    for a in ENDS {
        computes_with(rt, alloc, op, width, a);
    }
}

#[test]
fn every_operation_gives_what_rust_gives(rt: HostRuntime) {
    for word in OPERATIONS.split_whitespace() {
        computes(&rt, rt.alloc(), operation(&rt, word), Width::W32);
        computes(&rt, rt.alloc(), operation(&rt, word), Width::W64);
    }
}

// Tries the operations of a width on one number.
fn changes_signs(rt: &impl Abort, alloc: Global, width: Width, n: u64) {
    let negation = (0x80 | class(width), 0, 0, 0);
    makes(rt, alloc, (n, 0), negation, kept(width, n.wrapping_neg()));
    for bits in [8, 16] {
        let extension = (0xb8 | class(width), 0x10, bits, 0);
        makes(rt, alloc, (0, n), extension, kept(width, extended(bits, n)));
    }
}

// Tries the byte swaps of a number.
fn swaps_bytes(rt: &impl Abort, alloc: Global, n: u64) {
    for bits in [16, 32, 64] {
        let (little, big) = orders(bits, n);
        makes(rt, alloc, (n, 0), (0xd4, 0, 0, bits as u32), little);
        makes(rt, alloc, (n, 0), (0xdc, 0, 0, bits as u32), big);
        makes(rt, alloc, (n, 0), (0xd7, 0, 0, bits as u32), big);
    }
}

#[test]
fn one_number_gives_what_rust_gives(rt: HostRuntime) {
    for n in ENDS {
        changes_signs(&rt, rt.alloc(), Width::W32, n);
        changes_signs(&rt, rt.alloc(), Width::W64, n);
        makes(
            &rt,
            rt.alloc(),
            (0, n),
            (0xbf, 0x10, 32, 0),
            extended(32, n),
        );
        swaps_bytes(&rt, rt.alloc(), n);
    }
}

// Tries a branch, as the slot that it is in, with a in r1 and b in r2: it goes over the slot that sets r0 to 0 or not.
fn goes(
    rt: &impl Abort,
    alloc: Global,
    (a, b): (u64, u64),
    (opcode, registers, imm): (u8, u8, u32),
    is_taken: bool,
) {
    let mut program = Vec::new(alloc);
    set(rt, &mut program, 1, a);
    set(rt, &mut program, 2, b);
    put(rt, &mut program, 0xb7, 0, 0, 1);
    put(rt, &mut program, opcode, registers, 1, imm);
    put(rt, &mut program, 0xb7, 0, 0, 0);
    put(rt, &mut program, EXIT, 0, 0, 0);
    let text = if is_taken {
        "accepted 6\nexit 1 executed 5 peak 0\n"
    } else {
        "accepted 6\nexit 0 executed 6 peak 0\n"
    };
    is_written(rt, alloc, program, text);
}

// The opcode of a branch on an immediate.
fn branch_opcode(cond: Cond, width: Width) -> u8 {
    let code = match cond {
        Cond::Eq => 0x10,
        Cond::Gt => 0x20,
        Cond::Ge => 0x30,
        Cond::Set => 0x40,
        Cond::Ne => 0x50,
        Cond::SGt => 0x60,
        Cond::SGe => 0x70,
        Cond::Lt => 0xa0,
        Cond::Le => 0xb0,
        Cond::SLt => 0xc0,
        Cond::SLe => 0xd0,
    };
    match width {
        Width::W32 => code | 6,
        Width::W64 => code | 5,
    }
}

// Tries a condition of a number and each one.
fn branches_with(rt: &impl Abort, alloc: Global, cond: Cond, width: Width, a: u64) {
    let opcode = branch_opcode(cond, width);
    for b in ENDS {
        let met = is_so(cond, readings(width, a), readings(width, b));
        goes(rt, alloc, (a, b), (opcode | REGISTER, 0x21, 0), met);
        let given = readings(width, immediate(width, b));
        let met = is_so(cond, readings(width, a), given);
        goes(rt, alloc, (a, 0), (opcode, 1, low_half(b)), met);
    }
}

fn branches(rt: &impl Abort, alloc: Global, cond: Cond, width: Width) {
    for a in ENDS {
        branches_with(rt, alloc, cond, width, a);
    }
}

#[test]
fn every_branch_goes_where_rust_says(rt: HostRuntime) {
    for word in CONDITIONS.split_whitespace() {
        branches(&rt, rt.alloc(), condition(&rt, word), Width::W32);
        branches(&rt, rt.alloc(), condition(&rt, word), Width::W64);
    }
}

// Tries a jump, as the slot that it is in, over the slot that sets r0 to 0, to which a branch leads that isn't taken.
fn jumps(rt: &impl Abort, alloc: Global, (opcode, offset, imm): (u8, u8, u32)) {
    let mut program = Vec::new(alloc);
    put(rt, &mut program, 0xb7, 0, 0, 7);
    put(rt, &mut program, 0x15, 0, 1, 0);
    put(rt, &mut program, opcode, 0, offset, imm);
    put(rt, &mut program, 0xb7, 0, 0, 0);
    put(rt, &mut program, EXIT, 0, 0, 0);
    is_written(rt, alloc, program, "accepted 5\nexit 7 executed 4 peak 0\n");
}

#[test]
fn a_jump_goes_by_its_offset_or_its_immediate(rt: HostRuntime) {
    jumps(&rt, rt.alloc(), (0x05, 1, 0));
    jumps(&rt, rt.alloc(), (0x06, 0, 1));
}
