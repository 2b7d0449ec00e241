//! Worked ranges; and the ranges of every operation and condition against Rust's own arithmetic, at both widths and for all
//! ranges between numbers at which something changes: their corners, and their middles.

use crate::programs::{column, holds};
use ebpf_insn::insn::{AluOp, Cond, Order, Width};
use ebpf_range::branches::refine;
use ebpf_range::range::{Range, hull};
use ebpf_range::results::{alu, low, neg, sext, swap};
use std::process::Abort;
use std::test::*;

// What a row shows, the operation, its width, its operands, and what is known of the result.
const RESULTS: &str = "\
some sums wrap | add | 64 | 1 18446744073709551615 | 1 1 | 0 18446744073709551615
all sums wrap | add | 64 | 18446744073709551614 18446744073709551615 | 2 3 | 0 2
all differences wrap | sub | 64 | 0 3 | 4 5 | 18446744073709551611 18446744073709551615
either bit may be set | or | 64 | 1 4 | 2 2 | 2 7
a count is taken modulo the width | lsh | 64 | 1 2 | 65 65 | 2 4
some shifts wrap | lsh | 32 | 1 2 | 31 31 | 0 4294967295
no sum wraps | add | 64 | 1 2 | 3 4 | 4 6
low halves are added at 32 bits | add | 32 | 4294967297 4294967298 | 3 4 | 4 6
low halves may be any | add | 32 | 0 4294967296 | 0 0 | 0 4294967295";

// What a row shows, the condition, its width, whether it holds, both operands, and what is known of them then.
const BRANCHES: &str = "\
another number is taken off an end | jne | 64 | true | 0 5 | 0 0 | 1 5 | 0 0
what isn't greater is less or equal | jgt | 64 | false | 0 255 | 3 3 | 0 3 | 3 3
no bit is shared | jset | 64 | true | 4 4 | 3 3 | never | never
high halves are left alone | jeq | 32 | true | 0 4294967296 | 3 3 | 0 4294967296 | 3 3";

pub(crate) const OPERATIONS: &str = "add sub mul div sdiv or and lsh rsh mod smod xor mov arsh";

pub(crate) const CONDITIONS: &str = "jeq jne jgt jge jlt jle jset jsgt jsge jslt jsle";

pub(crate) fn operation(rt: &impl Abort, word: &str) -> AluOp {
    match word {
        "add" => AluOp::Add,
        "sub" => AluOp::Sub,
        "mul" => AluOp::Mul,
        "div" => AluOp::Div,
        "sdiv" => AluOp::SDiv,
        "or" => AluOp::Or,
        "and" => AluOp::And,
        "lsh" => AluOp::Lsh,
        "rsh" => AluOp::Rsh,
        "mod" => AluOp::Rem,
        "smod" => AluOp::SRem,
        "xor" => AluOp::Xor,
        "mov" => AluOp::Mov,
        "arsh" => AluOp::Arsh,
        _ => panic!(rt; "no operation"),
    }
}

pub(crate) fn condition(rt: &impl Abort, word: &str) -> Cond {
    match word {
        "jeq" => Cond::Eq,
        "jne" => Cond::Ne,
        "jgt" => Cond::Gt,
        "jge" => Cond::Ge,
        "jlt" => Cond::Lt,
        "jle" => Cond::Le,
        "jset" => Cond::Set,
        "jsgt" => Cond::SGt,
        "jsge" => Cond::SGe,
        "jslt" => Cond::SLt,
        "jsle" => Cond::SLe,
        _ => panic!(rt; "no condition"),
    }
}

fn width(bits: &str) -> Width {
    if bits == "32" { Width::W32 } else { Width::W64 }
}

fn number(rt: &impl Abort, digits: &str) -> u64 {
    digits.parse::<u64>().expect(rt, "no number")
}

// The range whose ends are in a row.
fn range_of(rt: &impl Abort, ends: &str) -> Range {
    let (lo, hi) = ends.split_once(' ').expect(rt, "an end is missing");
    Range::new(number(rt, lo), number(rt, hi)).expect(rt, "no range")
}

// That a range has the ends that are in a row.
fn is_range(rt: &impl Abort, row: &str, got: Range, ends: &str) {
    let expected = range_of(rt, ends);
    holds(rt, row, got.lo == expected.lo && got.hi == expected.hi);
}

// Tries a row of the results.
fn has_its_result(rt: &impl Abort, row: &str) {
    let (_, columns) = column(rt, row);
    let (word, columns) = column(rt, columns);
    let (bits, columns) = column(rt, columns);
    let (a, columns) = column(rt, columns);
    let (b, expected) = column(rt, columns);
    let op = operation(rt, word);
    let got = alu(op, width(bits), range_of(rt, a), range_of(rt, b));
    is_range(rt, row, got, expected);
}

#[test]
fn results_are_as_the_table_says(rt: HostRuntime) {
    for row in RESULTS.lines() {
        has_its_result(&rt, row);
    }
}

// Tries a row of the branches.
fn has_its_ranges(rt: &impl Abort, row: &str) {
    let (_, columns) = column(rt, row);
    let (word, columns) = column(rt, columns);
    let (bits, columns) = column(rt, columns);
    let (taken, columns) = column(rt, columns);
    let (a, columns) = column(rt, columns);
    let (b, columns) = column(rt, columns);
    let (left, right) = column(rt, columns);
    let cond = condition(rt, word);
    let got = refine(
        cond,
        width(bits),
        range_of(rt, a),
        range_of(rt, b),
        taken == "true",
    );
    match got {
        Some((a, b)) => {
            is_range(rt, row, a, left);
            is_range(rt, row, b, right);
        }
        None => holds(rt, row, left == "never"),
    }
}

#[test]
fn branches_are_as_the_table_says(rt: HostRuntime) {
    for row in BRANCHES.lines() {
        has_its_ranges(&rt, row);
    }
}

pub(crate) fn low_half(n: u64) -> u32 {
    (n % (1 << 32)) as u32
}

// What Rust gives for an operation of 32 bits.
fn result_32(op: AluOp, a: u32, b: u32) -> u32 {
    let (x, y) = (a.cast_signed(), b.cast_signed());
    match op {
        AluOp::Add => a.wrapping_add(b),
        AluOp::Sub => a.wrapping_sub(b),
        AluOp::Mul => a.wrapping_mul(b),
        AluOp::Div => a.checked_div(b).unwrap_or(0),
        AluOp::SDiv if y == 0 => 0,
        AluOp::SDiv => x.wrapping_div(y).cast_unsigned(),
        AluOp::Or => a | b,
        AluOp::And => a & b,
        AluOp::Lsh => a.wrapping_shl(b),
        AluOp::Rsh => a.wrapping_shr(b),
        AluOp::Rem => a.checked_rem(b).unwrap_or(a),
        AluOp::SRem if y == 0 => a,
        AluOp::SRem => x.wrapping_rem(y).cast_unsigned(),
        AluOp::Xor => a ^ b,
        AluOp::Mov => b,
        AluOp::Arsh => x.wrapping_shr(b).cast_unsigned(),
    }
}

// What Rust gives for an operation of 64 bits.
fn result_64(op: AluOp, a: u64, b: u64) -> u64 {
    let (x, y, count) = (a.cast_signed(), b.cast_signed(), low_half(b));
    match op {
        AluOp::Add => a.wrapping_add(b),
        AluOp::Sub => a.wrapping_sub(b),
        AluOp::Mul => a.wrapping_mul(b),
        AluOp::Div => a.checked_div(b).unwrap_or(0),
        AluOp::SDiv if y == 0 => 0,
        AluOp::SDiv => x.wrapping_div(y).cast_unsigned(),
        AluOp::Or => a | b,
        AluOp::And => a & b,
        AluOp::Lsh => a.wrapping_shl(count),
        AluOp::Rsh => a.wrapping_shr(count),
        AluOp::Rem => a.checked_rem(b).unwrap_or(a),
        AluOp::SRem if y == 0 => a,
        AluOp::SRem => x.wrapping_rem(y).cast_unsigned(),
        AluOp::Xor => a ^ b,
        AluOp::Mov => b,
        AluOp::Arsh => x.wrapping_shr(count).cast_unsigned(),
    }
}

pub(crate) fn result(op: AluOp, width: Width, a: u64, b: u64) -> u64 {
    match width {
        Width::W32 => result_32(op, low_half(a), low_half(b)) as u64,
        Width::W64 => result_64(op, a, b),
    }
}

// Whether Rust says that a condition holds of two numbers, which it can read as signed ones too.
pub(crate) fn is_so(cond: Cond, (a, x): (u64, i64), (b, y): (u64, i64)) -> bool {
    match cond {
        Cond::Eq => a == b,
        Cond::Ne => a != b,
        Cond::Gt => a > b,
        Cond::Ge => a >= b,
        Cond::Lt => a < b,
        Cond::Le => a <= b,
        Cond::Set => a & b != 0,
        Cond::SGt => x > y,
        Cond::SGe => x >= y,
        Cond::SLt => x < y,
        Cond::SLe => x <= y,
    }
}

// A number that a width compares, and its signed reading.
pub(crate) fn readings(width: Width, n: u64) -> (u64, i64) {
    match width {
        Width::W32 => (low_half(n) as u64, low_half(n).cast_signed() as i64),
        Width::W64 => (n, n.cast_signed()),
    }
}

// The numbers at which something changes.
pub(crate) const ENDS: [u64; 16] = [
    0,
    1,
    2,
    3,
    31,
    32,
    63,
    64,
    0x7fff_ffff,
    0x8000_0000,
    0xffff_ffff,
    0x1_0000_0000,
    0x7fff_ffff_ffff_ffff,
    0x8000_0000_0000_0000,
    0xffff_ffff_ffff_fffe,
    0xffff_ffff_ffff_ffff,
];

// The range between two of them, of which a place has one for each of its last eight bits' halves.
fn range_at(place: usize) -> Option<Range> {
    Range::new(ENDS[place / 16 % 16], ENDS[place % 16])
}

fn middle(a: Range) -> u64 {
    a.lo + (a.hi - a.lo) / 2
}

// The corners of two ranges, and their middles.
fn pairs(a: Range, b: Range) -> [(u64, u64); 5] {
    [
        (a.lo, b.lo),
        (a.lo, b.hi),
        (a.hi, b.lo),
        (a.hi, b.hi),
        (middle(a), middle(b)),
    ]
}

fn is_within(n: u64, a: Range) -> bool {
    a.lo <= n && n <= a.hi
}

// That the range of a result holds the results.
fn holds_results(rt: &impl Abort, op: AluOp, width: Width, a: Range, b: Range) {
    let known = alu(op, width, a, b);
    for (x, y) in pairs(a, b) {
        let is_held = is_within(result(op, width, x, y), known);
        holds(rt, "a result is out of its range", is_held);
    }
}

fn holds_all_results(rt: &impl Abort, op: AluOp, width: Width) {
    for place in 0..0x1_0000 {
        if let Some(a) = range_at(place / 0x100)
            && let Some(b) = range_at(place)
        {
            holds_results(rt, op, width, a, b);
        }
    }
}

#[test]
fn every_result_lies_in_its_range(rt: HostRuntime) {
    for word in OPERATIONS.split_whitespace() {
        holds_all_results(&rt, operation(&rt, word), Width::W32);
        holds_all_results(&rt, operation(&rt, word), Width::W64);
    }
}

// That the ranges after a branch keep the numbers with which it goes that way.
fn keeps_numbers(rt: &impl Abort, cond: Cond, width: Width, a: Range, b: Range) {
    let taken = refine(cond, width, a, b, true);
    let passed = refine(cond, width, a, b, false);
    for (x, y) in pairs(a, b) {
        let goes = is_so(cond, readings(width, x), readings(width, y));
        let is_kept = match if goes { taken } else { passed } {
            Some((a, b)) => is_within(x, a) && is_within(y, b),
            None => false,
        };
        holds(rt, "two numbers are lost at a branch", is_kept);
    }
}

fn keeps_all_numbers(rt: &impl Abort, cond: Cond, width: Width) {
    for place in 0..0x1_0000 {
        if let Some(a) = range_at(place / 0x100)
            && let Some(b) = range_at(place)
        {
            keeps_numbers(rt, cond, width, a, b);
        }
    }
}

#[test]
fn every_branch_keeps_the_numbers_that_go_its_way(rt: HostRuntime) {
    for word in CONDITIONS.split_whitespace() {
        keeps_all_numbers(&rt, condition(&rt, word), Width::W32);
        keeps_all_numbers(&rt, condition(&rt, word), Width::W64);
    }
}

pub(crate) fn kept(width: Width, n: u64) -> u64 {
    match width {
        Width::W32 => low_half(n) as u64,
        Width::W64 => n,
    }
}

// The low 8, 16 or 32 bits, which Rust extends with their sign.
pub(crate) fn extended(bits: u8, n: u64) -> u64 {
    let signed = match bits {
        8 => ((n % 0x100) as u8).cast_signed() as i64,
        16 => ((n % 0x1_0000) as u16).cast_signed() as i64,
        _ => low_half(n).cast_signed() as i64,
    };
    signed.cast_unsigned()
}

// The low 16, 32 or 64 bits, and their bytes reversed by Rust.
pub(crate) fn orders(bits: u8, n: u64) -> (u64, u64) {
    let half = (n % 0x1_0000) as u16;
    match bits {
        16 => (half as u64, half.swap_bytes() as u64),
        32 => (low_half(n) as u64, low_half(n).swap_bytes() as u64),
        _ => (n, n.swap_bytes()),
    }
}

// That the ranges of the operations on one number hold what they give on a number of the range.
fn holds_signs(rt: &impl Abort, width: Width, a: Range, n: u64) {
    let negation = kept(width, n.wrapping_neg());
    holds(rt, "a negation", is_within(negation, neg(width, a)));
    for bits in [8, 16, 32] {
        let extension = kept(width, extended(bits, n));
        holds(
            rt,
            "an extension",
            is_within(extension, sext(width, bits, a)),
        );
    }
}

fn holds_orders(rt: &impl Abort, a: Range, n: u64) {
    for bits in [16, 32, 64] {
        let (little, big) = orders(bits, n);
        holds(
            rt,
            "little",
            is_within(little, swap(Order::Little, bits, a)),
        );
        holds(rt, "big", is_within(big, swap(Order::Big, bits, a)));
        holds(rt, "reversed", is_within(big, swap(Order::Flip, bits, a)));
    }
}

#[test]
fn every_result_of_one_number_lies_in_its_range(rt: HostRuntime) {
    for place in 0..0x300 {
        if let Some(a) = range_at(place) {
            let numbers = [a.lo, a.hi, middle(a)];
            let n = numbers[place / 0x100];
            holds_signs(&rt, Width::W32, a, n);
            holds_signs(&rt, Width::W64, a, n);
            holds_orders(&rt, a, n);
        }
    }
}

// That a range has these ends.
fn is(rt: &impl Abort, name: &str, got: Range, lo: u64, hi: u64) {
    holds(rt, name, got.lo == lo && got.hi == hi);
}

fn range(lo: u64, hi: u64) -> Range {
    Range { lo, hi }
}

#[test]
fn each_function_has_a_plain_use(rt: HostRuntime) {
    holds(&rt, "no range", Range::new(2, 1).is_none());
    let new = Range::new(1, 2).expect(&rt, "1 comes before 2");
    is(&rt, "new", new, 1, 2);
    is(&rt, "constant", Range::constant(7), 7, 7);
    is(&rt, "hull", hull(range(1, 2), range(5, 6)), 1, 6);
    let half = low(range(5, (1 << 32) + 5));
    is(&rt, "low", half, 0, (1 << 32) - 1);
}
