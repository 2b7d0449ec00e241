//! Instructions and their lines, written down by hand from the format.

use crate::programs::{column, is_text, program_of};
use ebpf_insn::insn::{Insn, Size};
use ebpf_insn::register::Reg;
use ebpf_text::line::line;
use ebpf_text::listing::listing;
use std::alloc::Global;
use std::process::Abort;
use std::test::*;

// The encoding of an instruction, and its line at the slot that the line begins with.
pub(crate) const LINES: &str = "\
# each operation has its name
0c10000000000000 | 0: add32 r0, r1
07030000fbffffff | 0: add64 r3, -5
1c10000000000000 | 0: sub32 r0, r1
17030000fbffffff | 0: sub64 r3, -5
2c10000000000000 | 0: mul32 r0, r1
27030000fbffffff | 0: mul64 r3, -5
3c10000000000000 | 0: div32 r0, r1
37030000fbffffff | 0: div64 r3, -5
3c10010000000000 | 0: sdiv32 r0, r1
37030100fbffffff | 0: sdiv64 r3, -5
4c10000000000000 | 0: or32 r0, r1
47030000fbffffff | 0: or64 r3, -5
5c10000000000000 | 0: and32 r0, r1
57030000fbffffff | 0: and64 r3, -5
6c10000000000000 | 0: lsh32 r0, r1
67030000fbffffff | 0: lsh64 r3, -5
7c10000000000000 | 0: rsh32 r0, r1
77030000fbffffff | 0: rsh64 r3, -5
9c10000000000000 | 0: mod32 r0, r1
97030000fbffffff | 0: mod64 r3, -5
9c10010000000000 | 0: smod32 r0, r1
97030100fbffffff | 0: smod64 r3, -5
ac10000000000000 | 0: xor32 r0, r1
a7030000fbffffff | 0: xor64 r3, -5
bc10000000000000 | 0: mov32 r0, r1
b7030000fbffffff | 0: mov64 r3, -5
cc10000000000000 | 0: arsh32 r0, r1
c7030000fbffffff | 0: arsh64 r3, -5
# each condition has its name
1e10050000000000 | 0: jeq32 r0, r1, +5
1503fbff00000000 | 0: jeq64 r3, 0, -5
5e10050000000000 | 0: jne32 r0, r1, +5
5503fbff00000000 | 0: jne64 r3, 0, -5
2e10050000000000 | 0: jgt32 r0, r1, +5
2503fbff00000000 | 0: jgt64 r3, 0, -5
3e10050000000000 | 0: jge32 r0, r1, +5
3503fbff00000000 | 0: jge64 r3, 0, -5
ae10050000000000 | 0: jlt32 r0, r1, +5
a503fbff00000000 | 0: jlt64 r3, 0, -5
be10050000000000 | 0: jle32 r0, r1, +5
b503fbff00000000 | 0: jle64 r3, 0, -5
4e10050000000000 | 0: jset32 r0, r1, +5
4503fbff00000000 | 0: jset64 r3, 0, -5
6e10050000000000 | 0: jsgt32 r0, r1, +5
6503fbff00000000 | 0: jsgt64 r3, 0, -5
7e10050000000000 | 0: jsge32 r0, r1, +5
7503fbff00000000 | 0: jsge64 r3, 0, -5
ce10050000000000 | 0: jslt32 r0, r1, +5
c503fbff00000000 | 0: jslt64 r3, 0, -5
de10050000000000 | 0: jsle32 r0, r1, +5
d503fbff00000000 | 0: jsle64 r3, 0, -5
# each size is loaded
7110040000000000 | 0: ldxb r0, [r1+4]
91a0fcff00000000 | 0: ldxsb r0, [r10-4]
6910040000000000 | 0: ldxh r0, [r1+4]
89a0fcff00000000 | 0: ldxsh r0, [r10-4]
6110040000000000 | 0: ldxw r0, [r1+4]
81a0fcff00000000 | 0: ldxsw r0, [r10-4]
7910040000000000 | 0: ldxdw r0, [r1+4]
# each size is stored
7201f8ff05000000 | 0: stb [r1-8], 5
732a080000000000 | 0: stxb [r10+8], r2
6a01f8ff05000000 | 0: sth [r1-8], 5
6b2a080000000000 | 0: stxh [r10+8], r2
6201f8ff05000000 | 0: stw [r1-8], 5
632a080000000000 | 0: stxw [r10+8], r2
7a01f8ff05000000 | 0: stdw [r1-8], 5
7b2a080000000000 | 0: stxdw [r10+8], r2
# a move that extends the sign names its bits
bc10080000000000 | 0: movs8_32 r0, r1
bc32100000000000 | 0: movs16_32 r2, r3
bf54080000000000 | 0: movs8_64 r4, r5
bf76100000000000 | 0: movs16_64 r6, r7
bf98200000000000 | 0: movs32_64 r8, r9
# a swap names its order and bits
d400000010000000 | 0: le16 r0
d400000020000000 | 0: le32 r0
d400000040000000 | 0: le64 r0
dc05000010000000 | 0: be16 r5
dc05000020000000 | 0: be32 r5
dc05000040000000 | 0: be64 r5
d70a000010000000 | 0: swap16 r10
d70a000020000000 | 0: swap32 r10
d70a000040000000 | 0: swap64 r10
# what has one operand or none
8406000000000000 | 0: neg32 r6
8706000000000000 | 0: neg64 r6
0500050000000000 | 0: ja +5
0600000005000000 | 0: ja32 +5
8500000001000000 | 0: call 1
9500000000000000 | 0: exit
# each register has its number
bf10000000000000 | 0: mov64 r0, r1
bf11000000000000 | 0: mov64 r1, r1
bf12000000000000 | 0: mov64 r2, r1
bf13000000000000 | 0: mov64 r3, r1
bf14000000000000 | 0: mov64 r4, r1
bf15000000000000 | 0: mov64 r5, r1
bf16000000000000 | 0: mov64 r6, r1
bf17000000000000 | 0: mov64 r7, r1
bf18000000000000 | 0: mov64 r8, r1
bf19000000000000 | 0: mov64 r9, r1
bf1a000000000000 | 0: mov64 r10, r1
# a wide value has no sign
18030000000000000000000000000000 | 0: lddw r3, 0
18030000010000000000000000000000 | 0: lddw r3, 1
18030000020000000000000001000000 | 0: lddw r3, 4294967298
18030000000000000000000000000080 | 0: lddw r3, 9223372036854775808
18030000ffffffff00000000ffffffff | 0: lddw r3, 18446744073709551615
# offsets from a base have a sign
7110008000000000 | 0: ldxb r0, [r1-32768]
6329008000000000 | 0: stxw [r9-32768], r2
7110ffff00000000 | 0: ldxb r0, [r1-1]
6329ffff00000000 | 0: stxw [r9-1], r2
7110000000000000 | 0: ldxb r0, [r1+0]
6329000000000000 | 0: stxw [r9+0], r2
7110ff7f00000000 | 0: ldxb r0, [r1+32767]
6329ff7f00000000 | 0: stxw [r9+32767], r2
# displacements have a sign
0500008000000000 | 0: ja -32768
1d10008000000000 | 0: jeq64 r0, r1, -32768
0500ffff00000000 | 0: ja -1
1d10ffff00000000 | 0: jeq64 r0, r1, -1
0500000000000000 | 0: ja +0
1d10000000000000 | 0: jeq64 r0, r1, +0
0500ff7f00000000 | 0: ja +32767
1d10ff7f00000000 | 0: jeq64 r0, r1, +32767
# far displacements have a sign
0600000000000080 | 0: ja32 -2147483648
06000000ffffffff | 0: ja32 -1
0600000000000000 | 0: ja32 +0
06000000ffffff7f | 0: ja32 +2147483647
# immediates are signed
4400000000000080 | 0: or32 r0, -2147483648
6a01020000000080 | 0: sth [r1+2], -2147483648
44000000ffffffff | 0: or32 r0, -1
6a010200ffffffff | 0: sth [r1+2], -1
4400000000000000 | 0: or32 r0, 0
6a01020000000000 | 0: sth [r1+2], 0
44000000ffffff7f | 0: or32 r0, 2147483647
6a010200ffffff7f | 0: sth [r1+2], 2147483647
# what is compared and called is signed
a601010000000080 | 0: jlt32 r1, -2147483648, +1
8500000000000080 | 0: call -2147483648
a6010100ffffffff | 0: jlt32 r1, -1, +1
85000000ffffffff | 0: call -1
a601010000000000 | 0: jlt32 r1, 0, +1
8500000000000000 | 0: call 0
a6010100ffffff7f | 0: jlt32 r1, 2147483647, +1
85000000ffffff7f | 0: call 2147483647
# a line has the slot in front
b7020000fbffffff | 0: mov64 r2, -5
bf21080000000000 | 1: movs8_64 r1, r2
dc01000020000000 | 2: be32 r1
d702000040000000 | 3: swap64 r2
3f12010000000000 | 4: sdiv64 r2, r1
18030000020000000000000001000000 | 5: lddw r3, 4294967298
81a1fcff00000000 | 7: ldxsw r1, [r10-4]
6b1afeff00000000 | 8: stxh [r10-2], r1
a601010009000000 | 9: jlt32 r1, 9, +1
0600000000000000 | 10: ja32 +0
9500000000000000 | 11: exit
9500000000000000 | 4095: exit";

// Tries a row of the lines.
fn is_the_line(rt: &impl Abort, alloc: Global, row: &str) {
    let (digits, expected) = column(rt, row);
    let (slot, _) = expected.split_once(':').expect(rt, "a line has its slot");
    let slot = slot.parse::<usize>().expect(rt, "the slot is no number");
    let program = program_of(rt, alloc, digits);
    let insn = program.at(0).expect(rt, "no instruction begins there");
    let text = line(alloc, slot, insn).expect(rt, "out of memory");
    is_text(rt, row, text.as_str().trim_end(), expected);
}

#[test]
fn an_instruction_has_its_line(rt: HostRuntime) {
    for row in LINES.lines() {
        if !row.starts_with('#') {
            is_the_line(&rt, rt.alloc(), row);
        }
    }
}

// It has no encoding.
#[test]
fn a_signed_load_of_eight_bytes_has_its_line(rt: HostRuntime) {
    let insn = Insn::Load {
        size: Size::D,
        signed: true,
        dst: Reg::R0,
        base: Reg::R10,
        offset: -4,
    };
    let text = line(rt.alloc(), 0, &insn).expect(&rt, "out of memory");
    assert!(rt; text.as_str() == "0: ldxsdw r0, [r10-4]\n");
}

#[test]
fn a_program_has_a_line_for_each_instruction(rt: HostRuntime) {
    let digits = "b7000000fbffffffbc0a0000000000000fa900000000000004030000ffffff7f9500000000000000";
    let program = program_of(&rt, rt.alloc(), digits);
    let text = listing(rt.alloc(), &program).expect(&rt, "out of memory");
    let expected =
        "0: mov64 r0, -5\n1: mov32 r10, r0\n2: add64 r9, r10\n3: add32 r3, 2147483647\n4: exit\n";
    assert!(rt; text.as_str() == expected);
}
