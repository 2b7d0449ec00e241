//! What the commands write of an object file, of a function of it, and of a file that has none.

use crate::object_file::object;
use crate::programs::{column, holds, how, is_text};
use ebpf_command::done::Done;
use ebpf_command::format::Format;
use ebpf_input::ask::{Ask, Input};
use ebpf_one::lay_out::lay_out;
use ebpf_one::list::list;
use ebpf_one::one::one;
use ebpf_show::explain::explain;
use std::alloc::Global;
use std::process::Abort;
use std::test::*;

// The command, the object, the function, `-` for the only one, and the first line that is written.
const WRITTEN: &str = "\
one | two | checksum | accepted 8
list | two | checksum | 0: ldxw r2, [r1+4]
explain | two | checksum |   r1 context+0  r10 stack+0
lay-out | two | checksum | 611204000000000061100000000000000f2000000000000061120800000000000f2000000000000061110c00000000000f100000000000009500000000000000
one | two | nobody | fault O2 line 0
list | two | - | fault O3 line 0
one | table | - | accepted 9
list | table | - | 0: ldxb r1, [r1+0]
explain | table | - | context+16..+47 weights
lay-out | table | - | 7b1a00fe0000000071110000000000005701000007000000670100000200000079a200fe0000000007020000100000000f1200000000000061200000000000009500000000000000
lay-out | none | - | fault O1 line 0";

// The context of each.
const ZEROS: &str = "00000000000000000000000000000000";

// What a command writes of a function of an object, and how it ends.
fn written(rt: &impl Abort, alloc: Global, command: &str, name: &str, function: &str) -> (Vec<u8>, Done) {
    let file = object(rt, alloc, name);
    let function = if function == "-" { "" } else { function };
    let mut reader = file.as_slice();
    let mut writer = Vec::new(alloc);
    let input = Input::Object(function);
    let ask = Ask {
        input,
        format: Format::Text,
        context: ZEROS,
        held: 0,
    };
    let done = match command {
        "one" => one(alloc, &mut reader, &mut writer, &ask, how(false)),
        "list" => list(alloc, &mut reader, &mut writer, Format::Text, &input, false),
        "explain" => explain(alloc, &mut reader, &mut writer, &ask, false),
        _ => lay_out(alloc, &mut reader, &mut writer, &ask),
    };
    (writer, done.expect(rt, "it is done"))
}

fn is_written(rt: &impl Abort, alloc: Global, row: &str) {
    let (command, columns) = column(rt, row);
    let (name, columns) = column(rt, columns);
    let (function, expected) = column(rt, columns);
    let (bytes, done) = written(rt, alloc, command, name, function);
    let text = String::from_utf8_lossy(alloc, &bytes).expect(rt, "out of memory");
    let first = text.lines().next().expect(rt, "nothing is written");
    is_text(rt, row, first, expected);
    holds(rt, row, matches!(done, Done::Refused) == expected.starts_with("fault"));
}

#[test]
fn a_function_of_an_object_file_is_a_program(rt: HostRuntime) {
    for row in WRITTEN.lines() {
        is_written(&rt, rt.alloc(), row);
    }
}
