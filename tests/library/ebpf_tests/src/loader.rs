//! Functions of object files that read constant data: which data a slot loads, and what the function is with it.

use crate::object_file::object;
use crate::programs::{holds, is_text};
use ebpf_command::judge::{Judged, judge};
use ebpf_link::fault::LinkFault;
use ebpf_loader::fault::LoadFault;
use ebpf_loader::load::{Loaded, load};
use ebpf_loader::sentence::{write_sentence, write_unlinked};
use ebpf_machine::run::Run;
use ebpf_object_file::data_function::{DataFault, DataFunction, function_with_data};
use ebpf_shelves::store::Store;
use ebpf_state::kinds::kinds;
use ebpf_verify::decl::Decl;
use std::alloc::Global;
use std::process::Abort;
use std::test::*;

// What the table of the object `table` has at the index that is the context's only byte.
const WEIGHTS: [u64; 8] = [3, 1, 4, 1, 5, 9, 2, 6];

// The function of the object `table`.
fn weighing<'a>(rt: &impl Abort, alloc: Global, file: &'a [u8]) -> DataFunction<'a> {
    function_with_data(alloc, file, b"weigh").ok().expect(rt, "it is refused")
}

// What it is loaded as.
fn loaded(rt: &impl Abort, alloc: Global) -> Loaded {
    let file = object(rt, alloc, "table");
    let function = weighing(rt, alloc, &file);
    let decl = Decl::new(1, 0).expect(rt, "it can't be declared");
    load(alloc, &file, &function, decl, &kinds()).ok().expect(rt, "it is not loaded")
}

#[test]
fn a_slot_loads_a_table(rt: HostRuntime) {
    let file = object(&rt, rt.alloc(), "table");
    let function = weighing(&rt, rt.alloc(), &file);
    let data = function.data(rt.alloc(), &file).expect(&rt, "out of memory");
    let bytes = data.bytes(rt.alloc(), &file).expect(&rt, "out of memory");
    let name = data.parts[0].name(&file);
    let size = data.parts[0].size;
    let text = format!(in rt.alloc(); "{name} {size}").expect(&rt, "out of memory");
    is_text(&rt, "its section", text.as_str(), ".rodata.cst32 32");
    let names = function.names(rt.alloc()).expect(&rt, "out of memory");
    let table = names.name(data.parts[0]);
    let text = format!(in rt.alloc(); "{table}").expect(&rt, "out of memory");
    is_text(&rt, "the table", text.as_str(), "weights");
    holds(&rt, "one section is used", data.parts.len() == 1 && data.size == 32);
    holds(&rt, "its bytes are the table's", bytes.len() == 32 && bytes[0] == 3 && bytes[28] == 6);
    for slot in 0..data.offsets.len() {
        holds(&rt, "only slot 3 loads data", data.offsets[slot].is_some() == (slot == 3));
    }
    holds(&rt, "at its first byte", data.offsets[3] == Some(0));
}

#[test]
fn a_call_is_no_data(rt: HostRuntime) {
    let file = object(&rt, rt.alloc(), "call");
    let Err(DataFault::Object(fault)) = function_with_data(rt.alloc(), &file, b"entry") else {
        unreachable!()
    };
    let text = format!(in rt.alloc(); "{fault}").expect(&rt, "out of memory");
    let words = "slot 3 calls twice, a function of the file: make it static inline, and compile with -O2";
    is_text(&rt, "a call", text.as_str(), words);
}

#[test]
fn a_function_reads_its_table(rt: HostRuntime) {
    for index in 0..8 {
        let loaded = loaded(&rt, rt.alloc());
        let judged = judge(rt.alloc(), &loaded.bytes, loaded.decl, &kinds()).expect(&rt, "out of memory");
        let Judged::Accepted(verified) = judged else {
            unreachable!()
        };
        let mut context = Vec::new(rt.alloc());
        context.push(index as u8).expect(&rt, "out of memory");
        context.extend_from_slice(&loaded.data).expect(&rt, "out of memory");
        let mut store = Store::new(rt.alloc(), false);
        let mut run = Run::start(rt.alloc(), &verified, context).ok().expect(&rt, "it is not started");
        run.run(&mut store, u64::MAX);
        let report = run.finish(&mut store);
        holds(&rt, "its result is the table's", report.exit == Some(WEIGHTS[index]));
    }
}

#[test]
fn data_needs_room(rt: HostRuntime) {
    let file = object(&rt, rt.alloc(), "table");
    let function = weighing(&rt, rt.alloc(), &file);
    let decl = Decl::new(4065, 0).expect(&rt, "it can't be declared");
    let Err(fault) = load(rt.alloc(), &file, &function, decl, &kinds()) else {
        unreachable!()
    };
    let mut text = String::new(rt.alloc());
    write_sentence(&mut text, &file, &fault).expect(&rt, "out of memory");
    let words = "the context has 4065 bytes and the data 32, more than 4096 together: .rodata.cst32 has 32";
    is_text(&rt, "too much", text.as_str(), words);
    holds(&rt, "too much", matches!(fault, LoadFault::TooLong { .. }));
}

#[test]
fn a_fault_of_a_link_is_told(rt: HostRuntime) {
    let mut text = String::new(rt.alloc());
    write_unlinked(&mut text, LinkFault::Far { slot: 3 }).expect(&rt, "out of memory");
    let words = "slot 3 has an address more than 4096 bytes away from the context's first byte";
    is_text(&rt, "a far address", text.as_str(), words);
}
