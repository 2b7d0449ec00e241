//! Accepted programs, from scripts.

use crate::programs::holds;
use ebpf_command::judge::{Judged, judge};
use ebpf_core::event::Event;
use ebpf_reader::read_script::read_script;
use ebpf_reader::script::{Dialect, ProgramText, Script};
use ebpf_state::kinds::kinds;
use ebpf_verify::verified::Verified;
use std::alloc::Global;
use std::process::Abort;

// The script that a text of this dialect is.
pub(crate) fn script_of(rt: &impl Abort, alloc: Global, dialect: Dialect, text: &str) -> Script {
    match read_script(alloc, dialect, text.as_bytes()) {
        Ok(script) => script,
        Err(_) => panic!(rt; "the text is no script"),
    }
}

// A program of a script, accepted; `None` if memory is refused.
pub(crate) fn accepted_once(
    rt: &impl Abort,
    alloc: Global,
    program: &ProgramText,
) -> Option<Verified> {
    match judge(alloc, &program.bytes, program.decl, &kinds()) {
        Ok(Judged::Accepted(verified)) => Some(verified),
        Ok(_) => panic!(rt; "a program is refused"),
        Err(_) => None,
    }
}

// A program of a script, accepted.
pub(crate) fn accepted(rt: &impl Abort, alloc: Global, program: &ProgramText) -> Verified {
    match accepted_once(rt, alloc, program) {
        Some(verified) => verified,
        None => panic!(rt; "there is no memory"),
    }
}

// The programs of a script of events, each accepted, and its events.
pub(crate) fn read(rt: &impl Abort, alloc: Global, text: &str) -> (Vec<Verified>, Vec<Event>) {
    let script = script_of(rt, alloc, Dialect::Events, text);
    let mut programs = Vec::new(alloc);
    for (_, program) in script.programs.iter() {
        let is_pushed = programs.push(accepted(rt, alloc, program)).is_ok();
        holds(rt, "there is memory", is_pushed);
    }
    (programs, script.events)
}
