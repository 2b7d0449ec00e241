//! Events in words, as a script has them, and what `replay` says of them.

use crate::programs::{column, is_text};
use ebpf_core::event::{Answer, Event};
use ebpf_script::replay;
use std::alloc::{AllocError, Global};
use std::process::Abort;

// An event in words, a line more, with the number of its program, and with the bytes of its context in brackets.
pub(crate) fn write_event(text: &mut String, event: &Event) -> Result<(), AllocError> {
    match event {
        Event::Start { program, context } => {
            let bytes = context.bytes.as_slice();
            write!(text, "start {program} {bytes:?}\n")
        }
        Event::Exec { run, answer } => match answer {
            Answer::Absent => write!(text, "exec {run}\n"),
            Answer::Null => write!(text, "exec {run} null\n"),
            Answer::Slot(slot) => write!(text, "exec {run} {slot}\n"),
        },
        Event::Grow { kind, slot } => write!(text, "grow {kind} {slot}\n"),
        Event::Reap { kind, slot } => write!(text, "reap {kind} {slot}\n"),
    }
}

// Tries a row: what happens, events after these programs, and what is reported of them after the verdicts, a `;` for each end
// of a line.
pub(crate) fn is_replayed(
    rt: &impl Abort,
    alloc: Global,
    programs: &str,
    verdicts: &str,
    row: &str,
) {
    let (_, rest) = column(rt, row);
    let (events, expected) = column(rt, rest);
    let events = events.replace(alloc, ';', "\n").expect(rt, "out of memory");
    let expected = expected
        .replace(alloc, ';', "\n")
        .expect(rt, "out of memory");
    let script = format!(in alloc; "{programs}{events}").expect(rt, "out of memory");
    let expected = format!(in alloc; "{verdicts}{expected}").expect(rt, "out of memory");
    let mut reader = script.as_bytes();
    let mut written = Vec::new(alloc);
    let _ = replay(alloc, &mut reader, &mut written).expect(rt, "it is done");
    let text = str::from_utf8(&written).expect(rt, "it is a text");
    is_text(rt, row, text, expected.as_str());
}
