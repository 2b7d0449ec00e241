//! Scripts with their programs, events and jobs, and the calls that commands share, with values from docs/SCRIPTS.md.

use crate::accepted::script_of;
use crate::events::write_event;
use crate::programs::{holds, is_text};
use ebpf_command::answer::{Answer, respond};
use ebpf_command::codes::RefusalCode;
use ebpf_command::done::{Done, FaultCode};
use ebpf_command::hex_text::{hex_bytes, hex_or_dash, hex_or_dash_in};
use ebpf_command::text::fault_line;
use ebpf_flow::fault::FlowCode;
use ebpf_insn::fault::DecodeCode;
use ebpf_reader::script::{Dialect, ProgramText, Script};
use ebpf_verify::fault::VerifyCode;
use std::alloc::{AllocError, Global};
use std::process::Abort;
use std::test::*;
use worker_pool::JobRef;

const SCRIPT: &str = "# two programs\nprogram add 4 2 b7000000\n\tprogram Count-1_x 0 64 -\r\n\n\
start add 00Ff\nstart Count-1_x -\n  # runs\nstart add -\n\
exec 0\nexec\t1  null\nexec 4294967295 65535\ngrow 0 0007\nreap 255 65535";

// Its programs with their contexts' lengths, what they hold at most, and their bytes, and its events.
const SAID: &str = "\
add 4 2 [183, 0, 0, 0]
Count-1_x 0 64 []
start 0 [0, 255]
start 1 []
start 0 []
exec 0
exec 1 null
exec 4294967295 65535
grow 0 7
reap 255 65535
pages None, passes 0
";

const JOBS: &str = "reap\nprogram add 4 2 b7000000\nrun add 00Ff0908\n\tarena 016\r\n# more\n\
program Count-1_x 0 64 -\n reap\nrun Count-1_x -\nrun add 01020304";

// Its programs, its jobs with the numbers of their programs and their contexts, and what they run with.
const JOBS_SAID: &str = "\
add 4 2 [183, 0, 0, 0]
Count-1_x 0 64 []
run 0 [0, 255, 9, 8]
run 1 []
run 0 [1, 2, 3, 4]
pages Some(16), passes 2
";

// A program in words, a line more.
fn write_program(text: &mut String, name: &str, program: &ProgramText) -> Result<(), AllocError> {
    let bytes = program.bytes.as_slice();
    let (context, held) = (program.decl.context, program.decl.held);
    write!(text, "{name} {context} {held} {bytes:?}\n")
}

// A job in words, a line more.
fn write_job(text: &mut String, job: JobRef) -> Result<(), AllocError> {
    let (program, bytes) = (job.program, job.context);
    write!(text, "run {program} {bytes:?}\n")
}

// A script in words.
fn script_words(rt: &impl Abort, alloc: Global, script: &Script) -> String {
    let mut text = String::new(alloc);
    for (name, program) in script.programs.iter() {
        write_program(&mut text, name.as_str(), program).expect(rt, "out of memory");
    }
    for event in script.events.iter() {
        write_event(&mut text, event).expect(rt, "out of memory");
    }
    for number in 0..script.jobs.len() {
        write_job(&mut text, script.jobs.job(number)).expect(rt, "out of memory");
    }
    let (pages, passes) = (script.pages, script.passes);
    write!(text, "pages {pages:?}, passes {passes}\n").expect(rt, "out of memory");
    text
}

#[test]
fn a_script_has_its_programs_events_and_jobs(rt: HostRuntime) {
    let script = script_of(&rt, rt.alloc(), Dialect::Events, SCRIPT);
    let text = script_words(&rt, rt.alloc(), &script);
    is_text(&rt, "a script of events", text.as_str(), SAID);
    let script = script_of(&rt, rt.alloc(), Dialect::Jobs, JOBS);
    let text = script_words(&rt, rt.alloc(), &script);
    is_text(&rt, "a script of jobs", text.as_str(), JOBS_SAID);
}

// A word, the bytes that it means as hex, and those that it means if a lone `-` is none.
const HEX: &str = "\
0aFF Some([10, 255]) Some([10, 255])
0 None None
0x00 None None
- None Some([])
-- None None";

// Tries a row of `HEX`.
fn is_read(rt: &impl Abort, alloc: Global, row: &str) {
    let (word, expected) = row.split_once(' ').expect(rt, "a row has three columns");
    let bytes = hex_bytes(alloc, word.as_bytes()).expect(rt, "out of memory");
    let dashed = hex_or_dash(alloc, word.as_bytes()).expect(rt, "out of memory");
    let text = format!(in alloc; "{bytes:?} {dashed:?}").expect(rt, "out of memory");
    is_text(rt, row, text.as_str(), expected);
    let mut lent = vec![in alloc; 1; 3].expect(rt, "out of memory");
    let is_readable = hex_or_dash_in(&mut lent, word.as_bytes()).expect(rt, "out of memory");
    let dashed = if is_readable { Some(lent) } else { None };
    let text = format!(in alloc; "{bytes:?} {dashed:?}").expect(rt, "out of memory");
    is_text(rt, row, text.as_str(), expected);
}

#[test]
fn hex_is_an_even_number_of_digits(rt: HostRuntime) {
    for row in HEX.lines() {
        is_read(&rt, rt.alloc(), row);
    }
}

// Tries the line of a fault at line 0.
fn is_line(rt: &impl Abort, alloc: Global, code: FaultCode, expected: &str) {
    let text = fault_line(alloc, code, 0).expect(rt, "out of memory");
    is_text(rt, expected, text.as_str(), expected);
}

#[test]
fn codes_are_written_by_their_names(rt: HostRuntime) {
    is_line(&rt, rt.alloc(), FaultCode::InputTooLong, "fault S1 line 0\n");
    is_line(&rt, rt.alloc(), FaultCode::SecondArena, "fault S8 line 0\n");
    is_line(&rt, rt.alloc(), FaultCode::WrongContextLength, "fault S9 line 0\n");
    for (code, name) in [
        (RefusalCode::Decode(DecodeCode::ProgramTooLong), "I9"),
        (RefusalCode::Flow(FlowCode::JumpBackward), "F3"),
        (RefusalCode::Verify(VerifyCode::UnsetRegister), "V1"),
        (RefusalCode::Verify(VerifyCode::PathsDiffer), "V19"),
    ] {
        holds(&rt, name, code.name() == name);
    }
}

#[test]
fn an_input_is_read_and_its_answer_is_written(rt: HostRuntime) {
    let alloc = rt.alloc();
    let mut reader = b"b70".as_slice();
    let mut written = Vec::new(alloc);
    let done = respond(alloc, &mut reader, &mut written, |input| {
        holds(&rt, "the input", input == b"b70".as_slice());
        Ok(Answer {
            text: fault_line(alloc, FaultCode::UnknownLine, 12)?,
            done: Done::Refused,
        })
    });
    let is_whole = written.as_slice() == b"fault S3 line 12\n".as_slice();
    holds(
        &rt,
        "the line",
        is_whole && matches!(done, Ok(Done::Refused)),
    );
}
