//! Readers and writers that give and take a few bytes a call, and then end or fail, under each of the commands.

use crate::programs::{asked, holds, how};
use ebpf_command::done::{Done, EngineFault};
use ebpf_command::format::Format;
use ebpf_input::ask::Input;
use ebpf_input::form::Form;
use ebpf_one::list::list;
use ebpf_one::one::one;
use ebpf_script::check_script::check_script;
use ebpf_script::{check, replay, run};
use ebpf_show::explain::explain;
use std::alloc::Global;
use std::io;
use std::io::{Read, Write};
use std::process::Abort;
use std::sync::Wait;
use std::test::*;
use std::thread::Threads;

// Gives a text and then a byte over and over, up to this many bytes a call. Then it ends, or fails for a cause. One that
// stumbles fails only at its first call.
#[derive(Drop)]
struct Source<'a> {
    text: &'a [u8],
    byte: u8,
    times: usize,
    most: usize,
    fails: Option<io::ErrorKind>,
    stumbles: bool,
}

impl Read for Source<'_> {
    fn read(&mut self, buf: &mut [u8]) -> io::Result<usize> {
        if self.stumbles {
            self.stumbles = false;
            return Err(io::Error::from(io::ErrorKind::Interrupted));
        }
        let most = buf.len().min(self.most);
        if !self.text.is_empty() {
            let n = most.min(self.text.len());
            buf[..n].copy_from_slice(&self.text[..n]);
            self.text = &self.text[n..];
            return Ok(n);
        }
        if self.times == 0
            && let Some(cause) = self.fails
        {
            return Err(io::Error::from(cause));
        }
        let n = most.min(self.times);
        buf[..n].fill(self.byte);
        self.times -= n;
        Ok(n)
    }
}

// Takes up to this many bytes a call, up to its room. Then it takes nothing, or fails. One that stumbles fails only at its first
// call. It knows whether all that it took was flushed.
#[derive(Drop)]
struct Sink {
    got: Vec<u8>,
    most: usize,
    room: usize,
    fails: bool,
    stumbles: bool,
    fails_to_flush: bool,
    is_flushed: bool,
}

impl Write for Sink {
    fn write(&mut self, buf: &[u8]) -> io::Result<usize> {
        if self.stumbles || (self.room == 0 && self.fails) {
            self.stumbles = false;
            return Err(io::Error::from(io::ErrorKind::Interrupted));
        }
        let n = buf.len().min(self.most).min(self.room);
        self.got.extend_from_slice(&buf[..n])?;
        self.room -= n;
        self.is_flushed = false;
        Ok(n)
    }

    fn flush(&mut self) -> io::Result<()> {
        if self.fails_to_flush {
            return Err(io::Error::from(io::ErrorKind::Other));
        }
        self.is_flushed = true;
        Ok(())
    }
}

// As many bytes as a command asks for at once, and more than any of the texts has.
const MANY: usize = 4096;

// Gives a byte this many times, and then ends or fails for a cause.
fn flood<'a>(byte: u8, times: usize, fails: Option<io::ErrorKind>) -> Source<'a> {
    Source {
        text: b"",
        byte,
        times,
        most: MANY,
        fails,
        stumbles: false,
    }
}

// Takes what it is given.
fn ample(alloc: Global) -> Sink {
    Sink {
        got: Vec::new(alloc),
        most: MANY,
        room: MANY,
        fails: false,
        stumbles: false,
        fails_to_flush: false,
        is_flushed: false,
    }
}

// Each command, with an input and the text that it says of it.
static COMMANDS: [(&str, &str, &str); 7] = [
    (
        "one",
        "b7000000070000009500000000000000",
        "accepted 2\nexit 7 executed 2 peak 0\n",
    ),
    (
        "list",
        "b7000000070000009500000000000000",
        "0: mov64 r0, 7\n1: exit\n",
    ),
    (
        "explain",
        "b7000000070000009500000000000000",
        "  r1 context+0  r10 stack+0\n0: mov64 r0, 7\n  r0 7  r1 context+0  r10 stack+0\n1: exit\naccepted 2\n",
    ),
    (
        "check",
        "program a 0 0 b7000000070000009500000000000000\narena 16\nrun a -\nreap\n",
        "a accepted 2\n",
    ),
    (
        "check --explain",
        "program a 0 0 b7000000070000009500000000000000\narena 16\nrun a -\nreap\n",
        "a accepted 2\n",
    ),
    (
        "replay",
        "program a 0 0 b7000000070000009500000000000000\n\
start a -\nstart a -\nexec 1\nexec 0\nexec 0\n",
        "a accepted 2\n\
run 0 exit 7 executed 2\nrun 1 going 1 executed 1\n\
kind 0 slots 0 held 0\nkind 1 slots 0 held 0\nkind 2 slots 0 held 0\n",
    ),
    (
        "run",
        "program a 0 0 b7000000070000009500000000000000\narena 16\nrun a -\n",
        "a accepted 2\njob 0 exit 7 executed 2 peak 0\n\
cache cell allocs 0 frees 0 nulls 0 missing 0\n\
cache record allocs 0 frees 0 nulls 0 missing 0\n\
cache block allocs 0 frees 0 nulls 0 missing 0\n",
    ),
];

// Calls the command of this name.
fn call<R: Threads + Wait + Sync>(
    rt: &R,
    alloc: Global,
    command: &str,
    reader: &mut Source<'_>,
    writer: &mut Sink,
) -> Result<Done, EngineFault> {
    match command {
        "one" => one(alloc, reader, writer, &asked(Form::Hex, "-", 0), how(false)),
        "list" => list(alloc, reader, writer, Format::Text, &Input::Program(Form::Hex), false),
        "explain" => explain(alloc, reader, writer, &asked(Form::Hex, "-", 0), false),
        "check" => check(alloc, reader, writer),
        "check --explain" => check_script(alloc, reader, writer, Format::Text, true),
        "replay" => replay(alloc, reader, writer),
        _ => run(rt, alloc, reader, writer, 2, 1),
    }
}

// Calls a command on a reader that is to fail, and checks that nothing is written.
fn fails_to_read<R: Abort + Threads + Wait + Sync>(
    rt: &R,
    alloc: Global,
    command: &str,
    reader: Source<'_>,
) {
    let (cut, times) = (reader.text.len(), reader.times);
    let mut reader = reader;
    let mut writer = ample(alloc);
    let outcome = call(rt, alloc, command, &mut reader, &mut writer);
    assert!(rt;
        matches!(outcome, Err(EngineFault::Input)) && writer.got.is_empty(),
        "{command} after {cut} bytes of the text and {times} of a flood"
    );
}

#[test]
fn a_failed_read_writes_nothing(rt: HostRuntime) {
    for (command, input, _) in COMMANDS.iter().copied() {
        for cause in [io::ErrorKind::Other, io::ErrorKind::Interrupted] {
            for cut in 0..=input.len() {
                let mut reader = flood(0, 0, Some(cause));
                reader.text = &input.as_bytes()[..cut];
                fails_to_read(&rt, rt.alloc(), command, reader);
            }
            for times in [1usize, 4096, 10_000] {
                fails_to_read(&rt, rt.alloc(), command, flood(b'9', times, Some(cause)));
            }
        }
    }
}

#[test]
fn a_read_that_fails_once_is_not_made_again(rt: HostRuntime) {
    for (command, input, _) in COMMANDS.iter().copied() {
        let mut reader = flood(0, 0, None);
        reader.text = input.as_bytes();
        reader.stumbles = true;
        fails_to_read(&rt, rt.alloc(), command, reader);
    }
}

// Calls a command whose writer fails at its first write, or each time that it is flushed, and checks that it says so.
fn fails_to_write<R: Abort + Threads + Wait + Sync>(
    rt: &R,
    alloc: Global,
    row: (&str, &str, &str),
    at_flush: bool,
) {
    let (command, input, text) = row;
    let mut reader = flood(0, 0, None);
    reader.text = input.as_bytes();
    let mut writer = ample(alloc);
    writer.stumbles = !at_flush;
    writer.fails_to_flush = at_flush;
    let outcome = call(rt, alloc, command, &mut reader, &mut writer);
    let came = if at_flush { text } else { "" };
    let is_reported = matches!(outcome, Err(EngineFault::Output));
    holds(
        rt,
        command,
        is_reported && writer.got.as_slice() == came.as_bytes(),
    );
}

#[test]
fn a_write_or_a_flush_that_fails_once_is_reported(rt: HostRuntime) {
    for row in COMMANDS.iter().copied() {
        fails_to_write(&rt, rt.alloc(), row, false);
        fails_to_write(&rt, rt.alloc(), row, true);
    }
}

// Calls a command on its input with such a reader and writer, and checks that as much of the text comes as there is room
// for, and that the command says so if that isn't all.
fn writes_to<R: Abort + Threads + Wait + Sync>(
    rt: &R,
    alloc: Global,
    row: (&str, &str, &str),
    give: usize,
    writer: Sink,
) {
    let (command, input, text) = row;
    let (take, room, fails) = (writer.most, writer.room, writer.fails);
    let mut reader = flood(0, 0, None);
    reader.text = input.as_bytes();
    reader.most = give;
    let mut writer = writer;
    let outcome = call(rt, alloc, command, &mut reader, &mut writer);
    let is_reported = match outcome {
        Ok(Done::Clean) => room >= text.len() && writer.is_flushed,
        Err(EngineFault::Output) => room < text.len(),
        _ => false,
    };
    let came = &text.as_bytes()[..text.len().min(room)];
    assert!(rt;
        is_reported && writer.got.as_slice() == came,
        "{command} with {give} given and {take} taken a call, room for {room}, fails: {fails}"
    );
}

#[test]
fn a_reader_gives_what_it_can(rt: HostRuntime) {
    for row in COMMANDS.iter().copied() {
        for give in [1usize, 7, 4096] {
            writes_to(&rt, rt.alloc(), row, give, ample(rt.alloc()));
        }
    }
}

// Calls a command with room for this many bytes, after which the writer fails or takes nothing.
fn writes_with_room<R: Abort + Threads + Wait + Sync>(
    rt: &R,
    alloc: Global,
    row: (&str, &str, &str),
    take: usize,
    room: usize,
) {
    for fails in [false, true] {
        let mut writer = ample(alloc);
        writer.most = take;
        writer.room = room;
        writer.fails = fails;
        writes_to(rt, alloc, row, MANY, writer);
    }
}

#[test]
fn a_writer_takes_what_it_can(rt: HostRuntime) {
    for row in COMMANDS.iter().copied() {
        for take in [1usize, 7, 4096] {
            writes_with_room(&rt, rt.alloc(), row, take, row.2.len());
            writes_with_room(&rt, rt.alloc(), row, take, 1000);
        }
    }
}

#[test]
fn a_failed_write_leaves_a_beginning(rt: HostRuntime) {
    for row in COMMANDS.iter().copied() {
        for room in 0..row.2.len() {
            writes_with_room(&rt, rt.alloc(), row, 1, room);
            writes_with_room(&rt, rt.alloc(), row, 4096, room);
        }
    }
}

// Gives a command 16 MiB of a byte, after which the reader fails: it is refused after the first byte too many.
fn reads_no_further<R: Abort + Threads + Wait + Sync>(
    rt: &R,
    alloc: Global,
    command: &str,
    byte: u8,
) {
    let mut reader = flood(byte, 16 * 1024 * 1024, Some(io::ErrorKind::Other));
    let mut writer = ample(alloc);
    let done = call(rt, alloc, command, &mut reader, &mut writer).expect(rt, "it is done");
    let is_fault = writer.got.starts_with(b"fault S1 line 0\n");
    let is_left = reader.times == 16 * 1024 * 1024 - 1_048_577;
    holds(
        rt,
        command,
        matches!(done, Done::Refused) && is_fault && is_left,
    );
}

#[test]
fn a_long_input_is_not_read_to_its_end(rt: HostRuntime) {
    for (command, _, _) in COMMANDS.iter().copied() {
        for byte in [b'9', b' ', 0, 0xff] {
            reads_no_further(&rt, rt.alloc(), command, byte);
        }
    }
}

// Gives a command 64 of a byte. A script may have only comments and blank lines.
fn is_answered<R: Abort + Threads + Wait + Sync>(rt: &R, alloc: Global, command: &str, byte: u8) {
    let mut reader = flood(byte, 64, None);
    let mut writer = ample(alloc);
    let done = call(rt, alloc, command, &mut reader, &mut writer).expect(rt, "it is done");
    let takes_scripts = matches!(command, "check" | "check --explain" | "replay" | "run");
    let is_passed = takes_scripts && b"#\t\n\r ".contains(&byte);
    assert!(rt;
        matches!(done, Done::Clean) == is_passed,
        "{command} of the byte {byte}"
    );
}

#[test]
fn any_byte_is_a_refusal_or_a_fault(rt: HostRuntime) {
    for (command, _, _) in COMMANDS.iter().copied() {
        for byte in 0..=u8::MAX {
            is_answered(&rt, rt.alloc(), command, byte);
        }
    }
}
