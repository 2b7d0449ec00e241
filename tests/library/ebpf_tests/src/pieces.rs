//! Texts that are written in pieces: what waits, what is written, and what a failed write leaves of them.

use crate::programs::holds;
use ebpf_command::done::{Done, EngineFault};
use ebpf_command::output::{flush, write_bytes};
use ebpf_command::piece::Piece;
use ebpf_report::exit_line::ExitLine;
use ebpf_report::outcome_text::write_output;
use ebpf_report::text_line::TextLine;
use ebpf_script::run;
use std::alloc::Global;
use std::io;
use std::io::Write;
use std::process::Abort;
use std::sync::Wait;
use std::test::*;
use std::thread::Threads;

// How many bytes wait at most.
const LIMIT: usize = 65_536;

// Takes up to 5,000 bytes a call, up to its room, and knows how often it was called.
#[derive(Drop)]
struct Narrow {
    got: Vec<u8>,
    room: usize,
    writes: usize,
}

impl Write for Narrow {
    fn write(&mut self, buf: &[u8]) -> io::Result<usize> {
        let n = buf.len().min(5000).min(self.room);
        self.got.extend_from_slice(&buf[..n])?;
        self.room -= n;
        self.writes += 1;
        Ok(n)
    }

    fn flush(&mut self) -> io::Result<()> {
        Ok(())
    }
}

fn narrow(alloc: Global, room: usize) -> Narrow {
    Narrow {
        got: Vec::new(alloc),
        room,
        writes: 0,
    }
}

#[test]
fn bytes_are_written_as_a_writer_takes_them(rt: HostRuntime) {
    let mut writer = narrow(rt.alloc(), 12_000);
    let bytes = [7; 12_000];
    holds(&rt, "all is written", write_bytes(&mut writer, &bytes).is_ok());
    holds(&rt, "in three calls", writer.writes == 3);
    holds(&rt, "as it is", writer.got.as_slice() == &bytes[..]);
    holds(&rt, "it is flushed", flush(&mut writer).is_ok());
    let more = write_bytes(&mut writer, b"8");
    holds(&rt, "no more", matches!(more, Err(EngineFault::Output)));
}

#[test]
fn a_piece_waits_until_it_is_full(rt: HostRuntime) {
    let mut writer = narrow(rt.alloc(), usize::MAX);
    let mut piece = Piece::new(rt.alloc()).expect(&rt, "there is memory");
    let lines = [b'a'; 4096];
    for _ in 0..16 {
        holds(&rt, "it waits", piece.put(&mut writer, &lines).is_ok());
    }
    holds(&rt, "nothing is written", writer.got.is_empty());
    holds(&rt, "a byte more", piece.put(&mut writer, b"b").is_ok());
    holds(&rt, "a piece is written", writer.got.len() == LIMIT);
    holds(&rt, "the rest", piece.write_out(&mut writer).is_ok());
    holds(&rt, "all is written", writer.got.len() == LIMIT + 1);
    holds(&rt, "in order", writer.got.last().copied() == Some(b'b'));
}

#[test]
fn more_than_can_wait_is_written(rt: HostRuntime) {
    let mut writer = narrow(rt.alloc(), usize::MAX);
    let mut piece = Piece::new(rt.alloc()).expect(&rt, "there is memory");
    let long = Vec::from_elem(rt.alloc(), b'c', LIMIT + 1).expect(&rt, "there is memory");
    holds(&rt, "it waits", piece.put(&mut writer, b"b").is_ok());
    holds(&rt, "it is written", piece.put(&mut writer, &long).is_ok());
    holds(&rt, "with what waited", writer.got.len() == LIMIT + 2);
    holds(&rt, "in order", writer.got.first().copied() == Some(b'b'));
    holds(&rt, "no rest", piece.write_out(&mut writer).is_ok());
    holds(&rt, "no byte twice", writer.got.len() == LIMIT + 2);
}

#[test]
fn the_lines_of_a_job_are_made(rt: HostRuntime) {
    let mut exits = ExitLine::new();
    exits.set(9, 7, 2, 0);
    holds(&rt, "the ninth", exits.as_str() == "job 9 exit 7 executed 2 peak 0\n");
    exits.set(10, 7, 2, 0);
    holds(&rt, "the tenth", exits.as_str() == "job 10 exit 7 executed 2 peak 0\n");
    let mut text = String::new(rt.alloc());
    let mut line = TextLine::end();
    let is_written = write_output(&mut text, &mut line, 3, &[8, 9]).is_ok();
    let is_text = text.as_str() == "emit 3 8\nemit 3 9\n";
    holds(&rt, "the output", is_written && is_text);
}

// A script of jobs of a program that emits its context of a byte and returns it, and what `run` writes of it.
fn script_of(alloc: Global, jobs: usize) -> io::Result<(String, String)> {
    let mut script = String::new(alloc);
    let mut text = String::new(alloc);
    write!(
        script,
        "program p 1 0 7116000000000000bf610000000000008500000003000000bf600000000000009500000000000000\n"
    )?;
    text.push_str("p accepted 5\n")?;
    for job in 0..jobs {
        let byte = job % 256;
        write!(script, "run p {byte:02x}\n")?;
        write!(text, "emit {job} {byte}\njob {job} exit {byte} executed 5 peak 0\n")?;
    }
    for kind in ["cell", "record", "block"].iter().copied() {
        write!(text, "cache {kind} allocs 0 frees 0 nulls 0 missing 0\n")?;
    }
    Ok((script, text))
}

// Runs a script with a writer that has room for this many bytes, and checks that a beginning of its text comes.
fn comes<R: Abort + Threads + Wait + Sync>(
    rt: &R,
    alloc: Global,
    script: &str,
    text: &str,
    room: usize,
) {
    let mut reader = script.as_bytes();
    let mut writer = narrow(alloc, room);
    let done = run(rt, alloc, &mut reader, &mut writer, 2, 0);
    let is_text = match done {
        Ok(Done::Clean) => room >= text.len(),
        Err(EngineFault::Output) => room < text.len(),
        _ => false,
    };
    let came = &text.as_bytes()[..text.len().min(room)];
    assert!(rt; is_text && writer.got.as_slice() == came, "room for {room}");
}

#[test]
fn a_long_text_is_written_in_order_and_as_far_as_there_is_room(rt: HostRuntime) {
    let (script, text) = script_of(rt.alloc(), 5000).expect(&rt, "there is memory");
    holds(&rt, "there are four pieces", text.len() > 3 * LIMIT);
    for room in [0, 1, LIMIT - 1, LIMIT, LIMIT + 1, 2 * LIMIT + 7, 200_000] {
        comes(&rt, rt.alloc(), script.as_str(), text.as_str(), room);
    }
    comes(&rt, rt.alloc(), script.as_str(), text.as_str(), text.len() - 1);
    comes(&rt, rt.alloc(), script.as_str(), text.as_str(), text.len());
}
