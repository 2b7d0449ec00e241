//! Counts the IPv4 headers of a file whose checksum is right, on threads that run one program.
//!
//!     checksums CHECKSUM.o HEADERS [THREADS]
//!
//! CHECKSUM.o is examples/checksum.o of the repository. HEADERS has headers of 20 bytes, one after another. THREADS is 4 if it isn't given.

use ebpf_host::{Declaration, Machine, Program, Report, NO_LIMIT};
use std::error::Error;
use std::{env, fs, process, thread};

const LENGTH: usize = 20;
const BATCH: usize = 64;

/// How many of these headers are right. All threads run one program, each on a machine of its own.
fn count(program: &Program, headers: &[u8]) -> Result<usize, ebpf_host::Error> {
    let mut machine = Machine::new(1)?;
    let mut reports = [Report::default(); BATCH];
    let mut right = 0;
    for some in headers.chunks(BATCH * LENGTH) {
        let reports = &mut reports[..some.len() / LENGTH];
        machine.run_batch(program, some, NO_LIMIT, reports)?;
        right += reports.iter().filter(|report| report.returned() == Some(0)).count();
    }
    Ok(right)
}

/// The same, with a part of the headers for each thread.
fn count_on(threads: usize, program: &Program, headers: &[u8]) -> Result<usize, ebpf_host::Error> {
    let all = headers.len() / LENGTH;
    let part = (all / threads + 1) * LENGTH;
    thread::scope(|scope| {
        let counts: Vec<_> = headers[..all * LENGTH].chunks(part).map(|part| scope.spawn(|| count(program, part))).collect();
        counts.into_iter().map(|count| count.join().expect("the thread ends well")).sum()
    })
}

fn run() -> Result<(), Box<dyn Error>> {
    let words: Vec<String> = env::args().collect();
    if words.len() < 3 {
        return Err("usage: checksums CHECKSUM.o HEADERS [THREADS]".into());
    }
    let threads = words.get(3).map_or(Ok(4), |word| word.parse::<usize>())?.max(1);
    let declaration = Declaration { context: LENGTH as u32, held: 0 };
    let program = Program::load_elf(&fs::read(&words[1])?, None, declaration)?;
    let headers = fs::read(&words[2])?;
    println!("right {} of {}", count_on(threads, &program, &headers)?, headers.len() / LENGTH);
    Ok(())
}

fn main() {
    if let Err(why) = run() {
        eprintln!("checksums: {why}");
        process::exit(1);
    }
}
