//! Each public call of worker_pool, made once, and each type with its variants and fields.
//!
//! They are written only from the signatures, so a reader of these can see here how a call looks. What a call that allocates takes
//! first, after the runtime, is the allocator.

use crate::facts::holds;
use crate::programs::accepted;
use ebpf_machine::context::Context;
use ebpf_machine::report::Report;
use object_cache::Totals;
use owners_table::mark::Mark;
use owners_table::owners::{OwnerSeat, Owners};
use std::alloc::{AllocError, Global};
use std::process::Abort;
use std::sync::Wait;
use std::sync::atomic::{AtomicU64, Ordering};
use std::thread::Threads;
use worker_pool::{Gate, Host, Job, NoGate, Outcome, Point, PoolFault, Reports, run_jobs};

// Asks for a cell, writes 5 to it, reads it and frees it.
const ASKS: &str = "asks | 0 1 | b701000000000000 8500000001000000 1500050000000000 7a00000005000000 7906000000000000 bf01000000000000 8500000002000000 bf60000000000000 9500000000000000";

// Asks for a cell, writes 5 to it, and exchanges it for what is on the shelf of cells, which it frees.
const LEAVES: &str = "leaves | 0 1 | b701000000000000 8500000001000000 1500080000000000 7a00000005000000 bf02000000000000 b701000000000000 8500000004000000 1500020000000000 bf01000000000000 8500000002000000 b700000001000000 9500000000000000";

// Takes what is on the shelf of cells, reads it and frees it.
const TAKES: &str = "takes | 0 1 | b701000000000000 b702000000000000 8500000004000000 1500040000000000 7906000000000000 bf01000000000000 8500000002000000 bf60000000000000 9500000000000000";

// An arena of this many pages, with the three programs.
fn host(alloc: Global, pages: u32) -> Result<Host, AllocError> {
    let programs = vec![in alloc; accepted(alloc, ASKS)?, accepted(alloc, LEAVES)?, accepted(alloc, TAKES)?]?;
    Ok(Host { pages, programs })
}

// A job of the program in this place, without a context.
fn job(alloc: Global, program: usize) -> Job {
    Job {
        program,
        context: Context {
            bytes: Vec::new(alloc),
        },
    }
}

// A table with a slot for each object of any arena, and this many seats.
fn table(alloc: Global, seats: u32) -> Result<(Owners, Vec<OwnerSeat>), AllocError> {
    Owners::new(alloc, 65_536, seats)
}

// The totals of a cache, of which nothing is missing.
fn are(totals: Totals, allocs: u64, frees: u64, nulls: u64) -> bool {
    totals.allocs == allocs && totals.frees == frees && totals.nulls == nulls && totals.missing == 0 && totals.foreign == 0
}

// That a job ended with this number, after that many instructions and with this peak.
fn ended(report: &Report, exit: u64, executed: u64, peak: u64) -> bool {
    report.exit == Some(exit) && report.executed == executed && report.peak == peak
}

#[test]
fn jobs_are_done_by_a_worker_a_seat(rt: HostRuntime) -> Result<(), AllocError> {
    let alloc = rt.alloc();
    let (owners, seats) = table(alloc, 2)?;
    let mut jobs = Vec::new(alloc);
    for _ in 0..100 {
        jobs.push(job(alloc, 0))?;
    }
    let (seats, done) = run_jobs(&rt, alloc, &host(alloc, 16)?, &owners, seats, &jobs, 10, &NoGate);
    let Ok(outcome) = done else {
        return Err(AllocError);
    };
    let Reports { reports } = &outcome.reports;
    holds(&rt, "a report a job", reports.len() == 100);
    holds(&rt, "as its program alone", reports.iter().all(|report| ended(report, 5, 9, 1)));
    let [cells, records, blocks] = outcome.totals;
    holds(&rt, "cells", are(cells, 100, 100, 0));
    holds(&rt, "no other objects", are(records, 0, 0, 0) && are(blocks, 0, 0, 0));
    holds(&rt, "no slot had another owner", outcome.clashes == 0 && outcome.strays == 0);
    let words = owners.close(alloc, seats)?;
    holds(&rt, "each slot is free", words.len() == 65_536 && words.iter().all(|word| *word == 0));
    Ok(())
}

#[test]
fn a_slot_with_another_owner_is_a_clash(rt: HostRuntime) -> Result<(), AllocError> {
    let alloc = rt.alloc();
    let (owners, mut seats) = table(alloc, 2)?;
    let mut other = seats.pop().ok_or(AllocError)?;
    for slot in 0..256 {
        let claim = owners.claim(&mut other, slot, Mark { run: 7, at: 1 });
        holds(&rt, "the slot was free", claim.is_ok());
    }
    let jobs = vec![in alloc; job(alloc, 0)]?;
    let (mut seats, done) = run_jobs(&rt, alloc, &host(alloc, 1)?, &owners, seats, &jobs, 0, &NoGate);
    let Ok(outcome) = done else {
        return Err(AllocError);
    };
    let reports = &outcome.reports.reports;
    holds(&rt, "it is answered null", reports.len() == 1 && ended(&reports[0], 0, 4, 0));
    holds(&rt, "the cell went back", are(outcome.totals[0], 1, 1, 0));
    holds(&rt, "one clash", outcome.clashes == 1);
    seats.push(other)?;
    let words = owners.close(alloc, seats)?;
    let word = 8 * 4096 + 1;
    let is_kept = words.iter().take(256).all(|it| *it == word) && words.iter().skip(256).all(|it| *it == 0);
    holds(&rt, "the slots are as they were", is_kept);
    Ok(())
}

#[test]
fn one_job_leaves_an_object_for_the_next(rt: HostRuntime) -> Result<(), AllocError> {
    let alloc = rt.alloc();
    let (owners, seats) = table(alloc, 1)?;
    let jobs = vec![in alloc; job(alloc, 1), job(alloc, 2), job(alloc, 1)]?;
    let (seats, done) = run_jobs(&rt, alloc, &host(alloc, 1)?, &owners, seats, &jobs, 0, &NoGate);
    let Ok(outcome) = done else {
        return Err(AllocError);
    };
    holds(&rt, "the seat is back", seats.len() == 1);
    let reports = &outcome.reports.reports;
    holds(&rt, "left", ended(&reports[0], 1, 10, 1) && ended(&reports[2], 1, 10, 1));
    holds(&rt, "taken", ended(&reports[1], 5, 9, 1));
    let Outcome { shelves, .. } = outcome;
    let [cells, records, blocks] = shelves;
    holds(&rt, "a shelf", cells.puts == 2 && cells.gets == 1 && cells.left == 1);
    holds(&rt, "the others", records.puts == 0 && blocks.puts == 0 && blocks.gets == 0 && blocks.left == 0);
    Ok(())
}

// How often each point was reported.
#[derive(Drop)]
struct Counts {
    begun: AtomicU64,
    answered: AtomicU64,
    reaped: AtomicU64,
}

impl Gate for Counts {
    fn at(&self, job: u64, point: Point) {
        let count = match point {
            Point::Begin => &self.begun,
            Point::Answered => &self.answered,
            Point::Reaped => &self.reaped,
        };
        // As many as the numbers from 1 on that came, added up.
        count.fetch_add(job + 1, Ordering::SeqCst);
    }
}

#[test]
fn a_gate_learns_of_each_job_and_pass(rt: HostRuntime) -> Result<(), AllocError> {
    let alloc = rt.alloc();
    let (owners, seats) = table(alloc, 2)?;
    let jobs = vec![in alloc; job(alloc, 0), job(alloc, 0), job(alloc, 0)]?;
    let gate = Counts {
        begun: AtomicU64::new(0),
        answered: AtomicU64::new(0),
        reaped: AtomicU64::new(0),
    };
    let (_, done) = run_jobs(&rt, alloc, &host(alloc, 1)?, &owners, seats, &jobs, 4, &gate);
    holds(&rt, "they are done", done.is_ok());
    let numbers = [&gate.begun, &gate.answered, &gate.reaped].map(|count| count.load(Ordering::SeqCst));
    holds(&rt, "jobs 0 to 2, and passes 0 to 3", numbers == [6, 6, 10]);
    Ok(())
}

// Why no job was done.
fn fault<R: Threads + Wait + Abort + Sync>(
    rt: &R,
    alloc: Global,
    pages: u32,
    workers: u32,
    jobs: &[Job],
) -> Result<&'static str, AllocError> {
    let (owners, mut seats) = table(alloc, workers.max(1))?;
    if workers == 0 {
        seats.clear();
    }
    let (_, done) = run_jobs(rt, alloc, &host(alloc, pages)?, &owners, seats, jobs, 0, &NoGate);
    Ok(match done {
        Ok(_) => "none",
        Err(PoolFault::Pages) => "pages",
        Err(PoolFault::Workers) => "workers",
        Err(PoolFault::Jobs) => "jobs",
        Err(PoolFault::Program { job: 1 }) => "the program of job 1",
        Err(PoolFault::Context { job: 1 }) => "the context of job 1",
        Err(PoolFault::Program { job: _ }) => "a program",
        Err(PoolFault::Context { job: _ }) => "a context",
        Err(PoolFault::NoMemory) => "no memory",
    })
}

#[test]
fn a_fault_is_found_before_any_job_is_done(rt: HostRuntime) -> Result<(), AllocError> {
    let alloc = rt.alloc();
    let one = vec![in alloc; job(alloc, 0)]?;
    holds(&rt, "no page", fault(&rt, alloc, 0, 1, &one)? == "pages");
    holds(&rt, "257 pages", fault(&rt, alloc, 257, 1, &one)? == "pages");
    holds(&rt, "no worker", fault(&rt, alloc, 1, 0, &one)? == "workers");
    holds(&rt, "65 workers", fault(&rt, alloc, 1, 65, &one)? == "workers");
    let mut many = Vec::new(alloc);
    for _ in 0..1_048_577 {
        many.push(job(alloc, 0))?;
    }
    holds(&rt, "a job too many", fault(&rt, alloc, 1, 1, &many)? == "jobs");
    let program = vec![in alloc; job(alloc, 0), job(alloc, 3)]?;
    holds(&rt, "no such program", fault(&rt, alloc, 1, 1, &program)? == "the program of job 1");
    let mut context = vec![in alloc; job(alloc, 0), job(alloc, 0)]?;
    context[1].context.bytes.push(0)?;
    holds(&rt, "a byte too many", fault(&rt, alloc, 1, 1, &context)? == "the context of job 1");
    Ok(())
}
