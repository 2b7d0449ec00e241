//! Programs that a host's own threads run by workers, over caches and shelves that all share.

use crate::facts::{holds, is_text};
use ebpf_host::program::Program;
use ebpf_host::shared::{Shared, SharedFault};
use ebpf_host::shelving::PutFault;
use ebpf_host::worker::Worker;
use ebpf_machine::report::{Reply, Report};
use ebpf_object::KindName;
use shared_store::{OpenFault, SharedTotals};
use std::alloc::{AllocError, Global};
use std::process::Abort;
use std::thread::{Threads, for_each_mut};

// Takes a cell, writes 5 to it, reads it, gives it back and returns what it read. If it gets none, it returns 0.
const CELL: &str = "\
b701000000000000850000000100000015000500000000007a000000050000007906000000000000bf01000000000000\
8500000002000000bf600000000000009500000000000000";

// Leaves a record with the byte of the context on the shelf of records, and gives back what was there.
const LEAVE: &str = "\
7116000000000000b701000001000000850000000100000015000800000000007b60000000000000b701000001000000\
bf0200000000000085000000040000001500020000000000bf010000000000008500000002000000b700000000000000\
9500000000000000";

// Takes what is on the shelf of records, and adds its number to the output.
const FETCH: &str = "\
b701000001000000b70200000000000085000000040000001500050000000000bf060000000000007961000000000000\
8500000003000000bf610000000000008500000002000000b7000000000000009500000000000000";

fn loaded(rt: &impl Abort, alloc: Global, digits: &str, context: u32) -> Program {
    let bytes = hex::decode(alloc, digits.as_bytes()).expect(rt, "these are no bytes");
    match Program::load(alloc, &bytes, context, 2) {
        Ok(program) => program,
        Err(_) => panic!(rt; "the program is not loaded"),
    }
}

fn shared(rt: &impl Abort, alloc: Global, pages: u32, workers: u32) -> Shared {
    match Shared::new(alloc, pages, workers) {
        Ok(shared) => shared,
        Err(_) => panic!(rt; "no memory"),
    }
}

fn opened(rt: &impl Abort, shared: &mut Shared) -> Worker {
    match shared.worker() {
        Ok(worker) => worker,
        Err(_) => panic!(rt; "a worker isn't open"),
    }
}

// That each kind's counts add up, and that nothing is missing.
fn add_up(rt: &impl Abort, totals: &SharedTotals) {
    for kind in totals.kinds {
        holds(rt, kind.frees == kind.allocs && kind.missing == 0 && kind.foreign == 0);
        holds(rt, kind.puts == kind.gets + kind.left && kind.left <= 1);
    }
    holds(rt, totals.clashes == 0 && totals.strays == 0 && totals.owned == 0);
}

fn closed(rt: &impl Abort, shared: Shared) -> SharedTotals {
    match shared.close() {
        Ok(totals) => {
            add_up(rt, &totals);
            totals
        }
        Err(_) => panic!(rt; "no worker is open"),
    }
}

fn run(rt: &impl Abort, worker: &mut Worker, program: &Program, context: &[u8]) -> Report {
    match worker.run(program, context, 4_096) {
        Ok(report) => report,
        Err(_) => panic!(rt; "no memory"),
    }
}

// Why nothing was made, in words.
fn fault(rt: &impl Abort, alloc: Global, pages: u32, workers: u32, expected: &str) {
    match Shared::new(alloc, pages, workers) {
        Ok(_) => panic!(rt; "nothing is made"),
        Err(fault) => is_text(rt, "a fault", format!(in alloc; "{fault}").expect(rt, "no memory").as_str(), expected),
    }
}

#[test]
fn numbers_out_of_their_range_are_refused(rt: HostRuntime) {
    fault(&rt, rt.alloc(), 0, 1, "the number of pages is out of its range");
    fault(&rt, rt.alloc(), 257, 1, "the number of pages is out of its range");
    fault(&rt, rt.alloc(), 1, 0, "the number of workers is out of its range");
    fault(&rt, rt.alloc(), 1, 65, "the number of workers is out of its range");
    holds(&rt, matches!(Shared::new(rt.alloc(), 0, 0), Err(SharedFault::Pages)));
    let _ = closed(&rt, shared(&rt, rt.alloc(), 256, 64));
}

#[test]
fn each_call_is_made_once(rt: HostRuntime) {
    let (cell, leave, fetch) = (loaded(&rt, rt.alloc(), CELL, 0), loaded(&rt, rt.alloc(), LEAVE, 1), loaded(&rt, rt.alloc(), FETCH, 0));
    let mut shared = shared(&rt, rt.alloc(), 8, 2);
    let (mut one, mut other) = (opened(&rt, &mut shared), opened(&rt, &mut shared));
    match shared.worker() {
        Ok(_) => panic!(&rt; "both are open"),
        Err(fault) => holds(&rt, matches!(fault, OpenFault::Busy)),
    }
    holds(&rt, run(&rt, &mut one, &cell, &[]).exit == Some(5));
    match one.run_in_place(&leave, &[9], 4_096) {
        Ok(ended) => {
            holds(&rt, ended.exit() == Some(0));
            one.keep(ended);
        }
        Err(_) => panic!(&rt; "no memory"),
    }
    holds(&rt, matches!(run(&rt, &mut other, &fetch, &[]).output.numbers.as_slice(), [9]));
    holds(&rt, matches!(one.put(KindName::Cell, &[1; 17]), Err(PutFault::TooLong)));
    holds(&rt, matches!(one.put(KindName::Cell, &[4, 5]), Ok(false)));
    let mut room = [0; 3];
    holds(&rt, other.take(KindName::Cell, &mut room) && room == [4, 5, 0]);
    holds(&rt, !other.take(KindName::Cell, &mut room) && room == [4, 5, 0]);
    holds(&rt, shared.close_in_place().is_none());
    one.close();
    // A worker that is dropped is closed too.
    drop(other);
    let _ = shared.reap();
    match shared.close_in_place() {
        Some(totals) => add_up(&rt, &totals),
        None => panic!(&rt; "no worker is open"),
    }
    holds(&rt, shared.close_in_place().is_none() && shared.reap() == 0 && shared.worker().is_err());
}

// What runs were answered.
#[derive(Clone, Copy)]
struct Counts {
    granted: u64,
    nulls: u64,
    gets: u64,
}

// What a thread has: one of them what all share, each other one a worker.
#[derive(Drop)]
struct Actor {
    number: u64,
    shared: Option<Shared>,
    worker: Option<Worker>,
    counts: Counts,
}

// One run, which is reported as that program alone says, whatever other workers do.
fn turn(rt: &impl Abort, programs: &[Program; 3], worker: &mut Worker, counts: &mut Counts, number: u64) {
    let program = &programs[(number % 3) as usize];
    let context = [(number % 200) as u8 + 1];
    let given: &[u8] = if number % 3 == 1 { &context } else { &[] };
    let report = run(rt, worker, program, given);
    for reply in &report.answers.replies {
        match reply {
            Reply::Granted => counts.granted += 1,
            Reply::Null => counts.nulls += 1,
            Reply::Shelf => counts.gets += 1,
            Reply::Empty => {}
        }
    }
    let is_granted = matches!(report.answers.replies.as_slice(), [Reply::Granted, ..]);
    match number % 3 {
        0 => holds(rt, report.exit == Some(if is_granted { 5 } else { 0 })),
        1 => holds(rt, report.exit == Some(0) && report.output.numbers.is_empty()),
        // What a worker left is a byte of a context, and whole.
        _ => {
            for number in &report.output.numbers {
                holds(rt, *number > 0 && *number <= 200);
            }
        }
    }
}

fn turns(rt: &impl Abort, programs: &[Program; 3], worker: &mut Worker, counts: &mut Counts, first: u64, many: u64) {
    for number in first..first + many {
        turn(rt, programs, worker, counts, number);
    }
}

// What the thread does that has what all share: it reaps, and opens a worker each time if it can, by which it runs programs.
fn keep(rt: &impl Abort, programs: &[Program; 3], shared: &mut Shared, counts: &mut Counts, many: u64) {
    for number in 0..many / 20 {
        let _ = shared.reap();
        if let Ok(mut worker) = shared.worker() {
            turns(rt, programs, &mut worker, counts, number * 20, 20);
            worker.close();
        }
    }
}

// What a thread does. Each worker with an odd number is closed in the middle.
fn act(rt: &impl Abort, programs: &[Program; 3], actor: &mut Actor, many: u64) {
    if let Some(shared) = &mut actor.shared {
        keep(rt, programs, shared, &mut actor.counts, many);
    }
    if let Some(worker) = &mut actor.worker {
        let many = if actor.number % 2 == 1 { many / 2 } else { many };
        turns(rt, programs, worker, &mut actor.counts, actor.number * 7, many);
    }
    if actor.number % 2 == 1 {
        actor.worker = None;
    }
}

const NONE: Counts = Counts { granted: 0, nulls: 0, gets: 0 };

// A worker in each place, and in the last one what all share.
fn actors(rt: &impl Abort, alloc: Global, workers: u32) -> Result<Vec<Actor>, AllocError> {
    let mut all = Vec::with_capacity(alloc, workers as usize + 1)?;
    let mut shared = shared(rt, alloc, 64, workers);
    for number in 0..workers {
        let worker = Some(opened(rt, &mut shared));
        all.push_reserved(Actor {
            number: u64::from(number),
            shared: None,
            worker,
            counts: NONE,
        });
    }
    all.push_reserved(Actor {
        number: 0,
        shared: Some(shared),
        worker: None,
        counts: NONE,
    });
    Ok(all)
}

// This many workers, each on a thread of its own with this many runs.
fn crowd<R: Threads + Abort + Sync>(rt: &R, alloc: Global, workers: u32, many: u64) -> Result<(), AllocError> {
    let programs = [loaded(rt, alloc, CELL, 0), loaded(rt, alloc, LEAVE, 1), loaded(rt, alloc, FETCH, 0)];
    let mut actors = actors(rt, alloc, workers)?;
    let count = actors.len();
    for_each_mut(rt, actors.as_mut_slice(), count, &|_, actor| act(rt, &programs, actor, many));
    let (mut counts, mut found) = (NONE, None);
    while let Some(actor) = actors.pop() {
        let Actor { number: _, shared, worker, counts: own } = actor;
        drop(worker);
        if shared.is_some() {
            found = shared;
        }
        counts.granted += own.granted;
        counts.nulls += own.nulls;
        counts.gets += own.gets;
    }
    let Some(shared) = found else {
        panic!(rt; "one has what all share");
    };
    let mut all = NONE;
    for kind in closed(rt, shared).kinds {
        all.granted += kind.allocs;
        all.nulls += kind.nulls + kind.busy;
        all.gets += kind.gets;
    }
    holds(rt, all.granted == counts.granted && all.nulls == counts.nulls && all.gets == counts.gets);
    Ok(())
}

#[test]
fn one_worker_runs_programs(rt: HostRuntime) -> Result<(), AllocError> {
    crowd(&rt, rt.alloc(), 1, 6_000)
}

#[test]
fn two_workers_run_programs(rt: HostRuntime) -> Result<(), AllocError> {
    crowd(&rt, rt.alloc(), 2, 6_000)
}

#[test]
fn four_workers_run_programs(rt: HostRuntime) -> Result<(), AllocError> {
    crowd(&rt, rt.alloc(), 4, 3_000)
}

#[test]
fn sixteen_workers_run_programs(rt: HostRuntime) -> Result<(), AllocError> {
    crowd(&rt, rt.alloc(), 16, 1_000)
}

#[test]
fn sixty_four_workers_run_programs(rt: HostRuntime) -> Result<(), AllocError> {
    crowd(&rt, rt.alloc(), 64, 400)
}
