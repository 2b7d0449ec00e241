//! Jobs of one list, whose reports stay packed: they are those of the same jobs one by one.

use crate::alone::{packed_words, words_of};
use crate::done::totals_text;
use crate::facts::{holds, is_text};
use crate::jobs::{Setting, jobs_of, list_of, setting_of};
use crate::programs::programs_of;
use crate::table::{are_free, table_of};
use ebpf_machine::report::Report;
use std::alloc::{AllocError, Global};
use std::process::Abort;
use std::sync::Wait;
use std::thread::Threads;
use worker_pool::{Host, Job, NoGate, Outcome, PackedReports, PoolFault, Reports, run_job_list, run_jobs};

// What comes of the jobs of a setting, by each of the two calls.
fn both<R: Threads + Wait + Abort + Sync>(
    rt: &R,
    alloc: Global,
    host: &Host,
    jobs: &[Job],
    setting: &Setting<'_>,
) -> Result<
    (
        Result<Outcome<Reports>, PoolFault>,
        Result<Outcome<PackedReports>, PoolFault>,
    ),
    AllocError,
> {
    let (owners, seats, other) = table_of(alloc, setting.workers)?;
    let (seats, done) = run_jobs(rt, alloc, host, &owners, seats, jobs, setting.reaps, &NoGate);
    let list = list_of(alloc, jobs)?;
    let (seats, packed) = run_job_list(rt, alloc, host, &owners, seats, &list, setting.reaps, &NoGate);
    are_free(rt, alloc, owners, seats, other, 0)?;
    Ok((done, packed))
}

// That packed reports are these, in words and with what came off shelves.
fn are_same(
    rt: &impl Abort,
    alloc: Global,
    packed: &PackedReports,
    reports: &[Report],
) -> Result<(), AllocError> {
    holds(rt, "there are as many", packed.len() == reports.len());
    let mut left = packed.iter();
    for report in reports {
        let job = left.next().ok_or(AllocError)?;
        let (text, expected) = (packed_words(alloc, job)?, words_of(alloc, report)?);
        is_text(rt, "a packed report", text.as_str(), expected.as_str());
        let is_same = job.taken() == report.taken.bytes.as_slice();
        holds(rt, "what came off shelves", is_same);
    }
    holds(rt, "there is none more", left.next().is_none());
    Ok(())
}

// Settings whose reports are the same each time: of one worker, or of programs that have pages enough and use no shelf.
const SETTINGS: &str = "\
1 16 3 0 45 abcdefghijklmno
1 1 0 0 40 abh
3 16 3 0 1500 acdef
2 4 1 0 0 a";

#[test]
fn packed_reports_are_those_of_the_jobs_one_by_one(rt: HostRuntime) -> Result<(), AllocError> {
    let alloc = rt.alloc();
    for row in SETTINGS.lines() {
        let setting = setting_of(row);
        let programs = programs_of(alloc)?;
        let jobs = jobs_of(alloc, &programs, &setting)?;
        let host = Host {
            pages: setting.pages,
            programs,
        };
        let (done, packed) = both(&rt, alloc, &host, &jobs, &setting)?;
        let (Ok(done), Ok(packed)) = (done, packed) else {
            return Err(AllocError);
        };
        are_same(&rt, alloc, &packed.reports, &done.reports.reports)?;
        let expected = totals_text(alloc, &done)?;
        is_text(&rt, row, totals_text(alloc, &packed)?.as_str(), expected.as_str());
    }
    Ok(())
}

// Settings with a fault.
const FAULTS: &str = "\
1 0 0 0 1 a
0 1 0 0 1 a
1 1 0 0 1048577 e
1 1 0 0 4 aa!!
1 1 0 0 4 aAEa";

#[test]
fn both_calls_find_the_same_fault(rt: HostRuntime) -> Result<(), AllocError> {
    let alloc = rt.alloc();
    for row in FAULTS.lines() {
        let setting = setting_of(row);
        let programs = programs_of(alloc)?;
        let jobs = jobs_of(alloc, &programs, &setting)?;
        let host = Host {
            pages: setting.pages,
            programs,
        };
        let (done, packed) = both(&rt, alloc, &host, &jobs, &setting)?;
        let (Err(fault), Err(same)) = (done, packed) else {
            panic!(rt; "there is a fault");
        };
        let expected = format!(in alloc; "{fault:?}")?;
        let text = format!(in alloc; "{same:?}")?;
        is_text(&rt, row, text.as_str(), expected.as_str());
    }
    Ok(())
}
