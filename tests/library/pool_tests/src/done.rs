//! Jobs that are done, and what comes of them.

use crate::alone::{alone, words_of};
use crate::facts::holds;
use crate::jobs::{Setting, jobs_of};
use crate::store::{Given, Sums};
use crate::table::{are_free, claim_first, table_of};
use ebpf_verify::verified::Verified;
use object_cache::Totals;
use std::alloc::{AllocError, Global};
use std::process::Abort;
use std::sync::Wait;
use std::thread::Threads;
use worker_pool::{Gate, Host, Job, Outcome, PoolFault, run_jobs};

// Does the jobs of a setting, and says what came of them: the fault or the outcome.
pub(crate) fn done<G: Gate + Sync, R: Threads + Wait + Abort + Sync>(
    rt: &R,
    alloc: Global,
    programs: Vec<Verified>,
    setting: &Setting<'_>,
    gate: &G,
) -> Result<String, AllocError> {
    match outcome_of(rt, alloc, programs, setting, gate)? {
        Ok(outcome) => text_of(alloc, &outcome),
        Err(fault) => format!(in alloc; "{fault:?}"),
    }
}

// Does the jobs of a setting. The seats come back as many and with no slot, each report is that of the program alone, and the
// totals are the sums of the reports.
pub(crate) fn outcome_of<G: Gate + Sync, R: Threads + Wait + Abort + Sync>(
    rt: &R,
    alloc: Global,
    programs: Vec<Verified>,
    setting: &Setting<'_>,
    gate: &G,
) -> Result<Result<Outcome, PoolFault>, AllocError> {
    let jobs = jobs_of(alloc, &programs, setting)?;
    let host = Host {
        pages: setting.pages,
        programs,
    };
    let (owners, seats, mut other) = table_of(alloc, setting.workers)?;
    claim_first(rt, &owners, &mut other, setting.claimed);
    let count = seats.len();
    let (seats, result) = run_jobs(rt, alloc, &host, &owners, seats, &jobs, setting.reaps, gate);
    holds(
        rt,
        "there are as many seats as before",
        seats.len() == count,
    );
    are_free(rt, alloc, owners, seats, other, setting.claimed)?;
    match result {
        Ok(outcome) => {
            let sums = compared(rt, alloc, &host.programs, &jobs, &outcome)?;
            add_up(rt, &outcome, &sums, setting.claimed);
            shelves_add_up(rt, &outcome, &sums);
            Ok(Ok(outcome))
        }
        Err(PoolFault::NoMemory) => Err(AllocError),
        Err(fault) => Ok(Err(fault)),
    }
}

// Compares each report with its program run alone, and adds up what was granted and refused of each kind, and put on its shelf and
// got from there.
fn compared(
    rt: &impl Abort,
    alloc: Global,
    programs: &[Verified],
    jobs: &[Job],
    outcome: &Outcome,
) -> Result<Sums, AllocError> {
    let reports = &outcome.reports.reports;
    holds(rt, "there is a report a job", reports.len() == jobs.len());
    let mut all = Sums::new();
    for (job, report) in jobs.iter().zip(reports) {
        let verified = programs.get(job.program).ok_or(AllocError)?;
        let context = job.context.bytes.as_slice().to_vec(alloc)?;
        let given = Given {
            answers: report.answers.replies.as_slice().to_vec(alloc)?,
            taken: report.taken.bytes.as_slice().to_vec(alloc)?,
        };
        let (expected, sums) = alone(alloc, verified, context, given)?;
        let is_same = words_of(alloc, report)? == words_of(alloc, &expected)?;
        holds(rt, "a job is done as its program alone", is_same);
        add(&mut all.granted, &sums.granted);
        add(&mut all.refused, &sums.refused);
        add(&mut all.puts, &sums.puts);
        add(&mut all.gets, &sums.gets);
    }
    Ok(all)
}

// Adds counts to counts.
fn add(counts: &mut [u64; 3], more: &[u64; 3]) {
    for (count, more) in counts.iter_mut().zip(more) {
        *count = count.wrapping_add(*more);
    }
}

// That the totals are these sums: of each kind, if no other seat has a slot, and otherwise over all kinds.
fn add_up(rt: &impl Abort, outcome: &Outcome, sums: &Sums, claimed: u32) {
    let clashes = outcome.clashes;
    holds(rt, "none clashed", claimed > 0 || clashes == 0);
    let mut clashed = clashes;
    for (totals, (granted, refused)) in outcome
        .totals
        .iter()
        .zip(sums.granted.iter().zip(&sums.refused))
    {
        let lost = totals.allocs.wrapping_sub(*granted);
        let is_so = refused.wrapping_sub(totals.nulls) == lost && lost <= clashed;
        holds(rt, "the reports add up to the totals", is_so);
        clashed = clashed.wrapping_sub(lost);
        let is_back = totals.frees == totals.allocs && totals.missing == 0 && totals.foreign == 0;
        holds(rt, "all that went out came back", is_back);
    }
    holds(rt, "the clashes add up", clashed == 0);
}

// That what each shelf did is these sums, with one object left there at most, and that nothing strayed.
fn shelves_add_up(rt: &impl Abort, outcome: &Outcome, sums: &Sums) {
    holds(rt, "nothing strayed", outcome.strays == 0);
    for (shelf, (puts, gets)) in outcome.shelves.iter().zip(sums.puts.iter().zip(&sums.gets)) {
        let is_so = shelf.puts == *puts && shelf.gets == *gets;
        holds(rt, "the reports add up to what the shelf did", is_so);
        let is_left = shelf.left <= 1 && puts.wrapping_sub(*gets) == shelf.left;
        holds(rt, "what was put was got or is left", is_left);
    }
}

// An outcome in words: for each run of like reports how many there are of them, then its totals.
pub(crate) fn text_of(alloc: Global, outcome: &Outcome) -> Result<String, AllocError> {
    let mut text = reports_text(alloc, outcome)?;
    let totals = totals_text(alloc, outcome)?;
    text.push_str(totals.as_str())?;
    Ok(text)
}

// The reports in words.
fn reports_text(alloc: Global, outcome: &Outcome) -> Result<String, AllocError> {
    let mut text = String::new(alloc);
    let mut last = String::new(alloc);
    let mut count: u64 = 0;
    for report in &outcome.reports.reports {
        let next = words_of(alloc, report)?;
        if count > 0 && next != last {
            write!(text, "{count} of {last}; ")?;
            count = 0;
        }
        last = next;
        count = count.wrapping_add(1);
    }
    if count > 0 {
        write!(text, "{count} of {last}; ")?;
    }
    Ok(text)
}

// The totals of the caches in words, the clashes, what each shelf did that anything was put on, and the strays if there are any.
pub(crate) fn totals_text<R>(alloc: Global, outcome: &Outcome<R>) -> Result<String, AllocError> {
    let mut text = String::new(alloc);
    for totals in &outcome.totals {
        write!(text, "{}/{}/{} ", totals.allocs, totals.frees, totals.nulls)?;
    }
    write!(text, "clashes {}", outcome.clashes)?;
    write_shelves(&mut text, outcome)?;
    if outcome.strays > 0 {
        write!(text, " strays {}", outcome.strays)?;
    }
    Ok(text)
}

// Adds what each shelf did that anything was put on: what was put there, what was got from there and what was left.
fn write_shelves<R>(text: &mut String, outcome: &Outcome<R>) -> Result<(), AllocError> {
    for (number, shelf) in outcome.shelves.iter().enumerate() {
        if shelf.puts > 0 {
            write!(
                text,
                " shelf {number} {}/{}/{}",
                shelf.puts, shelf.gets, shelf.left
            )?;
        }
    }
    Ok(())
}
