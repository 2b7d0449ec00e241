//! Objects that jobs leave on shelves for one another, each with the number of the job that made it in its bytes.

use crate::done::{outcome_of, totals_text};
use crate::facts::{holds, is_text};
use crate::jobs::{Setting, setting_of};
use crate::programs::programs_of;
use ebpf_machine::report::Report;
use std::alloc::{AllocError, Global};
use std::process::Abort;
use std::sync::Wait;
use std::thread::Threads;
use worker_pool::{NoGate, Outcome};

// What comes of the jobs of a setting, if there is no fault.
fn outcome_for<R: Threads + Wait + Abort + Sync>(
    rt: &R,
    alloc: Global,
    setting: &Setting<'_>,
) -> Result<Outcome, AllocError> {
    let programs = programs_of(alloc)?;
    let Ok(outcome) = outcome_of(rt, alloc, programs, setting, &NoGate)? else {
        return Err(AllocError);
    };
    Ok(outcome)
}

// The job put an object on the shelf and found nothing there.
fn is_first(report: &Report) -> bool {
    matches!(report.exit, Some(1)) && report.executed == 10 && report.peak == 1
}

// The job put an object on the shelf and freed what it found there.
fn is_later(report: &Report) -> bool {
    matches!(report.exit, Some(1)) && report.executed == 12 && report.peak == 1
}

#[test]
fn one_job_of_a_hundred_finds_its_shelf_empty(rt: HostRuntime) -> Result<(), AllocError> {
    let outcome = outcome_for(&rt, rt.alloc(), &setting_of("64 16 0 0 100 h"))?;
    let reports = &outcome.reports.reports;
    let first = reports.iter().filter(|report| is_first(report)).count();
    let later = reports.iter().filter(|report| is_later(report)).count();
    holds(&rt, "one found nothing", first == 1 && later == 99);
    let totals = totals_text(rt.alloc(), &outcome)?;
    let expected = "100/100/0 0/0/0 0/0/0 clashes 0 shelf 0 100/99/1";
    is_text(&rt, "a hundred jobs", totals.as_str(), expected);
    Ok(())
}

// The number that a job read in what it took off a shelf, if it took anything: it is at both ends.
fn number_in(rt: &impl Abort, report: &Report) -> Option<u64> {
    match report.output.numbers.as_slice() {
        [first, last] => {
            holds(rt, "an object is not torn", first == last);
            Some(*first)
        }
        none => {
            holds(rt, "a job reads both ends or none", none.is_empty());
            None
        }
    }
}

// The job of this number left an object on a shelf.
fn has_left(reports: &[Report], number: u64) -> bool {
    match reports.get(number as usize) {
        Some(report) => matches!(report.exit, Some(1)),
        None => false,
    }
}

// Marks the number, which wasn't marked before.
fn is_new(seen: &mut [bool], number: u64) -> bool {
    match seen.get_mut(number as usize) {
        Some(is_seen) => {
            let is_first = !*is_seen;
            *is_seen = true;
            is_first
        }
        None => false,
    }
}

// How many numbers were read, each once. The job that left it and the one that read it are of one kind, of which there are so
// many, in turn.
fn count_read(
    rt: &impl Abort,
    alloc: Global,
    reports: &[Report],
    kinds: u64,
) -> Result<u64, AllocError> {
    let mut seen = vec![in alloc; false; reports.len()]?;
    let mut count: u64 = 0;
    for (job, report) in reports.iter().enumerate() {
        if let Some(number) = number_in(rt, report) {
            let is_own = number.checked_rem(kinds) == (job as u64).checked_rem(kinds);
            holds(rt, "an object stays on a shelf of its kind", is_own);
            holds(rt, "an object was left", has_left(reports, number));
            holds(rt, "no object comes twice", is_new(&mut seen, number));
            count = count.wrapping_add(1);
        }
    }
    Ok(count)
}

// How many objects the shelves held in the end.
fn left_in(outcome: &Outcome) -> u64 {
    let mut left: u64 = 0;
    for shelf in &outcome.shelves {
        left = left.wrapping_add(shelf.left);
    }
    left
}

// That each object that a job left was read by another or held by a shelf in the end.
fn is_handed_over(
    rt: &impl Abort,
    alloc: Global,
    outcome: &Outcome,
    kinds: u64,
) -> Result<(), AllocError> {
    let reports = &outcome.reports.reports;
    let put = reports
        .iter()
        .filter(|report| matches!(report.exit, Some(1)))
        .count();
    let read = count_read(rt, alloc, reports, kinds)?;
    let kept = read.wrapping_add(left_in(outcome));
    holds(rt, "no object is lost", put as u64 == kept);
    holds(rt, "objects were handed over", read > 0);
    Ok(())
}

// A row: what it shows; the setting of its jobs, whose programs are of this many kinds, in turn; that many; and the totals, if
// they are the same each time.
const ROWS: &str = "\
eight workers leave cells on a shelf | 8 16 100 0 4000 j | 1 | 4000/4000/0 0/0/0 0/0/0 clashes 0 shelf 0 4000/3999/1
eight workers leave records on a shelf | 8 64 100 0 4000 k | 1 | 0/0/0 4000/4000/0 0/0/0 clashes 0 shelf 1 4000/3999/1
eight workers leave blocks on a shelf | 8 256 100 0 4000 l | 1 | 0/0/0 0/0/0 4000/4000/0 clashes 0 shelf 2 4000/3999/1
eight workers leave objects on three shelves | 8 256 100 0 6000 jkl | 3 | 2000/2000/0 2000/2000/0 2000/2000/0 clashes 0 shelf 0 2000/1999/1 shelf 1 2000/1999/1 shelf 2 2000/1999/1
eight workers leave cells and take them | 8 16 100 0 4000 jm | 1 |
eight workers leave objects and take them | 8 256 100 0 6000 jklmno | 3 |
two pages are too few for three kinds | 8 2 100 0 6000 jklmno | 3 |
64 workers leave objects and take them | 64 256 100 0 6000 jklmno | 3 | ";

// The jobs of a row are done, and hand over what they leave.
fn is_shared<R: Threads + Wait + Abort + Sync>(
    rt: &R,
    alloc: Global,
    row: &str,
) -> Result<(), AllocError> {
    let (what, columns) = row.split_once(" | ").ok_or(AllocError)?;
    let (setting, columns) = columns.split_once(" | ").ok_or(AllocError)?;
    let (kinds, expected) = columns.split_once(" |").ok_or(AllocError)?;
    let outcome = outcome_for(rt, alloc, &setting_of(setting))?;
    is_handed_over(rt, alloc, &outcome, kinds.parse().unwrap_or(1))?;
    let totals = totals_text(alloc, &outcome)?;
    let expected = expected.trim();
    if !expected.is_empty() {
        is_text(rt, what, totals.as_str(), expected);
    }
    Ok(())
}

#[test]
fn workers_lose_nothing_over_shelves(rt: HostRuntime) -> Result<(), AllocError> {
    for row in ROWS.lines() {
        is_shared(&rt, rt.alloc(), row)?;
    }
    Ok(())
}
