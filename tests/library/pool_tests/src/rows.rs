//! Jobs that no gate holds up.

use crate::done::done;
use crate::facts::{holds, is_text};
use crate::jobs::{Setting, setting_of};
use crate::programs::programs_of;
use std::alloc::{AllocError, Global};
use std::process::Abort;
use std::sync::Wait;
use std::thread::Threads;
use worker_pool::NoGate;

// A row: what it shows; the workers, the pages, the passes of the reaper, the slots that another seat claimed, and how many
// jobs there are, of which programs; and what is reported. A total says what was given, what came back and what was refused.
const ROWS: &str = "\
each of a hundred jobs is granted a cell | 2 16 10 0 100 a | 100 of exit 5 executed 9 peak 1 output [] answers g; 100/100/0 0/0/0 0/0/0 clashes 0
the one page is the cells' | 1 1 0 0 1 b | 1 of exit 3 executed 11 peak 1 output [] answers gn; 1/1/0 0/0/0 0/0/1 clashes 0
there is a page for each kind | 1 2 0 0 1 b | 1 of exit 3 executed 13 peak 2 output [] answers gg; 1/1/0 0/0/0 1/1/0 clashes 0
the slot has another owner | 1 1 0 256 1 a | 1 of exit 0 executed 4 peak 0 output [] answers n; 1/1/0 0/0/0 0/0/0 clashes 1
64 workers have one page and a thousand passes beside them | 64 1 1000 0 200 a | 200 of exit 5 executed 9 peak 1 output [] answers g; 200/200/0 0/0/0 0/0/0 clashes 0
no job, and a pass | 3 4 1 0 0 a | 0/0/0 0/0/0 0/0/0 clashes 0
contexts are the jobs' own | 2 4 0 0 3 ccc | 1 of exit 7 executed 4 peak 0 output [] answers ; 1 of exit 10 executed 4 peak 0 output [] answers ; 1 of exit 13 executed 4 peak 0 output [] answers ; 0/0/0 0/0/0 0/0/0 clashes 0
outputs are the jobs' own | 2 4 0 0 2 d | 1 of exit 2 executed 7 peak 0 output [0, 7] answers ; 1 of exit 2 executed 7 peak 0 output [1, 7] answers ; 0/0/0 0/0/0 0/0/0 clashes 0
objects are the jobs' own | 1 4 0 0 2 f | 1 of exit 1 executed 12 peak 1 output [0] answers g; 1 of exit 1 executed 12 peak 1 output [1] answers g; 0/0/0 2/2/0 0/0/0 clashes 0
a job takes what the one before left on a shelf | 1 1 0 0 2 hi | 1 of exit 1 executed 10 peak 1 output [] answers ge; 1 of exit 5 executed 9 peak 1 output [] answers s; 1/1/0 0/0/0 0/0/0 clashes 0 shelf 0 1/1/0
what the last job left goes back | 1 1 0 0 2 hh | 1 of exit 1 executed 10 peak 1 output [] answers ge; 1 of exit 1 executed 12 peak 1 output [] answers gs; 2/2/0 0/0/0 0/0/0 clashes 0 shelf 0 2/1/1
nothing is on a shelf | 1 1 0 0 1 i | 1 of exit 0 executed 5 peak 0 output [] answers e; 0/0/0 0/0/0 0/0/0 clashes 0
an object keeps what is written to it on a shelf | 1 4 0 0 4 mjmm | 1 of exit 2 executed 6 peak 0 output [] answers e; 1 of exit 1 executed 12 peak 1 output [] answers ge; 1 of exit 2 executed 13 peak 1 output [1, 1] answers s; 1 of exit 2 executed 6 peak 0 output [] answers e; 1/1/0 0/0/0 0/0/0 clashes 0 shelf 0 1/1/0
each kind has a shelf of its own | 1 4 0 0 6 jklmno | 3 of exit 1 executed 12 peak 1 output [] answers ge; 1 of exit 2 executed 13 peak 1 output [0, 0] answers s; 1 of exit 2 executed 13 peak 1 output [1, 1] answers s; 1 of exit 2 executed 13 peak 1 output [2, 2] answers s; 1/1/0 1/1/0 1/1/0 clashes 0 shelf 0 1/1/0 shelf 1 1/1/0 shelf 2 1/1/0
what is on a shelf has the one page | 1 1 0 0 2 hk | 1 of exit 1 executed 10 peak 1 output [] answers ge; 1 of exit 0 executed 5 peak 0 output [] answers n; 1/1/0 0/0/1 0/0/0 clashes 0 shelf 0 1/0/1

no page | 1 0 0 0 1 a | Pages
257 pages | 1 257 0 0 1 a | Pages
no worker | 0 1 0 0 1 a | Workers
65 workers | 65 1 0 0 1 a | Workers
a job too many | 1 1 0 0 1048577 a | Jobs
two programs that aren't there | 1 1 0 0 4 aa!! | Program { job: 2 }
two contexts that are too long | 1 1 0 0 4 aAEa | Context { job: 1 }
no page, no worker | 0 0 0 0 1 a | Pages
257 pages, a job too many | 1 257 0 0 1048577 a | Pages
no page, no such program | 1 0 0 0 2 a! | Pages
257 pages, a context too long | 1 257 0 0 2 aA | Pages
65 workers, a job too many | 65 1 0 0 1048577 a | Workers
no worker, no such program | 0 1 0 0 2 a! | Workers
65 workers, a context too long | 65 1 0 0 2 aA | Workers
a job too many, no such program | 1 1 0 0 1048577 ! | Jobs
a job too many, a context too long | 1 1 0 0 1048577 A | Jobs
no such program after a context too long | 1 1 0 0 3 aA! | Program { job: 2 }";

#[test]
fn rows_are_reported(rt: HostRuntime) -> Result<(), AllocError> {
    for row in ROWS.lines() {
        let Some((what, columns)) = row.split_once(" | ") else {
            continue;
        };
        let (setting, expected) = columns.split_once(" | ").ok_or(AllocError)?;
        let programs = programs_of(rt.alloc())?;
        let text = done(&rt, rt.alloc(), programs, &setting_of(setting), &NoGate)?;
        is_text(&rt, what, text.as_str(), expected);
    }
    Ok(())
}

// Jobs of all programs, with few passes of the reaper meanwhile: each report is compared with its program run alone.
fn mixed<R: Threads + Wait + Abort + Sync>(
    rt: &R,
    alloc: Global,
    workers: u32,
    pages: u32,
    count: u32,
) -> Result<(), AllocError> {
    let setting = Setting {
        workers,
        pages,
        reaps: 3,
        claimed: 0,
        count,
        letters: "abcdefbbfa",
    };
    let programs = programs_of(alloc)?;
    let text = done(rt, alloc, programs, &setting, &NoGate)?;
    holds(rt, "no seat clashed", text.as_str().ends_with("clashes 0"));
    Ok(())
}

// The same by this many workers, with arenas and lists of all sizes.
fn mixed_by<R: Threads + Wait + Abort + Sync>(
    rt: &R,
    alloc: Global,
    workers: u32,
) -> Result<(), AllocError> {
    for pages in [1, 2, 16, 256] {
        for count in [1, 100, 10_000] {
            mixed(rt, alloc, workers, pages, count)?;
        }
    }
    Ok(())
}

#[test]
fn few_workers_report_as_the_programs_alone(rt: HostRuntime) -> Result<(), AllocError> {
    for workers in [1, 2, 3] {
        mixed_by(&rt, rt.alloc(), workers)?;
    }
    Ok(())
}

#[test]
fn many_workers_report_as_the_programs_alone(rt: HostRuntime) -> Result<(), AllocError> {
    for workers in [8, 64] {
        mixed_by(&rt, rt.alloc(), workers)?;
    }
    Ok(())
}

// Jobs of a long program in a row, which go four together, by themselves and among others; each report is compared with its program run
// alone, which has what others left on the shelf.
#[test]
fn jobs_that_go_together_report_as_the_programs_alone(rt: HostRuntime) -> Result<(), AllocError> {
    for letters in ["p", "ppppa", "ppapppppe"] {
        for workers in [1, 3] {
            let setting = Setting {
                workers,
                pages: 16,
                reaps: 3,
                claimed: 0,
                count: 2_000,
                letters,
            };
            let programs = programs_of(rt.alloc())?;
            let _ = done(&rt, rt.alloc(), programs, &setting, &NoGate)?;
        }
    }
    Ok(())
}
