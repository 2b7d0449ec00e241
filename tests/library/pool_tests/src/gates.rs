//! Jobs that a gate holds up until others are done, so that they must run side by side.

use crate::done::done;
use crate::facts::{holds, is_text};
use crate::jobs::setting_of;
use crate::programs::programs_of;
use std::alloc::{AllocError, Global};
use std::process::Abort;
use std::sync::Wait;
use std::sync::atomic::{AtomicU64, Ordering};
use std::thread::{Threads, yield_now};
use worker_pool::{Gate, Point};

// Who waits: the job or the pass of this number. For what: that job 0 has begun; that this many jobs after it were answered, from job
// 1 on; and that this many passes were reported.
#[derive(Clone, Copy)]
struct Hold {
    is_pass: bool,
    number: u64,
    answered: usize,
    passes: u64,
}

// A gate that counts how often each point of each job was reported, and lets two wait for this many turns at most.
#[derive(Drop)]
struct Watch {
    begun: Vec<AtomicU64>,
    answered: Vec<AtomicU64>,
    passes: AtomicU64,
    late: AtomicU64,
    holds: [Hold; 2],
    turns: u64,
}

impl Watch {
    fn new(alloc: Global, jobs: u32, holds: [Hold; 2], turns: u64) -> Result<Watch, AllocError> {
        Ok(Watch {
            begun: zeros(alloc, jobs)?,
            answered: zeros(alloc, jobs)?,
            passes: AtomicU64::new(0),
            late: AtomicU64::new(0),
            holds,
            turns,
        })
    }

    // What a thread waits for has come.
    fn has_come(&self, hold: &Hold) -> bool {
        let mut others = self.answered.iter().skip(1).take(hold.answered);
        self.begun.iter().take(1).all(is_some)
            && others.all(is_some)
            && self.passes.load(Ordering::SeqCst) >= hold.passes
    }

    // Waits if the job or the pass of this number is to wait.
    fn wait(&self, is_pass: bool, number: u64) {
        for hold in &self.holds {
            if hold.is_pass == is_pass && hold.number == number && !self.is_in_time(hold) {
                self.late.store(1, Ordering::SeqCst);
            }
        }
    }

    // It comes within this many turns.
    fn is_in_time(&self, hold: &Hold) -> bool {
        for _ in 0..self.turns {
            if self.has_come(hold) {
                return true;
            }
            yield_now();
        }
        false
    }

    // Nobody waited too long, both points of each job were reported once, and this many passes were reported.
    fn is_passed(&self, passes: u64) -> bool {
        self.late.load(Ordering::SeqCst) == 0
            && self.begun.iter().all(is_once)
            && self.answered.iter().all(is_once)
            && self.passes.load(Ordering::SeqCst) == passes
    }
}

// This many counts.
fn zeros(alloc: Global, count: u32) -> Result<Vec<AtomicU64>, AllocError> {
    let mut zeros = Vec::with_capacity(alloc, count as usize)?;
    for _ in 0..count {
        zeros.push(AtomicU64::new(0))?;
    }
    Ok(zeros)
}

fn is_some(count: &AtomicU64) -> bool {
    count.load(Ordering::SeqCst) > 0
}

fn is_once(count: &AtomicU64) -> bool {
    count.load(Ordering::SeqCst) == 1
}

// Counts one more at a job's number.
fn count(counts: &[AtomicU64], job: u64) {
    if let Some(count) = counts.get(job as usize) {
        count.fetch_add(1, Ordering::SeqCst);
    }
}

impl Gate for Watch {
    fn at(&self, job: u64, point: Point) {
        match point {
            Point::Begin => {
                count(&self.begun, job);
                self.wait(false, job);
            }
            Point::Answered => {
                count(&self.answered, job);
            }
            Point::Reaped => {
                self.passes.fetch_add(1, Ordering::SeqCst);
                self.wait(true, job);
            }
        }
    }
}

// That the jobs of a setting are done so under a gate, and pass it.
fn is_done<R: Threads + Wait + Abort + Sync>(
    rt: &R,
    alloc: Global,
    setting: &str,
    holds_up: [Hold; 2],
    turns: u64,
    expected: &str,
) -> Result<(), AllocError> {
    let setting = setting_of(setting);
    let gate = Watch::new(alloc, setting.count, holds_up, turns)?;
    let programs = programs_of(alloc)?;
    let text = done(rt, alloc, programs, &setting, &gate)?;
    is_text(rt, "under a gate", text.as_str(), expected);
    let passes = u64::from(setting.reaps);
    holds(rt, "the gate was passed", gate.is_passed(passes));
    Ok(())
}

#[test]
fn a_job_waits_for_the_next_one(rt: HostRuntime) -> Result<(), AllocError> {
    let next = Hold {
        is_pass: false,
        number: 1,
        answered: 0,
        passes: 0,
    };
    let first = Hold {
        is_pass: false,
        number: 0,
        answered: 1,
        passes: 0,
    };
    is_done(
        &rt,
        rt.alloc(),
        // so few that each is a bundle, though one of the programs is long
        "2 16 10 0 30 a",
        [next, first],
        10_000_000,
        "30 of exit 5 executed 9 peak 1 output [] answers g; 30/30/0 0/0/0 0/0/0 clashes 0",
    )
}

#[test]
fn a_job_waits_for_all_others_and_for_the_reaper(rt: HostRuntime) -> Result<(), AllocError> {
    let pass = Hold {
        is_pass: true,
        number: 0,
        answered: 0,
        passes: 0,
    };
    let first = Hold {
        is_pass: false,
        number: 0,
        answered: 199,
        passes: 1_000,
    };
    is_done(
        &rt,
        rt.alloc(),
        "64 1 1000 0 200 a",
        [pass, first],
        100_000_000,
        "200 of exit 5 executed 9 peak 1 output [] answers g; 200/200/0 0/0/0 0/0/0 clashes 0",
    )
}

#[test]
fn a_job_takes_what_another_worker_left_on_a_shelf(rt: HostRuntime) -> Result<(), AllocError> {
    let first = Hold {
        is_pass: false,
        number: 0,
        answered: 1,
        passes: 0,
    };
    is_done(
        &rt,
        rt.alloc(),
        "2 16 0 0 2 ih",
        [first, first],
        10_000_000,
        "1 of exit 5 executed 9 peak 1 output [] answers s; 1 of exit 1 executed 10 peak 1 output [] answers ge; 1/1/0 0/0/0 0/0/0 clashes 0 shelf 0 1/1/0",
    )
}
