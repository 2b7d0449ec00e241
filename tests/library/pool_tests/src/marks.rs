//! The mark of a job at work, as a seat finds it that no worker has.

use crate::facts::holds;
use crate::jobs::{jobs_of, setting_of};
use crate::programs::accepted;
use crate::table::table_of;
use ebpf_verify::verified::Verified;
use owners_table::mark::{Mark, Owner};
use owners_table::owners::{OwnerSeat, Owners};
use std::alloc::{AllocError, Global};
use std::sync::atomic::{AtomicU64, Ordering};
use std::sync::{Mutex, Wait};
use std::thread::yield_now;
use worker_pool::{Gate, Host, Point, run_jobs};

// The slots of cells on the one page of the arena.
const SLOTS: u32 = 256;

// How often the seat looks at a slot, at most.
const TURNS: u32 = 10_000_000;

// The setting of the jobs, and how many there are after the first.
const JOBS: &str = "2 1 0 0 500 a";
const OTHERS: u64 = 499;

// A seat that no worker has, with its table.
#[derive(Drop)]
struct Outsider<'a> {
    owners: &'a Owners,
    seat: OwnerSeat,
}

impl<'a> Outsider<'a> {
    fn new(owners: &'a Owners, seat: OwnerSeat) -> Outsider<'a> {
        Outsider { owners, seat }
    }

    // The mark of the run that has the slot, if one has: the seat asks for the slot as that of a shelf, and no object is on one.
    fn mark_of(&mut self, slot: u32) -> Option<Mark> {
        let own = Mark {
            run: u32::MAX,
            at: 0,
        };
        match self.owners.fetch(&mut self.seat, slot, 0, own) {
            Err(other) => match other.found {
                Some(Owner::Run(mark)) => Some(mark),
                _ => None,
            },
            Ok(()) => None,
        }
    }
}

// A gate that holds job 0 up until the outsider has found a mark. One other worker does all other jobs meanwhile, so while no
// next one begins each mark is that of the one that began last.
#[derive(Drop)]
struct Witness<'a, R: Wait> {
    rt: &'a R,
    outsider: Mutex<Outsider<'a>>,
    begun: AtomicU64,
    answered: AtomicU64,
    found: AtomicU64,
    strange: AtomicU64,
}

impl<R: Wait> Witness<'_, R> {
    // Whether one more mark was found in a slot of the table.
    fn has_found(&self, outsider: &mut Outsider<'_>, slot: u32) -> bool {
        let job = self.begun.load(Ordering::SeqCst);
        let Some(mark) = outsider.mark_of(slot) else {
            return false;
        };
        if self.begun.load(Ordering::SeqCst) != job {
            return false;
        }
        // A program's second instruction asks for the cell.
        let is_its_own = u64::from(mark.run) == job && mark.at == 1;
        let count = if is_its_own {
            &self.found
        } else {
            &self.strange
        };
        count.fetch_add(1, Ordering::SeqCst);
        true
    }

    // Looks until a mark was found or all other jobs were answered.
    fn wait(&self) {
        let mut outsider = self.outsider.lock(self.rt);
        let outsider = &mut *outsider;
        for turn in 0..TURNS {
            let is_found = self.has_found(outsider, turn % SLOTS);
            if is_found || self.answered.load(Ordering::SeqCst) == OTHERS {
                return;
            }
            if turn % SLOTS == 0 {
                yield_now();
            }
        }
    }
}

impl<R: Wait> Gate for Witness<'_, R> {
    fn at(&self, job: u64, point: Point) {
        match point {
            Point::Begin => {
                if job == 0 {
                    self.wait();
                } else {
                    self.begun.store(job, Ordering::SeqCst);
                }
            }
            Point::Answered => {
                self.answered.fetch_add(1, Ordering::SeqCst);
            }
            Point::Reaped => {}
        }
    }
}

// A program that asks for a cell, holds it for four thousand instructions and frees it.
fn holder(alloc: Global) -> Result<Verified, AllocError> {
    let mut row = String::new(alloc);
    row.push_str("a | 0 1 | b701000000000000 8500000001000000 1500a20f00000000")?;
    for _ in 0..4_000 {
        row.push_str(" b702000000000000")?;
    }
    row.push_str(" bf01000000000000 8500000002000000 b700000000000000 9500000000000000")?;
    accepted(alloc, row.as_str())
}

#[test]
fn a_slot_has_the_mark_of_the_job_at_work(rt: HostRuntime) -> Result<(), AllocError> {
    let alloc = rt.alloc();
    let setting = setting_of(JOBS);
    let mut programs = Vec::new(alloc);
    programs.push(holder(alloc)?)?;
    let jobs = jobs_of(alloc, &programs, &setting)?;
    let host = Host {
        pages: setting.pages,
        programs,
    };
    let (owners, seats, other) = table_of(alloc, setting.workers)?;
    let gate = Witness {
        rt: &rt,
        outsider: Mutex::new(Outsider::new(&owners, other)),
        begun: AtomicU64::new(0),
        answered: AtomicU64::new(0),
        found: AtomicU64::new(0),
        strange: AtomicU64::new(0),
    };
    let (_, result) = run_jobs(&rt, alloc, &host, &owners, seats, &jobs, 0, &gate);
    holds(&rt, "the jobs are done", result.is_ok());
    holds(
        &rt,
        "no mark is strange",
        gate.strange.load(Ordering::SeqCst) == 0,
    );
    holds(
        &rt,
        "a mark was found",
        gate.found.load(Ordering::SeqCst) > 0,
    );
    Ok(())
}
