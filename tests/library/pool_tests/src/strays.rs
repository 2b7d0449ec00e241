//! Objects on the shelf of cells whose slots a seat that no worker has takes away before they come off.

use crate::done::text_of;
use crate::facts::is_text;
use crate::jobs::{jobs_of, setting_of};
use crate::programs::programs_of;
use crate::table::{owned, table_of};
use owners_table::mark::Mark;
use owners_table::owners::{OwnerSeat, Owners};
use std::alloc::{AllocError, Global};
use std::process::Abort;
use std::sync::{Mutex, Wait};
use std::thread::Threads;
use worker_pool::{Gate, Host, Point, run_jobs};

// The slots of cells on the first page of an arena.
const SLOTS: u32 = 256;

// What the seat does with a slot that it fetched.
#[derive(Clone, Copy)]
enum Deed {
    Keep,
    Release,
    Shelve,
}

// A seat that no worker has, with its table.
#[derive(Drop)]
struct Outsider<'a> {
    owners: &'a Owners,
    seat: OwnerSeat,
}

impl<'a> Outsider<'a> {
    fn new(owners: &'a Owners, seat: OwnerSeat) -> Outsider<'a> {
        Outsider { owners, seat }
    }

    // Fetches the slot from the shelf of cells, if it is that shelf's.
    fn fetch(&mut self, slot: u32, deed: Deed) {
        // No job has this number.
        let mark = Mark {
            run: u32::MAX,
            at: 0,
        };
        if self.owners.fetch(&mut self.seat, slot, 0, mark).is_err() {
            return;
        }
        match deed {
            Deed::Keep => {}
            Deed::Release => self.owners.release(&mut self.seat, slot),
            Deed::Shelve => self.owners.shelve(&mut self.seat, slot, 2),
        }
    }
}

// A gate at which the outsider fetches what is on the shelf of cells, when job 0 was answered.
#[derive(Drop)]
struct Thief<'a, R: Wait> {
    rt: &'a R,
    outsider: Mutex<Outsider<'a>>,
    deed: Deed,
}

impl<R: Wait> Gate for Thief<'_, R> {
    fn at(&self, job: u64, point: Point) {
        if job == 0 && matches!(point, Point::Answered) {
            let mut outsider = self.outsider.lock(self.rt);
            let outsider = &mut *outsider;
            for slot in 0..SLOTS {
                outsider.fetch(slot, self.deed);
            }
        }
    }
}

// The deed of a word.
fn deed_of(word: &str) -> Deed {
    match word {
        "keeps" => Deed::Keep,
        "releases" => Deed::Release,
        _ => Deed::Shelve,
    }
}

// Does the jobs of a setting while the outsider does the deed once job 0 was answered, and says what came of them, and how many
// slots runs have in the end, and shelves.
fn stolen<R: Threads + Wait + Abort + Sync>(
    rt: &R,
    alloc: Global,
    setting: &str,
    deed: Deed,
) -> Result<String, AllocError> {
    let setting = setting_of(setting);
    let programs = programs_of(alloc)?;
    let jobs = jobs_of(alloc, &programs, &setting)?;
    let host = Host {
        pages: setting.pages,
        programs,
    };
    let (owners, seats, other) = table_of(alloc, setting.workers)?;
    let gate = Thief {
        rt,
        outsider: Mutex::new(Outsider::new(&owners, other)),
        deed,
    };
    let (seats, result) = run_jobs(
        rt,
        alloc,
        &host,
        &owners,
        seats,
        &jobs,
        setting.reaps,
        &gate,
    );
    drop(gate);
    let (runs, shelves) = owned(alloc, owners, seats)?;
    let Ok(outcome) = result else {
        return Err(AllocError);
    };
    let text = text_of(alloc, &outcome)?;
    format!(in alloc; "{text} runs {runs} shelves {shelves}")
}

// A row: what it shows; the setting of its jobs; what the outsider does with the slot of what job 0 left; and what is reported.
const ROWS: &str = "\
the slot is another run's | 1 1 0 0 2 hi | keeps | 1 of exit 1 executed 10 peak 1 output [] answers ge; 1 of exit 0 executed 5 peak 0 output [] answers e; 1/1/0 0/0/0 0/0/0 clashes 0 shelf 0 1/1/0 strays 1 runs 1 shelves 0
the slot is free | 1 1 0 0 2 hi | releases | 1 of exit 1 executed 10 peak 1 output [] answers ge; 1 of exit 0 executed 5 peak 0 output [] answers e; 1/1/0 0/0/0 0/0/0 clashes 0 shelf 0 1/1/0 strays 1 runs 0 shelves 0
the slot is another shelf's | 1 1 0 0 2 hi | shelves | 1 of exit 1 executed 10 peak 1 output [] answers ge; 1 of exit 0 executed 5 peak 0 output [] answers e; 1/1/0 0/0/0 0/0/0 clashes 0 shelf 0 1/1/0 strays 1 runs 0 shelves 1
another object is left in its place | 1 1 0 0 3 hhi | keeps | 2 of exit 1 executed 10 peak 1 output [] answers ge; 1 of exit 5 executed 9 peak 1 output [] answers s; 2/2/0 0/0/0 0/0/0 clashes 0 shelf 0 2/2/0 strays 1 runs 1 shelves 0
a stray is asked for again, and its slot still has an owner | 1 1 0 0 3 hih | keeps | 1 of exit 1 executed 10 peak 1 output [] answers ge; 1 of exit 0 executed 5 peak 0 output [] answers e; 1 of exit 0 executed 4 peak 0 output [] answers n; 2/2/0 0/0/0 0/0/0 clashes 1 shelf 0 1/1/0 strays 1 runs 1 shelves 0
a stray is asked for again, and its slot is free | 1 1 0 0 4 hihi | releases | 1 of exit 1 executed 10 peak 1 output [] answers ge; 1 of exit 0 executed 5 peak 0 output [] answers e; 1 of exit 1 executed 10 peak 1 output [] answers ge; 1 of exit 5 executed 9 peak 1 output [] answers s; 2/2/0 0/0/0 0/0/0 clashes 0 shelf 0 2/2/0 strays 1 runs 0 shelves 0
what is left has another owner in the end | 1 1 0 0 1 h | keeps | 1 of exit 1 executed 10 peak 1 output [] answers ge; 1/1/0 0/0/0 0/0/0 clashes 0 shelf 0 1/0/1 runs 1 shelves 0";

#[test]
fn a_stray_goes_back_and_is_not_reported(rt: HostRuntime) -> Result<(), AllocError> {
    for row in ROWS.lines() {
        let (what, columns) = row.split_once(" | ").ok_or(AllocError)?;
        let (setting, columns) = columns.split_once(" | ").ok_or(AllocError)?;
        let (deed, expected) = columns.split_once(" | ").ok_or(AllocError)?;
        let text = stolen(&rt, rt.alloc(), setting, deed_of(deed))?;
        is_text(&rt, what, text.as_str(), expected);
    }
    Ok(())
}
