//! Eight threads over what they share, by one program: totals are exact. Which types may go to other threads.

mod common;

use common::{loaded, CELL, LEAVE, SEVEN};
use ebpf_host::{Error, Kind, Machine, Program, Report, Shared, Worker, NO_LIMIT};
use std::sync::{Arc, Mutex};
use std::thread;

fn is_send<T: Send + 'static>() {}
fn is_sync<T: Sync>() {}

#[test]
fn types() {
    is_send::<Program>();
    is_sync::<Program>();
    is_send::<Machine>();
    is_send::<Worker>();
    is_send::<Shared>();
    is_send::<Error>();
    is_sync::<Error>();
    is_sync::<Mutex<Shared>>();
}

const THREADS: u32 = 8;
const TURNS: u32 = 500;
const BATCH: usize = 16;

/// What runs were granted and refused of a kind, and found on its shelf.
#[derive(Clone, Copy, Default)]
struct Sums {
    granted: u64,
    refused: u64,
    gets: u64,
}

impl Sums {
    fn add(&mut self, report: &Report) {
        self.granted += report.granted;
        self.refused += report.refused;
        self.gets += report.fetched;
    }

    fn plus(self, other: Sums) -> Sums {
        Sums { granted: self.granted + other.granted, refused: self.refused + other.refused, gets: self.gets + other.gets }
    }
}

/// A thread: runs of a program that takes a cell and gives it back, and of one that exchanges records. The sums of both.
fn work(mut worker: Worker, cell: &Program, leave: &Program) -> [Sums; 2] {
    let mut sums = [Sums::default(); 2];
    let mut reports = [Report::default(); BATCH];
    for i in 0..TURNS {
        worker.run_batch(cell, &[], NO_LIMIT, &mut reports).unwrap();
        reports.iter().for_each(|report| sums[0].add(report));
        let report = worker.run(leave, &[i as u8]).unwrap();
        assert!(report.exited && report.fetched + report.missed == report.granted);
        sums[1].add(&report);
    }
    sums
}

/// Totals are what the reports of all threads say. A worker that meets others at the slabs for too long is refused an object, which depends on time.
#[test]
fn totals_are_exact() {
    let (cell, leave) = (loaded(CELL, 0, 1), loaded(LEAVE, 1, 1));
    let mut shared = Shared::new(16, THREADS).unwrap();
    let all: Vec<[Sums; 2]> = thread::scope(|scope| {
        let (cell, leave) = (&cell, &leave);
        let workers: Vec<Worker> = (0..THREADS).map(|_| shared.open().unwrap()).collect();
        let threads: Vec<_> = workers.into_iter().map(|worker| scope.spawn(move || work(worker, cell, leave))).collect();
        threads.into_iter().map(|thread| thread.join().unwrap()).collect()
    });
    let totals = shared.close().unwrap();
    let [cells, records] = [0, 1].map(|at: usize| all.iter().fold(Sums::default(), |sum, of| sum.plus(of[at])));
    for (kind, sums) in [(Kind::Cell, cells), (Kind::Record, records)] {
        let of = totals.of(kind);
        assert_eq!((of.allocs, of.nulls + of.busy, of.gets), (sums.granted, sums.refused, sums.gets));
        assert_eq!((of.frees, of.missing, of.foreign, of.puts), (of.allocs, 0, 0, of.gets + of.left));
        assert!(of.allocs > 0);
    }
    assert_eq!(cells.granted + cells.refused, u64::from(THREADS * TURNS) * BATCH as u64);
    assert_eq!((totals.of(Kind::Record).puts, totals.clashes, totals.strays), (records.granted, 0, 0));
}

/// Threads that open and close their own workers, and have handles of their own.
#[test]
fn threads_without_a_scope() {
    let program = Arc::new(loaded(SEVEN, 0, 0));
    let shared = Arc::new(Mutex::new(Shared::new(4, 8).unwrap()));
    let work = |program: Arc<Program>, shared: Arc<Mutex<Shared>>| {
        for _ in 0..100 {
            let mut worker = shared.lock().unwrap().open().unwrap();
            let handle = program.try_clone().unwrap();
            assert_eq!(worker.run(&handle, &[]).unwrap().exit, 7);
        }
    };
    let threads: Vec<_> =
        (0..8).map(|_| (Arc::clone(&program), Arc::clone(&shared))).map(|(one, other)| thread::spawn(move || work(one, other))).collect();
    threads.into_iter().for_each(|thread| thread.join().unwrap());
    Arc::try_unwrap(shared).unwrap().into_inner().unwrap().close().unwrap();
}
