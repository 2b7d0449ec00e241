//! Each allocation of the library is refused in turn: malloc and realloc are those below, by the linker's --wrap, which `check` asks for.
//!
//! While allocations are refused, no call here may need one of Rust's own, which would end the process.

mod common;

use common::{declared, loaded, slots_of, CELL};
use ebpf_host::{Error, Kind, Machine, Program, Report, Shared, NO_LIMIT};
use std::collections::BTreeSet;
use std::ffi::c_void;
use std::ptr::null_mut;
use std::sync::atomic::{AtomicBool, AtomicI64, Ordering::Relaxed};

/// How many allocations are still served; below zero, all.
static LEFT: AtomicI64 = AtomicI64::new(-1);
/// Whether one was refused.
static REFUSED: AtomicBool = AtomicBool::new(false);

extern "C" {
    fn __real_malloc(size: usize) -> *mut c_void;
    fn __real_realloc(old: *mut c_void, size: usize) -> *mut c_void;
}

fn serves() -> bool {
    let left = LEFT.load(Relaxed);
    if left > 0 {
        LEFT.store(left - 1, Relaxed);
    } else if left == 0 {
        REFUSED.store(true, Relaxed);
    }
    left != 0
}

/// # Safety
///
/// As that of C.
#[no_mangle]
pub unsafe extern "C" fn __wrap_malloc(size: usize) -> *mut c_void {
    if serves() {
        __real_malloc(size)
    } else {
        null_mut()
    }
}

/// # Safety
///
/// As that of C.
#[no_mangle]
pub unsafe extern "C" fn __wrap_realloc(old: *mut c_void, size: usize) -> *mut c_void {
    if serves() {
        __real_realloc(old, size)
    } else {
        null_mut()
    }
}

/// What a call gives with that many allocations served: if it fails, it does so since one was refused.
fn with_few<T>(allocations: i64, call: impl FnOnce() -> Result<T, Error>) -> Option<T> {
    LEFT.store(allocations, Relaxed);
    let answer = call();
    LEFT.store(-1, Relaxed);
    match answer {
        Ok(value) => Some(value),
        Err(Error::NoMemory | Error::NoObject) if REFUSED.load(Relaxed) => None,
        Err(other) => panic!("{other}"),
    }
}

/// The calls that allocate, each with that many allocations served. Whether one of them failed.
fn served(allocations: i64, slots: &[u8]) -> bool {
    REFUSED.store(false, Relaxed);
    let program = with_few(allocations, || Program::load(slots, declared(0, 1))).unwrap_or_else(|| loaded(CELL, 0, 1));
    drop(with_few(allocations, || program.try_clone()));
    if let Some(mut machine) = with_few(allocations, || Machine::new(1)) {
        with_few(allocations, || machine.run(&program, &[]));
        assert_eq!(machine.run(&program, &[]).unwrap().exit, 5);
    }
    if let Some(mut shared) = with_few(allocations, || Shared::new(2, 1)) {
        if let Some(mut worker) = with_few(allocations, || shared.open()) {
            with_few(allocations, || worker.run(&program, &[]));
            with_few(allocations, || worker.put(Kind::Record, &[]));
        }
    }
    REFUSED.load(Relaxed)
}

/// A program of so many instructions that runs of a batch go on four together, in memory of their own.
fn load_long() -> Program {
    let digits = ["b700000000000000", &"0700000001000000".repeat(2200), "9500000000000000"].concat();
    loaded(&digits, 0, 0)
}

/// A batch in which a run finds no memory says how many were run before it, and a batch of the rest goes on. How many were run, and whether it
/// was refused an allocation.
fn batch_served(allocations: i64, program: &Program) -> (usize, bool) {
    const RUNS: usize = 5;
    let mut machine = Machine::new(1).unwrap();
    let mut reports = [Report::default(); RUNS];
    REFUSED.store(false, Relaxed);
    LEFT.store(allocations, Relaxed);
    let ended = machine.run_batch(program, &[], NO_LIMIT, &mut reports);
    LEFT.store(-1, Relaxed);
    let refused = REFUSED.load(Relaxed);
    let done = ended.map_or_else(
        |error| {
            assert!(refused && *error.error() == Error::NoMemory && error.done() < RUNS);
            error.done()
        },
        |()| RUNS,
    );
    assert!(reports.iter().enumerate().all(|(i, report)| report.exited == (i < done)));
    machine.run_batch(program, &[], NO_LIMIT, &mut reports[done..]).unwrap();
    assert_eq!(reports[RUNS - 1].returned(), Some(2200));
    (done, refused)
}

fn main() {
    let slots = slots_of(CELL);
    let of_calls = (0..).take_while(|&allocations| served(allocations, &slots)).count();
    assert!(of_calls > 10);
    let long = load_long();
    let dones = (0..).map(|allocations| batch_served(allocations, &long)).take_while(|&(_, refused)| refused);
    let each: BTreeSet<usize> = dones.map(|(done, _)| done).collect();
    assert_eq!(each, BTreeSet::from([0, 4])); // before it none were run, or four
}
