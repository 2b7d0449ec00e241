//! Programs are loaded and dropped without end, at constant memory.

mod common;

use common::{load, loaded, READ, SEVEN};
use ebpf_host::Machine;
use std::fs;

/// The pages of memory that this process has.
fn resident() -> u64 {
    fs::read_to_string("/proc/self/statm").unwrap().split_whitespace().nth(1).unwrap().parse().unwrap()
}

#[test]
fn many_loads() {
    const LOADS: u32 = 100_000;
    let mut machine = Machine::new(1).unwrap();
    let mut before = 0;
    for i in 0..LOADS {
        let program = loaded(SEVEN, 0, 0).try_clone().unwrap();
        if i % 10 == 0 {
            assert!(load(READ, 3, 0).is_err() && machine.run(&program, &[]).unwrap().exit == 7);
        }
        if i == LOADS / 10 {
            before = resident();
        }
    }
    assert!(resident() <= before + 16);
}
