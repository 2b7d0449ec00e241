//! The programs of the tests, as hex.

#![allow(dead_code)] // each test uses some

use ebpf_host::{Declaration, Error, Program};

/// returns 7
pub const SEVEN: &str = "b7000000070000009500000000000000";
/// reads four bytes of the context
pub const READ: &str = "61100000000000009500000000000000";
/// emits the byte of the context and returns 7
pub const EMIT: &str = "71110000000000008500000003000000b7000000070000009500000000000000";
/// takes a cell, reads back the 5 that it wrote there, and returns it; 0 if it gets none
pub const CELL: &str = "b701000000000000850000000100000015000500000000007a000000050000007906000000000000bf010000000000008500000002000000\
                        bf600000000000009500000000000000";
/// takes what is on the shelf of records, and gives it back
pub const FETCH: &str = "b701000001000000b70200000000000085000000040000001500020000000000bf010000000000008500000002000000b700000000000000\
                         9500000000000000";
/// leaves a record with the byte of the context on the shelf of records, and gives back what was there
pub const LEAVE: &str = "7116000000000000b701000001000000850000000100000015000800000000007b60000000000000b701000001000000bf02000000000000\
                         85000000040000001500020000000000bf010000000000008500000002000000b7000000000000009500000000000000";
/// adds 2 and returns the sum after three turns of a loop
pub const LOOP: &str = "b70000000000000007000000020000005500feff060000009500000000000000";

pub fn slots_of(digits: &str) -> Vec<u8> {
    let digits: Vec<u32> = digits.chars().filter_map(|digit| digit.to_digit(16)).collect();
    digits.chunks(2).map(|pair| (pair[0] * 16 + pair[1]) as u8).collect()
}

pub fn declared(context: u32, held: u32) -> Declaration {
    Declaration { context, held }
}

pub fn load(digits: &str, context: u32, held: u32) -> Result<Program, Error> {
    Program::load(&slots_of(digits), declared(context, held))
}

pub fn loaded(digits: &str, context: u32, held: u32) -> Program {
    load(digits, context, held).unwrap()
}
