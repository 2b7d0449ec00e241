//! Runs small eBPF programs (RFC 9669) that others wrote, in the host's own process: for packet hooks, plug-ins and policies.
//!
//! A program is loaded and verified once. From then on no run of it traps, loops, leaks an object or disturbs another. This crate is the
//! C library `ebpf_host` for Rust; `docs/EMBEDDING.md` of its repository says what runs, shelves and workers are.
//!
//! ```
//! use ebpf_host::{Declaration, Error, Machine, Program};
//!
//! fn main() -> Result<(), Error> {
//!     let slots = [0x71, 0x10, 0, 0, 0, 0, 0, 0, 0x95, 0, 0, 0, 0, 0, 0, 0]; // returns the first byte of the context
//!     let packet = [0x45; 24];
//!     let program = Program::load(&slots, Declaration { context: 24, held: 0 })?;
//!     let mut machine = Machine::new(16)?;
//!     assert_eq!(machine.run(&program, &packet)?.returned(), Some(0x45));
//!     Ok(())
//! }
//! ```
//!
//! # Threads
//!
//! A [`Program`] is run by any number of threads at once. Each has a [`Machine`] of its own, or a [`Worker`] of a [`Shared`], by which they
//! share caches and shelves. None of these takes a lock.
//!
//! # What doesn't compile
//!
//! A handle of C that holds nothing has no counterpart here: a value that was moved or closed can't be used. A machine runs one program at a
//! time:
//!
//! ```compile_fail,E0596
//! # use ebpf_host::{Machine, Program};
//! fn on_each_thread(machine: &Machine, program: &Program) {
//!     machine.run(program, &[]);
//! }
//! ```

#![deny(unsafe_code, missing_docs)]
#![warn(rust_2018_idioms, missing_debug_implementations, unreachable_pub)]

mod error;
mod function;
mod handle;
mod kind;
mod machine;
mod program;
mod report;
mod shared;
mod sys;

/// The version of the library that is linked, as `0.1.0`.
#[doc(alias = "ebpf_host_version")]
pub fn version() -> &'static str {
    handle::version()
}

pub use error::{BatchError, CloseError, Error, Refused};
pub use function::{elf_functions, Function};
pub use kind::Kind;
pub use machine::{Machine, Worker, NO_LIMIT};
pub use program::{Declaration, Program};
pub use report::{KindTotals, Report, Totals};
pub use shared::Shared;
