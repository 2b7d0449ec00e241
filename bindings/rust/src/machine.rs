//! Machines and workers, which run programs.

use std::fmt;

use crate::error::{BatchError, Error};
use crate::handle::Handle;
use crate::report::Report;
use crate::sys::{ebpf_machine, ebpf_worker, EBPF_DONE};
use crate::{Kind, Program};

/// The most instructions that a program does. Under this limit no run is given up, and nothing on a shelf is lost.
pub const NO_LIMIT: u64 = 4096;

/// The most bytes of a context.
const MOST_CONTEXT: usize = 4096;

/// What a call gives, if its status is done.
pub(crate) fn when_done<T>(status: u32, value: T) -> Result<T, Error> {
    match status {
        EBPF_DONE => Ok(value),
        status => Err(Error::of(status)),
    }
}

/// The memory of runs, with shelves of its own: one run at a time, of any program.
///
/// A machine may go to another thread. Threads that run at the same time have one each.
pub struct Machine(Handle<ebpf_machine>);

impl Machine {
    /// Makes a machine whose objects are on up to that many pages of 4,096 bytes, 1 to 256. A page is allocated when it is first needed.
    ///
    /// # Errors
    ///
    /// [`Error::Pages`], [`Error::NoMemory`].
    #[doc(alias = "ebpf_machine_new")]
    pub fn new(pages: u32) -> Result<Machine, Error> {
        Handle::<ebpf_machine>::new(pages).map(Machine).map_err(Error::of)
    }

    /// Gives back each page with no object on it, so that objects of any kind may be there.
    #[doc(alias = "ebpf_machine_reap")]
    pub fn reap(&mut self) {
        let status = self.0.reap();
        debug_assert_eq!(status, EBPF_DONE, "only an empty handle can't be reaped");
    }
}

/// What runs programs over the caches and shelves of a [`Shared`](crate::Shared), beside the other workers.
///
/// A worker may go to another thread, and outlive what it was opened from. Dropping it closes it, and makes room for another.
pub struct Worker(pub(crate) Handle<ebpf_worker>);

macro_rules! runs {
    ($runner:ident) => {
        impl $runner {
            /// Runs a program on a context, to its end. The numbers that it emits are only counted.
            ///
            /// # Errors
            ///
            /// [`Error::Context`], [`Error::NoMemory`].
            #[inline]
            pub fn run(&mut self, program: &Program, context: &[u8]) -> Result<Report, Error> {
                self.run_within(program, context, NO_LIMIT, &mut [])
            }

            /// Runs a program on a context that may be shorter than was declared, to its end: zeros come after its bytes.
            ///
            /// # Errors
            ///
            /// [`Error::Context`] if it is longer, [`Error::NoMemory`].
            #[doc(alias = "ebpf_machine_run_padded")]
            pub fn run_padded(&mut self, program: &Program, context: &[u8]) -> Result<Report, Error> {
                let mut padded = [0; MOST_CONTEXT];
                match padded.get_mut(..program.context() as usize) {
                    Some(whole) if context.len() <= whole.len() => {
                        whole[..context.len()].copy_from_slice(context);
                        self.run(program, whole)
                    }
                    _ => self.run(program, context), // which is refused
                }
            }

            /// Runs a program on a context, that many instructions at most, and writes the numbers that it emits, as far as there is room.
            ///
            /// A run that has not exited by then is given up. **What it had taken off a shelf is lost**, unless the limit is at least
            /// [`NO_LIMIT`].
            ///
            /// # Errors
            ///
            /// [`Error::Context`], [`Error::NoMemory`].
            #[inline]
            pub fn run_within(&mut self, program: &Program, context: &[u8], limit: u64, output: &mut [u64]) -> Result<Report, Error> {
                self.0.run(&program.0, context, limit, output).map_err(Error::of)
            }

            /// Runs a program on `reports.len()` contexts, which are one after another in `contexts`, and writes the report of each. Each run
            /// costs less than by a call of its own, and has the limit for itself. The numbers that they emit are only counted.
            ///
            /// # Errors
            ///
            /// [`Error::Context`], with nothing run, or [`Error::NoMemory`], with the number of runs before it.
            #[inline]
            pub fn run_batch(&mut self, program: &Program, contexts: &[u8], limit: u64, reports: &mut [Report]) -> Result<(), BatchError> {
                let mut done = 0;
                let status = self.0.run_batch(&program.0, contexts, limit, reports, &mut done);
                when_done(status, ()).map_err(|error| BatchError { done, error })
            }

            /// Puts an object onto the shelf of its kind. It begins with these bytes, and goes on as a new one does. Whether it came in place
            /// of another, which is given back.
            ///
            /// # Errors
            ///
            /// [`Error::Length`], [`Error::NoObject`].
            pub fn put(&mut self, kind: Kind, bytes: &[u8]) -> Result<bool, Error> {
                let mut replaced = false;
                let status = self.0.put(kind as u32, bytes, &mut replaced);
                when_done(status, replaced)
            }

            /// Takes the object off the shelf of a kind, and writes its bytes, as far as there is room. Whether one was there; if not,
            /// `bytes` is as it was. An object of a kind has [`size`](Kind::size) bytes.
            #[must_use = "if nothing was on the shelf, the bytes are as they were"]
            pub fn take(&mut self, kind: Kind, bytes: &mut [u8]) -> bool {
                let mut found = false;
                let status = self.0.take(kind as u32, bytes, &mut found);
                debug_assert_eq!(status, EBPF_DONE, "only from an empty handle, or of no kind, nothing can be taken");
                found
            }
        }

        impl fmt::Debug for $runner {
            fn fmt(&self, f: &mut fmt::Formatter<'_>) -> fmt::Result {
                f.write_str(stringify!($runner))
            }
        }
    };
}
runs!(Machine);
runs!(Worker);
