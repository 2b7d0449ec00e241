//! What workers share.

use std::fmt;

use crate::error::{CloseError, Error};
use crate::handle::Handle;
use crate::machine::{when_done, Worker};
use crate::report::Totals;
use crate::sys::{ebpf_shared, EBPF_DONE};

/// The caches and shelves of a host's threads, each of which has a [`Worker`].
///
/// Calls on it are one after another, on any thread, while workers run; in a `Mutex` any thread may open a worker. Dropping it frees it
/// without totals: workers that are open go on, and all is freed with the last of them.
///
/// ```
/// # use ebpf_host::{Declaration, Error, Kind, Program, Shared};
/// # fn main() -> Result<(), Box<dyn std::error::Error>> {
/// // takes a cell and gives it back: r1 = 0; r0 = new(r1); if r0 == 0 goto +2; r1 = r0; free(r1); r0 = 0; exit
/// let slots = [
///     0xb7, 1, 0, 0, 0, 0, 0, 0, 0x85, 0, 0, 0, 1, 0, 0, 0, 0x15, 0, 2, 0, 0, 0, 0, 0, 0xbf, 1, 0, 0, 0, 0, 0, 0, //
///     0x85, 0, 0, 0, 2, 0, 0, 0, 0xb7, 0, 0, 0, 0, 0, 0, 0, 0x95, 0, 0, 0, 0, 0, 0, 0,
/// ];
/// let program = Program::load(&slots, Declaration { context: 0, held: 1 })?;
/// let mut shared = Shared::new(16, 4)?;
/// std::thread::scope(|scope| {
///     for _ in 0..4 {
///         let mut worker = shared.open().expect("four may be open");
///         let program = &program;
///         scope.spawn(move || worker.run(program, &[]).expect("there is memory"));
///     }
/// });
/// let totals = shared.close()?; // each thread has dropped its worker
/// assert_eq!(totals.of(Kind::Cell).frees, totals.of(Kind::Cell).allocs);
/// # Ok(())
/// # }
/// ```
///
/// It is gone once it is closed:
///
/// ```compile_fail,E0382
/// # let mut shared = ebpf_host::Shared::new(1, 1).unwrap();
/// let totals = shared.close();
/// shared.open();
/// ```
pub struct Shared(Handle<ebpf_shared>);

impl Shared {
    /// Makes what up to that many workers share, 1 to 64, with their objects on up to that many pages of 4,096 bytes, 1 to 256.
    ///
    /// # Errors
    ///
    /// [`Error::Pages`], [`Error::Workers`], [`Error::NoMemory`].
    #[doc(alias = "ebpf_shared_new")]
    pub fn new(pages: u32, workers: u32) -> Result<Shared, Error> {
        Handle::<ebpf_shared>::new(pages, workers).map(Shared).map_err(Error::of)
    }

    /// Opens a worker. To open one in the place of another, drop that first: an assignment would close it only after this call.
    ///
    /// # Errors
    ///
    /// [`Error::Busy`], [`Error::NoMemory`].
    #[doc(alias = "ebpf_worker_open")]
    pub fn open(&mut self) -> Result<Worker, Error> {
        self.0.open().map(Worker).map_err(Error::of)
    }

    /// Gives back each page with no object on it, while workers run. How many pages were given back.
    #[doc(alias = "ebpf_shared_reap")]
    pub fn reap(&mut self) -> u32 {
        let mut pages = 0;
        let status = self.0.reap(&mut pages);
        debug_assert_eq!(status, EBPF_DONE, "only an empty handle can't be reaped");
        pages
    }

    /// Ends all, and gives the exact totals of what workers did.
    ///
    /// # Errors
    ///
    /// [`Error::Busy`] if a worker is open. The error then has the `Shared`, which is as it was.
    #[doc(alias = "ebpf_shared_close")]
    pub fn close(mut self) -> Result<Totals, CloseError> {
        let mut totals = Totals::default();
        let status = self.0.close(&mut totals);
        when_done(status, totals).map_err(|error| CloseError { shared: self, error })
    }
}

impl fmt::Debug for Shared {
    fn fmt(&self, f: &mut fmt::Formatter<'_>) -> fmt::Result {
        f.write_str("Shared")
    }
}
