//! What runs and workers did. These have the layout of C, so that the library writes them where they are.

use crate::Kind;

/// What a run did.
///
/// A batch writes one for each of its runs, into a slice that may begin as `[Report::default(); 64]`.
#[repr(C)]
#[derive(Clone, Copy, Debug, Default, PartialEq, Eq, Hash)]
pub struct Report {
    /// The number that the run returned; 0 if it did not exit, which [`returned`](Report::returned) tells apart.
    pub exit: u64,
    /// How many instructions it did.
    pub executed: u64,
    /// The most objects that it held at one time.
    pub peak: u64,
    /// How many numbers it added to its output, which may be more than there was room for.
    pub outputs: u64,
    /// How many calls of `new` were granted an object.
    pub granted: u64,
    /// How many calls of `new` were answered null.
    pub refused: u64,
    /// How many calls of `swap` found an object on the shelf.
    pub fetched: u64,
    /// How many calls of `swap` found nothing there.
    pub missed: u64,
    /// Whether it exited within its limit.
    pub exited: bool,
}

impl Report {
    /// The number that the run returned, or `None` if it reached its limit first.
    pub fn returned(&self) -> Option<u64> {
        self.exited.then_some(self.exit)
    }
}

/// What all workers did to the objects of one kind.
///
/// Of all workers that were ever open, `frees` is `allocs`, and `puts` is `gets` and `left` together.
#[repr(C)]
#[derive(Clone, Copy, Debug, Default, PartialEq, Eq, Hash)]
pub struct KindTotals {
    /// How often a worker was given an object.
    pub allocs: u64,
    /// How often one came back, counting the one that was on the shelf at the end.
    pub frees: u64,
    /// How often one was refused for want of a page or of memory.
    pub nulls: u64,
    /// How often one was refused because another worker was at the slabs or the pages for too long.
    pub busy: u64,
    /// How many objects had not come back: 0, unless memory was damaged.
    pub missing: u64,
    /// How many came back that had not been given: 0, unless memory was damaged.
    pub foreign: u64,
    /// How often an object was put on the shelf.
    pub puts: u64,
    /// How often one was got from it.
    pub gets: u64,
    /// How many were on it at the end: 0 or 1.
    pub left: u64,
}

/// The totals of what workers shared, when it was [closed](crate::Shared::close).
#[repr(C)]
#[derive(Clone, Copy, Debug, Default, PartialEq, Eq, Hash)]
pub struct Totals {
    /// Those of each kind, in the order of [`Kind`]: [`of`](Totals::of) finds one.
    pub kinds: [KindTotals; 3],
    /// How many objects went back since another run owned them: 0, unless memory was damaged.
    pub clashes: u64,
    /// How many objects off a shelf went back since another run owned them: 0, unless memory was damaged.
    pub strays: u64,
}

impl Totals {
    /// The totals of one kind.
    pub fn of(&self, kind: Kind) -> &KindTotals {
        &self.kinds[kind as usize]
    }
}
