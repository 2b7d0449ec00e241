//! Object caches without a lock: what a hand, an arena and a reaper do, with threads side by side.

use crate::facts::holds;
use shared_cache::{ArenaPass, Cache, Hand, MOST_LENT, PAUSES, SharedArena, TakeFault, Totals};
use slab_layer::{BlockKind, CellKind, Held, Kind, Obj, RecordKind};
use std::alloc::{AllocError, Global};
use std::process::Abort;
use std::sync::atomic::{AtomicU64, Ordering};
use std::thread::{Threads, for_each_mut};
use vmem_arena::Arena;

// An arena of so many pages, which as many threads share.
pub(crate) fn shared(rt: &impl Abort, alloc: Global, pages: u32, threads: u32) -> Result<(SharedArena, Vec<ArenaPass>), AllocError> {
    let Ok(arena) = Arena::new(alloc, pages) else {
        panic!(rt; "no memory");
    };
    SharedArena::new(alloc, arena, threads)
}

// What a worker has: a hand, a pass of the arena, and the objects that it took.
pub(crate) struct Worker<K: Kind> {
    pub(crate) hand: Hand<K>,
    pub(crate) pages: ArenaPass,
    out: Vec<Obj<K, Held>>,
    number: u64,
    taken: u64,
    nulls: u64,
    busy: u64,
}

// A worker that has taken nothing, with room for this many objects.
fn worker<K: Kind>(rt: &impl Abort, alloc: Global, hand: Hand<K>, pages: ArenaPass, number: u64, room: usize) -> Worker<K> {
    let Ok(out) = Vec::with_capacity(alloc, room) else {
        panic!(rt; "no memory");
    };
    Worker {
        hand,
        pages,
        out,
        number,
        taken: 0,
        nulls: 0,
        busy: 0,
    }
}

// The only worker of a cache that nobody else has.
pub(crate) fn alone<K: Kind>(rt: &impl Abort, alloc: Global, pages: u32) -> (Cache<K>, SharedArena, Worker<K>) {
    let (Ok((cache, mut hands)), Ok((arena, mut passes))) = (Cache::<K>::new(alloc, 1), shared(rt, alloc, pages, 1)) else {
        panic!(rt; "no memory");
    };
    let (Some(hand), Some(pages)) = (hands.pop(), passes.pop()) else {
        panic!(rt; "one of each");
    };
    let worker = worker(rt, alloc, hand, pages, 1, 128);
    (cache, arena, worker)
}

// The totals of a cache with one worker, and the arena that is left.
pub(crate) fn closed<K: Kind>(rt: &impl Abort, alloc: Global, cache: Cache<K>, arena: SharedArena, worker: Worker<K>) -> (Totals, Arena) {
    let Worker {
        hand,
        mut pages,
        out,
        number: _,
        taken: _,
        nulls: _,
        busy: _,
    } = worker;
    out.destroy_empty();
    let (Ok(mut hands), Ok(mut passes)) = (Vec::with_capacity(alloc, 1), Vec::with_capacity(alloc, 1)) else {
        panic!(rt; "no memory");
    };
    hands.push_reserved(hand);
    let totals = cache.close(hands, None, &arena, &mut pages, PAUSES);
    passes.push_reserved(pages);
    (totals, arena.close(passes))
}

fn take<K: Kind>(rt: &impl Abort, cache: &Cache<K>, arena: &SharedArena, worker: &mut Worker<K>) -> Obj<K, Held> {
    match worker.hand.take(cache, arena, &mut worker.pages, PAUSES) {
        Ok(object) => object,
        Err(_) => panic!(rt; "an object is there"),
    }
}

// Takes this many objects, each of which is there.
fn take_all<K: Kind>(rt: &impl Abort, cache: &Cache<K>, arena: &SharedArena, worker: &mut Worker<K>, many: u64) {
    for _ in 0..many {
        let object = take(rt, cache, arena, worker);
        worker.out.push_reserved(object);
    }
}

// Gives all of them back.
fn give_all<K: Kind>(cache: &Cache<K>, worker: &mut Worker<K>) {
    while let Some(object) = worker.out.pop() {
        worker.hand.give(cache, object);
    }
}

// That no object is got, for this reason.
fn refused<K: Kind>(rt: &impl Abort, cache: &Cache<K>, arena: &SharedArena, worker: &mut Worker<K>) -> TakeFault {
    match worker.hand.take(cache, arena, &mut worker.pages, PAUSES) {
        Ok(_) => panic!(rt; "no object is there"),
        Err(fault) => fault,
    }
}

#[test]
fn all_that_a_hand_may_lend_comes_back(rt: HostRuntime) {
    let (cache, arena, mut worker) = alone::<CellKind>(&rt, rt.alloc(), 2);
    take_all(&rt, &cache, &arena, &mut worker, MOST_LENT);
    holds(&rt, matches!(refused(&rt, &cache, &arena, &mut worker), TakeFault::Full));
    give_all(&cache, &mut worker);
    holds(&rt, cache.reap(&mut worker.hand, &arena, &mut worker.pages, PAUSES) == 0);
    holds(&rt, worker.hand.flush(&cache, PAUSES));
    holds(&rt, cache.reap(&mut worker.hand, &arena, &mut worker.pages, PAUSES) == 1);
    let (totals, arena) = closed(&rt, rt.alloc(), cache, arena, worker);
    holds(&rt, totals.allocs == 128 && totals.frees == 128 && totals.nulls == 1 && totals.busy == 0);
    holds(&rt, totals.missing == 0 && totals.foreign == 0 && arena.largest() == 2);
}

#[test]
fn a_hand_that_may_wait_takes(rt: HostRuntime) {
    let (cache, arena, mut worker) = alone::<CellKind>(&rt, rt.alloc(), 1);
    match worker.hand.take_waiting(&rt, &cache, &arena, &mut worker.pages) {
        Ok(object) => worker.hand.give(&cache, object),
        Err(_) => panic!(&rt; "an object is there"),
    }
    let (totals, _) = closed(&rt, rt.alloc(), cache, arena, worker);
    holds(&rt, totals.allocs == 1 && totals.frees == 1 && totals.busy == 0);
}

#[test]
fn where_no_page_is_left_a_hand_is_refused(rt: HostRuntime) {
    let (cache, arena, mut worker) = alone::<BlockKind>(&rt, rt.alloc(), 1);
    take_all(&rt, &cache, &arena, &mut worker, 8);
    holds(&rt, matches!(refused(&rt, &cache, &arena, &mut worker), TakeFault::NoSpan));
    give_all(&cache, &mut worker);
    take_all(&rt, &cache, &arena, &mut worker, 8);
    give_all(&cache, &mut worker);
    let (totals, arena) = closed(&rt, rt.alloc(), cache, arena, worker);
    holds(&rt, totals.allocs == 16 && totals.frees == 16 && totals.nulls == 1 && totals.missing == 0 && arena.largest() == 1);
}

#[test]
fn an_object_of_another_cache_is_foreign(rt: HostRuntime) {
    let (first, first_arena, mut one) = alone::<CellKind>(&rt, rt.alloc(), 1);
    let (second, second_arena, mut two) = alone::<CellKind>(&rt, rt.alloc(), 1);
    let object = take(&rt, &first, &first_arena, &mut one);
    let other = take(&rt, &first, &first_arena, &mut one);
    let own = take(&rt, &second, &second_arena, &mut two);
    two.hand.give(&second, object);
    let (totals, _) = closed(&rt, rt.alloc(), second, second_arena, two);
    holds(&rt, totals.missing + totals.frees == totals.allocs + totals.foreign);
    one.hand.give(&first, own);
    one.hand.give(&first, other);
    let (totals, _) = closed(&rt, rt.alloc(), first, first_arena, one);
    holds(&rt, totals.missing + totals.frees == totals.allocs + totals.foreign && totals.allocs == 2);
}

// How many have each slot, and how often a second one had.
#[derive(Drop)]
struct Holders {
    slots: Vec<AtomicU64>,
    twice: AtomicU64,
}

fn holders(alloc: Global) -> Result<Holders, AllocError> {
    let mut slots = Vec::with_capacity(alloc, 65_536)?;
    for _ in 0..65_536 {
        slots.push_reserved(AtomicU64::new(0));
    }
    Ok(Holders {
        slots,
        twice: AtomicU64::new(0),
    })
}

// One turn: takes so many objects, each with its image, and writes them.
fn take_some<K: Kind>(rt: &impl Abort, cache: &Cache<K>, arena: &SharedArena, holders: &Holders, worker: &mut Worker<K>, many: u64) {
    for _ in 0..many {
        match worker.hand.take(cache, arena, &mut worker.pages, PAUSES) {
            Ok(mut object) => {
                holds(rt, object.bytes()[0] == K::FILL);
                object.write(0, &[1]);
                if holders.slots[object.slot() as usize].swap(1, Ordering::SeqCst) != 0 {
                    holders.twice.fetch_add(1, Ordering::SeqCst);
                }
                worker.taken += 1;
                worker.out.push_reserved(object);
            }
            Err(TakeFault::Busy) => worker.busy += 1,
            Err(_) => worker.nulls += 1,
        }
    }
}

// Gives all back.
fn give_some<K: Kind>(cache: &Cache<K>, holders: &Holders, worker: &mut Worker<K>) {
    while let Some(object) = worker.out.pop() {
        holders.slots[object.slot() as usize].store(0, Ordering::SeqCst);
        worker.hand.give(cache, object);
    }
}

// The turns of a worker. The first one reaps beside them.
fn work<K: Kind>(rt: &impl Abort, cache: &Cache<K>, arena: &SharedArena, holders: &Holders, worker: &mut Worker<K>, turns: u64) {
    for turn in 0..turns {
        let many = (turn * 7 + worker.number * 5) % 30 + 1;
        take_some(rt, cache, arena, holders, worker, many);
        give_some(cache, holders, worker);
        if worker.number == 0 && turn % 50 == 0 {
            let _ = worker.hand.flush(cache, PAUSES);
            let _ = cache.reap(&mut worker.hand, arena, &mut worker.pages, PAUSES);
        }
    }
}

// What workers counted, with their hands and passes.
struct Counted<K: Kind> {
    hands: Vec<Hand<K>>,
    passes: Vec<ArenaPass>,
    taken: u64,
    nulls: u64,
    busy: u64,
}

fn counted<K: Kind>(mut workers: Vec<Worker<K>>, mut hands: Vec<Hand<K>>, mut passes: Vec<ArenaPass>) -> Counted<K> {
    let (mut all_taken, mut all_nulls, mut all_busy) = (0, 0, 0);
    while let Some(worker) = workers.pop() {
        let Worker {
            hand,
            pages,
            out,
            number: _,
            taken,
            nulls,
            busy,
        } = worker;
        out.destroy_empty();
        hands.push_reserved(hand);
        passes.push_reserved(pages);
        all_taken += taken;
        all_nulls += nulls;
        all_busy += busy;
    }
    workers.destroy_empty();
    Counted {
        hands,
        passes,
        taken: all_taken,
        nulls: all_nulls,
        busy: all_busy,
    }
}

// This many threads, each with this many turns, over this many pages.
fn crowd<K: Kind + Send + Sync, R: Threads + Abort + Sync>(rt: &R, alloc: Global, threads: u32, turns: u64, pages: u32) -> Result<(), AllocError> {
    let holders = holders(alloc)?;
    let (cache, mut hands) = Cache::<K>::new(alloc, threads)?;
    let (arena, mut passes) = shared(rt, alloc, pages, threads)?;
    let mut workers = Vec::with_capacity(alloc, threads as usize)?;
    while let Some(hand) = hands.pop() {
        let Some(pages) = passes.pop() else {
            panic!(rt; "a pass for each hand");
        };
        workers.push_reserved(worker(rt, alloc, hand, pages, hands.len() as u64, 30));
    }
    let count = workers.len();
    for_each_mut(rt, workers.as_mut_slice(), count, &|_, worker| work(rt, &cache, &arena, &holders, worker, turns));
    holds(rt, holders.twice.load(Ordering::SeqCst) == 0);
    let Counted {
        hands,
        mut passes,
        taken,
        nulls,
        busy,
    } = counted(workers, hands, passes);
    let Some(pass) = passes.last_mut() else {
        panic!(rt; "there are passes");
    };
    let totals = cache.close(hands, None, &arena, pass, PAUSES);
    holds(rt, totals.allocs == taken && totals.frees == taken && totals.nulls == nulls && totals.busy == busy);
    holds(rt, totals.missing == 0 && totals.foreign == 0 && nulls == 0);
    holds(rt, arena.close(passes).largest() == pages);
    Ok(())
}

#[test]
fn four_threads_take_and_give_cells(rt: HostRuntime) -> Result<(), AllocError> {
    crowd::<CellKind, _>(&rt, rt.alloc(), 4, 20_000, 16)
}

#[test]
fn four_threads_take_and_give_blocks(rt: HostRuntime) -> Result<(), AllocError> {
    crowd::<BlockKind, _>(&rt, rt.alloc(), 4, 5_000, 256)
}

#[test]
fn sixteen_threads_take_and_give_records(rt: HostRuntime) -> Result<(), AllocError> {
    crowd::<RecordKind, _>(&rt, rt.alloc(), 16, 2_000, 256)
}
