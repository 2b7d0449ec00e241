//! Objects that one hand of a cache leaves to another, in a parcel on a shelf or by itself.

use crate::caches::shared;
use crate::facts::holds;
use exchange_shelf::Shelf;
use shared_cache::{ArenaPass, Cache, Hand, MOST_LENT, PAUSES, Parcel, SharedArena, Totals};
use slab_layer::{CellKind, Held, Obj};
use std::alloc::{AllocError, Global};
use std::process::Abort;

// Two hands of a cache, with one pass to the arena for both.
struct Pair {
    cache: Cache<CellKind>,
    arena: SharedArena,
    first: Hand<CellKind>,
    second: Hand<CellKind>,
    pages: ArenaPass,
}

fn pair(rt: &impl Abort, alloc: Global) -> Pair {
    let (Ok((cache, mut hands)), Ok((arena, mut passes))) = (Cache::new(alloc, 2), shared(rt, alloc, 4, 1)) else {
        panic!(rt; "no memory");
    };
    let (Some(second), Some(first), Some(pages)) = (hands.pop(), hands.pop(), passes.pop()) else {
        panic!(rt; "two hands and a pass");
    };
    Pair {
        cache,
        arena,
        first,
        second,
        pages,
    }
}

impl Pair {
    // An object that the first hand lends.
    fn take(&mut self, rt: &impl Abort) -> Obj<CellKind, Held> {
        match self.first.take(&self.cache, &self.arena, &mut self.pages, PAUSES) {
            Ok(object) => object,
            Err(_) => panic!(rt; "an object is there"),
        }
    }

    // Ends the cache with both hands, and with an object that neither is to give back, if there is one.
    fn closed(self, rt: &impl Abort, alloc: Global, last: Option<Obj<CellKind, Held>>) -> Totals {
        let Pair {
            cache,
            arena,
            first,
            second,
            mut pages,
        } = self;
        let Ok(hands) = vec![in alloc; first, second] else {
            panic!(rt; "no memory");
        };
        let totals = cache.close(hands, last, &arena, &mut pages, PAUSES);
        holds(rt, totals.missing + totals.frees == totals.allocs + totals.foreign);
        totals
    }
}

#[test]
fn a_hand_gives_back_what_another_lent(rt: HostRuntime) {
    let mut pair = pair(&rt, rt.alloc());
    let object = pair.take(&rt);
    pair.first.pass_on();
    holds(&rt, pair.second.can_adopt() && pair.second.adopt());
    pair.second.give(&pair.cache, object);
    let totals = pair.closed(&rt, rt.alloc(), None);
    holds(&rt, totals.allocs == 1 && totals.frees == 1 && totals.missing == 0 && totals.foreign == 0);
}

#[test]
fn a_hand_adopts_as_much_as_it_may_lend(rt: HostRuntime) {
    let mut pair = pair(&rt, rt.alloc());
    let Ok(mut out) = Vec::with_capacity(rt.alloc(), MOST_LENT as usize) else {
        panic!(&rt; "no memory");
    };
    for _ in 0..MOST_LENT {
        let object = pair.take(&rt);
        out.push_reserved(object);
        pair.first.pass_on();
        holds(&rt, pair.second.adopt());
    }
    holds(&rt, !pair.second.can_adopt() && !pair.second.adopt());
    // The first hand has left all to the second one, so it may lend again.
    holds(&rt, pair.first.can_adopt());
    while let Some(object) = out.pop() {
        pair.second.give(&pair.cache, object);
    }
    out.destroy_empty();
    holds(&rt, pair.second.flush(&pair.cache, PAUSES) && pair.second.can_adopt());
    let totals = pair.closed(&rt, rt.alloc(), None);
    holds(&rt, totals.allocs == MOST_LENT && totals.frees == MOST_LENT && totals.missing == 0 && totals.foreign == 0);
}

#[test]
fn an_object_goes_over_a_shelf_in_a_parcel(rt: HostRuntime) -> Result<(), AllocError> {
    let (shelf, mut shelf_hands) = Shelf::new(rt.alloc(), 2)?;
    let mut pair = pair(&rt, rt.alloc());
    let mut object = pair.take(&rt);
    object.write(0, &[7]);
    let slot = object.slot();
    pair.first.pass_on();
    holds(&rt, shelf.swap(&mut shelf_hands[0], Some(Parcel::new(rt.alloc(), object))).is_none());
    match shelf.swap(&mut shelf_hands[1], None) {
        Some(parcel) => {
            let object = parcel.open();
            holds(&rt, object.slot() == slot && object.bytes()[0] == 7);
            holds(&rt, pair.second.adopt());
            pair.second.give(&pair.cache, object);
        }
        None => panic!(&rt; "the parcel is there"),
    }
    let left = shelf.close(shelf_hands);
    holds(&rt, left.object.is_none() && left.puts == 1 && left.gets == 1);
    let totals = pair.closed(&rt, rt.alloc(), None);
    holds(&rt, totals.allocs == 1 && totals.frees == 1 && totals.missing == 0 && totals.foreign == 0);
    Ok(())
}

#[test]
fn what_is_left_on_a_shelf_comes_back_last(rt: HostRuntime) -> Result<(), AllocError> {
    let (shelf, mut shelf_hands) = Shelf::new(rt.alloc(), 1)?;
    let mut pair = pair(&rt, rt.alloc());
    let object = pair.take(&rt);
    pair.first.pass_on();
    holds(&rt, shelf.swap(&mut shelf_hands[0], Some(Parcel::new(rt.alloc(), object))).is_none());
    let last = match shelf.close(shelf_hands).object {
        Some(parcel) => Some(parcel.open()),
        None => panic!(&rt; "the parcel is there"),
    };
    let totals = pair.closed(&rt, rt.alloc(), last);
    holds(&rt, totals.allocs == 1 && totals.frees == 1 && totals.missing == 0 && totals.foreign == 0);
    Ok(())
}

#[test]
fn an_object_in_a_parcel_that_is_dropped_is_missing(rt: HostRuntime) -> Result<(), AllocError> {
    let (shelf, mut shelf_hands) = Shelf::new(rt.alloc(), 1)?;
    let mut pair = pair(&rt, rt.alloc());
    let object = pair.take(&rt);
    pair.first.pass_on();
    drop(Parcel::new(rt.alloc(), object));
    // One goes with its shelf too.
    let object = pair.take(&rt);
    pair.first.pass_on();
    holds(&rt, shelf.swap(&mut shelf_hands[0], Some(Parcel::new(rt.alloc(), object))).is_none());
    drop(shelf);
    drop(shelf_hands);
    let totals = pair.closed(&rt, rt.alloc(), None);
    holds(&rt, totals.allocs == 2 && totals.frees == 0 && totals.missing == 2 && totals.foreign == 0);
    Ok(())
}

#[test]
fn a_last_object_of_another_cache_is_foreign(rt: HostRuntime) {
    let mut one = pair(&rt, rt.alloc());
    let other = pair(&rt, rt.alloc());
    let object = one.take(&rt);
    one.first.pass_on();
    let totals = other.closed(&rt, rt.alloc(), Some(object));
    holds(&rt, totals.allocs == 0 && totals.frees == 1 && totals.foreign == 1);
    let totals = one.closed(&rt, rt.alloc(), None);
    holds(&rt, totals.allocs == 1 && totals.frees == 0 && totals.missing == 1);
}
