//! Each public call of vmem_arena, slab_layer, magazine, owners_table and object_cache, made once, and each type with its variants and
//! fields.
//!
//! They are written only from the signatures, so a reader of these can see here how a call looks. What a call that allocates takes
//! first, after the runtime, is the allocator. If the signatures speak of want of memory, a result has the error `AllocError` of std.

use crate::facts::holds;
use magazine::{Depot, Layer, Magazine};
use object_cache::{ArenaLock, Cache, Hand, Left, Shelf, ShelfHand, TakeFault, Totals};
use owners_table::mark::{Mark, Owner};
use owners_table::owners::{Other, OwnerSeat, Owners, Taken};
use owners_table::tickets::{TicketSeat, Tickets};
use slab_layer::{BlockKind, CellKind, Held, Home, Kind, Obj, Ready, RecordKind, Slabs};
use std::alloc::{AllocError, Global};
use std::marker::Brand;
use std::process::Abort;
use std::sync::Wait;
use std::sync::ledger::{Blank, Ledger};
use vmem_arena::{Arena, ArenaFault, NoSpan, Span};

// vmem_arena

fn arena(rt: &impl Abort, alloc: Global, pages: u32) -> Arena {
    match Arena::new(alloc, pages) {
        Ok(arena) => arena,
        Err(ArenaFault::Pages) => panic!(rt; "an arena has 1 to 256 pages"),
        Err(ArenaFault::NoMemory) => panic!(rt; "no memory"),
    }
}

fn span(rt: &impl Abort, arena: &mut Arena, n: u32) -> Span {
    match arena.take(n) {
        Ok(span) => span,
        Err(NoSpan) => panic!(rt; "no pages"),
    }
}

#[test]
fn pages_are_taken_and_given(rt: HostRuntime) {
    holds(&rt, matches!(Arena::new(rt.alloc(), 0), Err(ArenaFault::Pages)));
    holds(&rt, matches!(Arena::new(rt.alloc(), 257), Err(ArenaFault::Pages)));
    let mut arena = arena(&rt, rt.alloc(), 4);
    holds(&rt, arena.largest() == 4);
    let first = span(&rt, &mut arena, 2);
    let second = span(&rt, &mut arena, 2);
    holds(&rt, first.len() == 2 && first.first() + second.first() == 2);
    holds(&rt, matches!(arena.take(1), Err(NoSpan)));
    holds(&rt, arena.give(first) && arena.largest() == 2);
    holds(&rt, arena.give(second) && arena.largest() == 4);
}

// slab_layer

#[test]
fn kinds_have_constants(rt: HostRuntime) {
    holds(&rt, CellKind::NUMBER == 0 && CellKind::SIZE == 16 && CellKind::FILL == 0 && CellKind::ROUNDS == 8);
    holds(&rt, RecordKind::NUMBER == 1 && RecordKind::SIZE == 64 && RecordKind::FILL == 0xff && RecordKind::ROUNDS == 4);
    holds(&rt, BlockKind::NUMBER == 2 && BlockKind::SIZE == 512 && BlockKind::FILL == 0x5a && BlockKind::ROUNDS == 2);
}

// An object of slabs in which one is at home.
fn home<K: Kind>(rt: &impl Abort, slabs: &mut Slabs<K>) -> Obj<K, Home> {
    match slabs.take() {
        Some(object) => object,
        None => panic!(rt; "no object is at home"),
    }
}

// Slabs with one page of the arena.
fn grown<K: Kind>(rt: &impl Abort, alloc: Global, arena: &mut Arena) -> Slabs<K> {
    let mut slabs = Slabs::<K>::new(alloc);
    let page = span(rt, arena, 1);
    if slabs.grow(page).is_err() {
        panic!(rt; "no memory");
    }
    slabs
}

#[test]
fn an_object_goes_through_its_states(rt: HostRuntime) {
    let mut arena = arena(&rt, rt.alloc(), 1);
    let mut slabs = grown::<BlockKind>(&rt, rt.alloc(), &mut arena);
    holds(&rt, slabs.has(0) && !slabs.has(1) && slabs.out() == 0);
    let object = home(&rt, &mut slabs);
    holds(&rt, object.slot() < 8 && slabs.out() == 1 && slabs.reap().is_none());
    let ready: Obj<BlockKind, Ready> = object.construct();
    let mut held: Obj<BlockKind, Held> = ready.hold();
    holds(&rt, held.bytes().len() == 512 && held.bytes().iter().all(|byte| *byte == 0x5a));
    held.write(510, &[1, 2]);
    holds(&rt, matches!(&held.bytes()[509..], [0x5a, 1, 2]));
    let again: Obj<BlockKind, Held> = held.restore().hold();
    holds(&rt, again.bytes().iter().all(|byte| *byte == 0x5a));
    let back: Obj<BlockKind, Home> = again.restore().retire();
    holds(&rt, slabs.give(back) && slabs.out() == 0);
    match slabs.reap() {
        Some(page) => holds(&rt, arena.give(page) && !slabs.has(0)),
        None => panic!(rt; "the slab has nothing out"),
    }
    slabs.end();
}

// magazine

// What a layer has no room for goes home.
fn goes_in(rt: &impl Abort, slabs: &mut Slabs<BlockKind>, layer: &mut Layer<BlockKind>) -> bool {
    let ready = home(rt, slabs).construct();
    match layer.try_give(ready) {
        Ok(()) => true,
        Err(back) => {
            holds(rt, slabs.give(back.retire()));
            false
        }
    }
}

// What comes out of a layer goes home.
fn comes_out(rt: &impl Abort, slabs: &mut Slabs<BlockKind>, layer: &mut Layer<BlockKind>) -> bool {
    match layer.try_take() {
        Some(ready) => {
            holds(rt, slabs.give(ready.retire()));
            true
        }
        None => false,
    }
}

// A depot with one empty magazine.
fn depot_of(rt: &impl Abort, alloc: Global) -> Depot<BlockKind> {
    let mut depot = Depot::new(alloc);
    let Ok(magazine) = Magazine::new(alloc) else {
        panic!(rt; "no memory");
    };
    if let Err(back) = depot.add_empty(magazine) {
        back.end();
        panic!(rt; "no memory");
    }
    depot
}

// A layer that was given four blocks, as many as it has room for, and gave two of them to the depot.
fn relieved(
    rt: &impl Abort,
    alloc: Global,
    slabs: &mut Slabs<BlockKind>,
    depot: &mut Depot<BlockKind>,
) -> Layer<BlockKind> {
    let Ok(mut layer) = Layer::new(alloc) else {
        panic!(rt; "no memory");
    };
    for _ in 0..4 {
        holds(rt, goes_in(rt, slabs, &mut layer));
    }
    holds(rt, !goes_in(rt, slabs, &mut layer) && slabs.out() == 4);
    holds(rt, layer.relieve(depot));
    layer
}

// Two blocks come out of the layer, and no third.
fn two_come_out(rt: &impl Abort, slabs: &mut Slabs<BlockKind>, layer: &mut Layer<BlockKind>) {
    for _ in 0..2 {
        holds(rt, comes_out(rt, slabs, layer));
    }
    holds(rt, !comes_out(rt, slabs, layer));
}

#[test]
fn a_layer_and_a_depot_exchange_magazines(rt: HostRuntime) {
    let alloc = rt.alloc();
    let mut arena = arena(&rt, alloc, 1);
    let mut slabs = grown::<BlockKind>(&rt, alloc, &mut arena);
    let mut depot = depot_of(&rt, alloc);
    let mut layer = relieved(&rt, alloc, &mut slabs, &mut depot);
    two_come_out(&rt, &mut slabs, &mut layer);
    holds(&rt, layer.refill(&mut depot));
    two_come_out(&rt, &mut slabs, &mut layer);
    holds(&rt, !layer.refill(&mut depot) && slabs.out() == 0);
    layer.end();
    depot.end();
    slabs.end();
}

#[test]
fn a_full_magazine_is_drained(rt: HostRuntime) {
    let alloc = rt.alloc();
    let mut arena = arena(&rt, alloc, 1);
    let mut slabs = grown::<BlockKind>(&rt, alloc, &mut arena);
    let mut depot = depot_of(&rt, alloc);
    let mut layer = relieved(&rt, alloc, &mut slabs, &mut depot);
    let Some(mut full) = depot.drain_full() else {
        panic!(rt; "no magazine is full");
    };
    for _ in 0..2 {
        match full.pop() {
            Some(ready) => holds(&rt, slabs.give(ready.retire())),
            None => panic!(rt; "a magazine has two blocks"),
        }
    }
    full.end();
    two_come_out(&rt, &mut slabs, &mut layer);
    holds(&rt, slabs.out() == 0);
    layer.end();
    depot.end();
    slabs.end();
}

// owners_table

// The next of the seats that a table was made with.
fn next<S>(rt: &impl Abort, seats: &mut Vec<S>) -> S {
    match seats.pop() {
        Some(seat) => seat,
        None => panic!(rt; "a seat is missing"),
    }
}

// That a slot has an owner, which is this run by this call.
fn is_of_run(owner: Option<Owner>, wanted: Mark) -> bool {
    matches!(owner, Some(Owner::Run(Mark { run, at })) if run == wanted.run && at == wanted.at)
}

#[test]
fn a_slot_has_one_owner(rt: HostRuntime) -> Result<(), AllocError> {
    let (owners, mut seats): (Owners, Vec<OwnerSeat>) = Owners::new(rt.alloc(), 4, 2)?;
    let mut b = next(&rt, &mut seats);
    let mut a = next(&rt, &mut seats);
    seats.destroy_empty();
    let (first, second) = (Mark { run: 0, at: 1 }, Mark { run: 5, at: 2 });
    holds(&rt, owners.claim(&mut a, 3, first).is_ok());
    match owners.claim(&mut b, 3, first) {
        Ok(()) => panic!(rt; "the slot has an owner"),
        Err(Taken { owner }) => holds(&rt, is_of_run(Some(owner), first)),
    }
    match owners.fetch(&mut b, 3, 2, second) {
        Ok(()) => panic!(rt; "the slot is on no shelf"),
        Err(Other { found }) => holds(&rt, is_of_run(found, first)),
    }
    owners.release(&mut a, 3);
    holds(&rt, matches!(owners.fetch(&mut b, 3, 2, second), Err(Other { found: None })));
    holds(&rt, owners.claim(&mut b, 3, second).is_ok());
    holds(&rt, owners.claim(&mut a, 1, first).is_ok());
    owners.shelve(&mut a, 1, 2);
    holds(&rt, matches!(owners.claim(&mut b, 1, second), Err(Taken { owner: Owner::Shelf(2) })));
    holds(&rt, owners.fetch(&mut a, 1, 2, first).is_ok());
    owners.shelve(&mut a, 1, 7);
    let (a, b) = owners.meet(a, b);
    let words = owners.close(rt.alloc(), vec![in rt.alloc(); a, b]?)?;
    holds(&rt, matches!(words.as_slice(), [0, 8, 0, 24578]));
    Ok(())
}

#[test]
fn tickets_are_drawn_once(rt: HostRuntime) -> Result<(), AllocError> {
    let (tickets, mut seats): (Tickets, Vec<TicketSeat>) = Tickets::new(rt.alloc(), 3, 1)?;
    let mut seat = next(&rt, &mut seats);
    seats.destroy_empty();
    holds(&rt, tickets.draw(&mut seat) == Some(0));
    holds(&rt, tickets.draw(&mut seat) == Some(1));
    holds(&rt, tickets.draw(&mut seat) == Some(2));
    holds(&rt, tickets.draw(&mut seat).is_none());
    holds(&rt, tickets.draw(&mut seat).is_none());
    tickets.close(vec![in rt.alloc(); seat]?);
    Ok(())
}

// object_cache

// A cell that a hand takes, if there is one.
fn taken<A: Ledger, B: Ledger, R: Wait + Abort>(
    rt: &R,
    cache: &Cache<CellKind, A, B>,
    arena: &ArenaLock,
    hand: &mut Hand<CellKind, A, B>,
) -> Obj<CellKind, Held> {
    match hand.take(rt, cache, arena) {
        Ok(object) => object,
        Err(TakeFault::NoSpan) => panic!(rt; "no page is free"),
        Err(TakeFault::NoMemory) => panic!(rt; "no memory"),
    }
}

// One hand takes a cell, writes to it and gives it back.
fn used<A: Ledger, B: Ledger, R: Wait + Abort>(rt: &R, alloc: Global, outs: Blank, ins: Blank) {
    let Ok(arena) = ArenaLock::new(alloc, 1) else {
        panic!(rt; "no memory");
    };
    let Ok(mut cache) = Cache::<CellKind, A, B>::new(alloc, outs, ins) else {
        panic!(rt; "no memory");
    };
    let Ok(mut hand) = cache.hand(alloc) else {
        panic!(rt; "no memory");
    };
    let mut object = taken(rt, &cache, &arena, &mut hand);
    object.write(0, &[5]);
    holds(rt, cache.out(rt) == 1 && object.bytes()[0] == 5);
    hand.give(rt, &cache, object);
    holds(rt, cache.reap_pass(rt, &arena) == 0);
    hand.flush(rt, &cache);
    holds(rt, cache.out(rt) == 0 && cache.reap_pass(rt, &arena) == 1);
    let hands = match vec![in alloc; hand] {
        Ok(hands) => hands,
        Err(_) => panic!(rt; "no memory"),
    };
    let Totals { allocs, frees, nulls, missing, foreign, .. } = cache.close(rt, hands, &arena);
    holds(rt, allocs == 1 && frees == 1 && nulls == 0 && missing == 0 && foreign == 0);
}

#[test]
fn a_hand_takes_an_object_and_gives_it(rt: HostRuntime) {
    used::<Brand, Brand, HostRuntime>(&rt, rt.alloc(), Blank::new(65), Blank::new(65));
}

// A hand's cell is put on a shelf, got from there, and put there again, where it is left.
fn shelved<A: Ledger, B: Ledger, C: Ledger, D: Ledger, R: Wait + Abort>(
    rt: &R,
    alloc: Global,
    cache: Cache<CellKind, A, B>,
    mut shelf: Shelf<CellKind, C, D>,
) {
    let Ok(arena) = ArenaLock::new(alloc, 1) else {
        panic!(rt; "no memory");
    };
    let mut cache = cache;
    let Ok(mut hand) = cache.hand(alloc) else {
        panic!(rt; "no memory");
    };
    let mut shelf_hand: ShelfHand<C, D> = shelf.hand();
    let object = taken(rt, &cache, &arena, &mut hand);
    let none = shelf.swap(rt, &mut shelf_hand, Some(object));
    holds(rt, none.is_none());
    let got = shelf.swap(rt, &mut shelf_hand, none);
    holds(rt, got.is_some());
    let none = shelf.swap(rt, &mut shelf_hand, got);
    holds(rt, none.is_none());
    is_none(rt, none);
    let shelf_hands = match vec![in alloc; shelf_hand] {
        Ok(hands) => hands,
        Err(_) => panic!(rt; "no memory"),
    };
    let Left {
        object,
        puts,
        gets,
        misses,
    } = shelf.close(shelf_hands);
    holds(rt, puts == 2 && gets == 1);
    holds(rt, misses == 1);
    match object {
        Some(left) => hand.give(rt, &cache, left),
        None => panic!(rt; "an object is left"),
    }
    let hands = match vec![in alloc; hand] {
        Ok(hands) => hands,
        Err(_) => panic!(rt; "no memory"),
    };
    holds(rt, cache.close(rt, hands, &arena).frees == 1);
}

// There is no object.
fn is_none(rt: &impl Abort, object: Option<Obj<CellKind, Held>>) {
    if let Some(_object) = object {
        panic!(rt; "an object is there");
    }
}

// The same with new ledgers.
fn opened<A: Ledger, B: Ledger, C: Ledger, D: Ledger, R: Wait + Abort>(rt: &R, alloc: Global) {
    let Ok(cache) = Cache::<CellKind, A, B>::new(alloc, Blank::new(65), Blank::new(65)) else {
        panic!(rt; "no memory");
    };
    let shelf = Shelf::<CellKind, C, D>::new(Blank::new(65), Blank::new(65));
    shelved(rt, alloc, cache, shelf);
}

#[test]
fn a_shelf_keeps_one_object(rt: HostRuntime) {
    opened::<Brand, Brand, Brand, Brand, HostRuntime>(&rt, rt.alloc());
}
