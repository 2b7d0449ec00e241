//! Cells that many threads hand to one another over a shelf.

use crate::facts::holds;
use object_cache::{ArenaLock, Cache, Hand, Left, Shelf, ShelfHand};
use slab_layer::{CellKind, Held, Obj};
use std::alloc::Global;
use std::marker::Brand;
use std::process::Abort;
use std::sync::Wait;
use std::sync::ledger::{Blank, Ledger};
use std::thread::{Threads, for_each_mut};

// What a thread trades with, and the number in the cell that it has, if it has one: a bit of its own for each thread.
struct Trader<A: Ledger, B: Ledger, C: Ledger, D: Ledger> {
    hand: Hand<CellKind, A, B>,
    desk: ShelfHand<C, D>,
    number: u64,
}

// The number in a cell, which is there twice.
fn number_in(rt: &impl Abort, cell: &Obj<CellKind, Held>) -> u64 {
    let bytes = cell.bytes();
    let mut first = [0; 8];
    let mut second = [0; 8];
    first.copy_from_slice(&bytes[0..8]);
    second.copy_from_slice(&bytes[8..16]);
    holds(rt, u64::from_le_bytes(first) == u64::from_le_bytes(second));
    u64::from_le_bytes(first)
}

// A cell with a number in it.
fn numbered<A: Ledger, B: Ledger, R: Wait + Abort>(
    rt: &R,
    cache: &Cache<CellKind, A, B>,
    arena: &ArenaLock,
    hand: &mut Hand<CellKind, A, B>,
    number: u64,
) -> Obj<CellKind, Held> {
    let Ok(mut cell) = hand.take(rt, cache, arena) else {
        panic!(rt; "no object");
    };
    cell.write(0, &number.to_le_bytes());
    cell.write(8, &number.to_le_bytes());
    cell
}

// This many exchanges of a cell with this thread's number for what is there, and then for that. The number is that of the cell that
// the thread has at the end, or 0 if it has none.
fn trade<A: Ledger, B: Ledger, C: Ledger, D: Ledger, R: Wait + Abort>(
    rt: &R,
    cache: &Cache<CellKind, A, B>,
    arena: &ArenaLock,
    shelf: &Shelf<CellKind, C, D>,
    trader: &mut Trader<A, B, C, D>,
    turns: u32,
) {
    let cell = numbered(rt, cache, arena, &mut trader.hand, trader.number);
    let mut own = shelf.swap(rt, &mut trader.desk, Some(cell));
    for _ in 1..turns {
        if let Some(cell) = &own {
            number_in(rt, cell);
        }
        own = shelf.swap(rt, &mut trader.desk, own);
    }
    trader.number = match own {
        Some(cell) => {
            let number = number_in(rt, &cell);
            trader.hand.give(rt, cache, cell);
            number
        }
        None => 0,
    };
}

// The traders, each on a thread of its own.
fn team<
    A: Ledger + Send + Sync,
    B: Ledger + Send + Sync,
    C: Ledger + Send + Sync,
    D: Ledger + Send + Sync,
    R: Threads + Wait + Abort + Sync,
>(
    rt: &R,
    cache: &Cache<CellKind, A, B>,
    arena: &ArenaLock,
    shelf: &Shelf<CellKind, C, D>,
    turns: &u32,
    traders: &mut [Trader<A, B, C, D>],
) {
    let count = traders.len();
    for_each_mut(
        rt,
        traders,
        count,
        &|_, trader| { trade(rt, cache, arena, shelf, trader, *turns) },
    );
}

// This many traders, each with a bit of its own.
fn traders_of<A: Ledger, B: Ledger, C: Ledger, D: Ledger>(
    rt: &impl Abort,
    alloc: Global,
    cache: &mut Cache<CellKind, A, B>,
    shelf: &mut Shelf<CellKind, C, D>,
    count: u32,
) -> Vec<Trader<A, B, C, D>> {
    let Ok(mut traders) = Vec::with_capacity(alloc, count as usize) else {
        panic!(rt; "no memory");
    };
    for place in 0..count {
        let Ok(hand) = cache.hand(alloc) else {
            panic!(rt; "no memory");
        };
        let desk = shelf.hand();
        traders.push_reserved(Trader {
            hand,
            desk,
            number: 1 << place,
        });
    }
    traders
}

// What traders had at the end: their hands of the cache and of the shelf, all their bits together, and how many had a cell.
struct Counted<A: Ledger, B: Ledger, C: Ledger, D: Ledger> {
    hands: Vec<Hand<CellKind, A, B>>,
    desks: Vec<ShelfHand<C, D>>,
    bits: u64,
    holders: u32,
}

fn add_up<A: Ledger, B: Ledger, C: Ledger, D: Ledger>(
    rt: &impl Abort,
    alloc: Global,
    mut traders: Vec<Trader<A, B, C, D>>,
) -> Counted<A, B, C, D> {
    let Ok(mut hands) = Vec::with_capacity(alloc, traders.len()) else {
        panic!(rt; "no memory");
    };
    let Ok(mut desks) = Vec::with_capacity(alloc, traders.len()) else {
        panic!(rt; "no memory");
    };
    let mut bits = 0;
    let mut holders = 0;
    while let Some(trader) = traders.pop() {
        let Trader { hand, desk, number } = trader;
        hands.push_reserved(hand);
        desks.push_reserved(desk);
        bits |= number;
        holders += u32::from(number != 0);
    }
    traders.destroy_empty();
    Counted {
        hands,
        desks,
        bits,
        holders,
    }
}

// This many traders exchange over one shelf, so often each. Each cell is with one of them then, or left there.
fn crowd<
    A: Ledger + Send + Sync,
    B: Ledger + Send + Sync,
    C: Ledger + Send + Sync,
    D: Ledger + Send + Sync,
    R: Threads + Wait + Abort + Sync,
>(
    rt: &R,
    alloc: Global,
    cache: Cache<CellKind, A, B>,
    shelf: Shelf<CellKind, C, D>,
    count: u32,
    turns: u32,
) {
    let mut cache = cache;
    let mut shelf = shelf;
    let Ok(arena) = ArenaLock::new(alloc, 16) else {
        panic!(rt; "no arena");
    };
    let mut traders = traders_of(rt, alloc, &mut cache, &mut shelf, count);
    team(rt, &cache, &arena, &shelf, &turns, traders.as_mut_slice());
    let Counted {
        mut hands,
        desks,
        bits,
        holders,
    } = add_up(rt, alloc, traders);
    let Left {
        object,
        puts,
        gets,
        misses: _,
    } = shelf.close(desks);
    let (left, last) = match object {
        Some(cell) => {
            let number = number_in(rt, &cell);
            hands.as_mut_slice()[0].give(rt, &cache, cell);
            (1, number)
        }
        None => (0, 0),
    };
    holds(rt, puts == gets + u64::from(left));
    holds(rt, bits | last == u64::MAX >> (64 - count));
    holds(rt, holders + left == count);
    let totals = cache.close(rt, hands, &arena);
    holds(rt, totals.allocs == u64::from(count) && totals.missing == 0);
}

// The same with new ledgers.
fn opened<
    A: Ledger + Send + Sync,
    B: Ledger + Send + Sync,
    C: Ledger + Send + Sync,
    D: Ledger + Send + Sync,
    R: Threads + Wait + Abort + Sync,
>(
    rt: &R,
    alloc: Global,
    cache_books: (Blank, Blank),
    shelf_books: (Blank, Blank),
    count: u32,
    turns: u32,
) {
    let (outs, ins) = cache_books;
    let (puts, gets) = shelf_books;
    let Ok(cache) = Cache::<CellKind, A, B>::new(alloc, outs, ins) else {
        panic!(rt; "no memory");
    };
    let shelf = Shelf::<CellKind, C, D>::new(puts, gets);
    crowd(rt, alloc, cache, shelf, count, turns);
}

// With this many threads, and this many exchanges by each.
fn exchange<R: Threads + Wait + Abort + Sync>(rt: &R, alloc: Global, count: u32, turns: u32) {
    opened::<Brand, Brand, Brand, Brand, R>(
        rt,
        alloc,
        (Blank::new(65), Blank::new(65)),
        (Blank::new(65), Blank::new(65)),
        count,
        turns,
    );
}

#[test]
fn two_threads_hand_cells_to_one_another(rt: HostRuntime) {
    exchange(&rt, rt.alloc(), 2, 500_000);
}

#[test]
fn four_threads_hand_cells_to_one_another(rt: HostRuntime) {
    exchange(&rt, rt.alloc(), 4, 250_000);
}

#[test]
fn sixty_four_threads_hand_cells_to_one_another(rt: HostRuntime) {
    exchange(&rt, rt.alloc(), 64, 15_625);
}
