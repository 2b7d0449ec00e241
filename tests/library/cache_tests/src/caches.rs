//! Objects that go through caches, by one hand and by many on threads side by side.

use crate::facts::holds;
use object_cache::{ArenaLock, Cache, Hand, TakeFault, Totals};
use slab_layer::{BlockKind, CellKind, Held, Kind, Obj};
use std::alloc::Global;
use std::marker::Brand;
use std::process::Abort;
use std::sync::Wait;
use std::sync::ledger::{Blank, Ledger};
use std::thread::{Threads, for_each_mut, join_mut};

fn arena_of(rt: &impl Abort, alloc: Global, pages: u32) -> ArenaLock {
    match ArenaLock::new(alloc, pages) {
        Ok(arena) => arena,
        Err(_) => panic!(rt; "no arena"),
    }
}

fn cache_of<K: Kind, A: Ledger, B: Ledger>(
    rt: &impl Abort,
    alloc: Global,
    outs: Blank,
    ins: Blank,
) -> Cache<K, A, B> {
    match Cache::new(alloc, outs, ins) {
        Ok(cache) => cache,
        Err(_) => panic!(rt; "no memory"),
    }
}

// This many hands of a cache that made none.
fn hands_of<K: Kind, A: Ledger, B: Ledger>(
    rt: &impl Abort,
    alloc: Global,
    cache: &mut Cache<K, A, B>,
    count: u32,
) -> Vec<Hand<K, A, B>> {
    let Ok(mut hands) = Vec::with_capacity(alloc, count as usize) else {
        panic!(rt; "no memory");
    };
    for _i in 0..count {
        let Ok(hand) = cache.hand(alloc) else {
            panic!(rt; "no memory");
        };
        hands.push_reserved(hand);
    }
    hands
}

// Takes this many objects, each of which is there.
fn take_all<K: Kind, A: Ledger, B: Ledger, R: Wait + Abort>(
    rt: &R,
    cache: &Cache<K, A, B>,
    arena: &ArenaLock,
    hand: &mut Hand<K, A, B>,
    held: &mut Vec<Obj<K, Held>>,
    count: u32,
) {
    for _ in 0..count {
        let Ok(object) = hand.take(rt, cache, arena) else {
            panic!(rt; "no object");
        };
        if let Err(failed) = held.push(object) {
            hand.give(rt, cache, failed.value);
            panic!(rt; "no memory");
        }
    }
}

// Gives all of them back.
fn give_all<K: Kind, A: Ledger, B: Ledger, R: Wait>(
    rt: &R,
    cache: &Cache<K, A, B>,
    hand: &mut Hand<K, A, B>,
    held: &mut Vec<Obj<K, Held>>,
) {
    while let Some(object) = held.pop() {
        hand.give(rt, cache, object);
    }
}

// The next take finds no page.
fn is_refused<K: Kind, A: Ledger, B: Ledger, R: Wait>(
    rt: &R,
    cache: &Cache<K, A, B>,
    arena: &ArenaLock,
    hand: &mut Hand<K, A, B>,
) -> bool {
    match hand.take(rt, cache, arena) {
        Ok(object) => {
            hand.give(rt, cache, object);
            false
        }
        Err(fault) => matches!(fault, TakeFault::NoSpan),
    }
}

// The totals are these, and nothing is missing or foreign.
fn are(totals: Totals, allocs: u64, frees: u64, nulls: u64) -> bool {
    totals.allocs == allocs
        && totals.frees == frees
        && totals.nulls == nulls
        && totals.missing == 0
        && totals.foreign == 0
}

// One hand takes 17 cells and gives them back: 16 are in its layer or in the depot, and one in a new magazine.
fn seventeen<A: Ledger, B: Ledger, R: Wait + Abort>(
    rt: &R,
    alloc: Global,
    outs: Blank,
    ins: Blank,
) {
    let arena = arena_of(rt, alloc, 4);
    let mut cache = cache_of::<CellKind, A, B>(rt, alloc, outs, ins);
    let mut hands = hands_of(rt, alloc, &mut cache, 1);
    let mut held = Vec::new(alloc);
    let hand = &mut hands[0];
    take_all(rt, &cache, &arena, hand, &mut held, 17);
    holds(rt, cache.out(rt) == 17);
    give_all(rt, &cache, hand, &mut held);
    held.destroy_empty();
    holds(rt, cache.out(rt) == 17);
    holds(rt, cache.reap_pass(rt, &arena) == 0 && cache.out(rt) == 9);
    hand.flush(rt, &cache);
    holds(rt, cache.reap_pass(rt, &arena) == 1 && cache.out(rt) == 0);
    holds(rt, are(cache.close(rt, hands, &arena), 17, 17, 0));
}

#[test]
fn cells_go_out_and_back_by_one_hand(rt: HostRuntime) {
    seventeen::<Brand, Brand, HostRuntime>(&rt, rt.alloc(), Blank::new(65), Blank::new(65));
}

// Each hand takes 17 objects, each of which is there.
fn take_each<K: Kind, A: Ledger, B: Ledger, R: Wait + Abort>(
    rt: &R,
    cache: &Cache<K, A, B>,
    arena: &ArenaLock,
    hands: &mut [Hand<K, A, B>],
    held: &mut Vec<Obj<K, Held>>,
) {
    for hand in hands {
        take_all(rt, cache, arena, hand, held, 17);
    }
}

// Each hand gives 17 of them back.
fn give_each<K: Kind, A: Ledger, B: Ledger, R: Wait>(
    rt: &R,
    cache: &Cache<K, A, B>,
    hands: &mut [Hand<K, A, B>],
    held: &mut Vec<Obj<K, Held>>,
) {
    for hand in hands {
        for _ in 0..17u32 {
            if let Some(object) = held.pop() {
                hand.give(rt, cache, object);
            }
        }
    }
}

// This many hands more.
fn more_hands<K: Kind, A: Ledger, B: Ledger>(
    rt: &impl Abort,
    alloc: Global,
    cache: &mut Cache<K, A, B>,
    hands: &mut Vec<Hand<K, A, B>>,
    count: u32,
) {
    if hands.reserve(count as usize).is_err() {
        panic!(rt; "no memory");
    }
    for _i in 0..count {
        let Ok(hand) = cache.hand(alloc) else {
            panic!(rt; "no memory");
        };
        hands.push_reserved(hand);
    }
}

// Of 64 hands 32 have each put a full magazine into their part of the depot, and a pass empties all of these. They do so again,
// and then the others are made: a part goes with each of them, and no round is lost.
fn halves<A: Ledger, B: Ledger, R: Wait + Abort>(rt: &R, alloc: Global, outs: Blank, ins: Blank) {
    let arena = arena_of(rt, alloc, 4);
    let mut cache = cache_of::<CellKind, A, B>(rt, alloc, outs, ins);
    let mut hands = hands_of(rt, alloc, &mut cache, 32);
    let mut held = Vec::new(alloc);
    take_each(rt, &cache, &arena, hands.as_mut_slice(), &mut held);
    give_each(rt, &cache, hands.as_mut_slice(), &mut held);
    holds(rt, cache.out(rt) == 544 && held.is_empty());
    holds(rt, cache.reap_pass(rt, &arena) == 0 && cache.out(rt) == 288);
    take_each(rt, &cache, &arena, hands.as_mut_slice(), &mut held);
    give_each(rt, &cache, hands.as_mut_slice(), &mut held);
    give_all(rt, &cache, &mut hands[0], &mut held);
    held.destroy_empty();
    more_hands(rt, alloc, &mut cache, &mut hands, 32);
    holds(rt, cache.out(rt) == 544);
    holds(rt, cache.reap_pass(rt, &arena) == 0 && cache.out(rt) == 288);
    holds(rt, are(cache.close(rt, hands, &arena), 1_088, 1_088, 0));
}

#[test]
fn a_pass_empties_each_part_and_late_hands_take_no_round_away(rt: HostRuntime) {
    halves::<Brand, Brand, HostRuntime>(&rt, rt.alloc(), Blank::new(65), Blank::new(65));
}

// One hand takes the 8 blocks of the one page, gives them back and takes them again.
fn eight<A: Ledger, B: Ledger, R: Wait + Abort>(rt: &R, alloc: Global, outs: Blank, ins: Blank) {
    let arena = arena_of(rt, alloc, 1);
    let mut cache = cache_of::<BlockKind, A, B>(rt, alloc, outs, ins);
    let mut hands = hands_of(rt, alloc, &mut cache, 1);
    let mut held = Vec::new(alloc);
    let hand = &mut hands[0];
    take_all(rt, &cache, &arena, hand, &mut held, 8);
    give_all(rt, &cache, hand, &mut held);
    take_all(rt, &cache, &arena, hand, &mut held, 8);
    holds(rt, is_refused(rt, &cache, &arena, hand));
    give_all(rt, &cache, hand, &mut held);
    held.destroy_empty();
    holds(rt, are(cache.close(rt, hands, &arena), 16, 16, 1));
}

#[test]
fn a_page_of_blocks_is_found_again_in_the_depot(rt: HostRuntime) {
    eight::<Brand, Brand, HostRuntime>(&rt, rt.alloc(), Blank::new(65), Blank::new(65));
}

// A hand takes the 8 blocks of the one page and gives them back: 4 are in its layer, and 4 in its part of the depot, where
// another hand finds only these, a whole magazine at a time.
fn found<A: Ledger, B: Ledger, R: Wait + Abort>(
    rt: &R,
    cache: &Cache<BlockKind, A, B>,
    arena: &ArenaLock,
    hands: &mut [Hand<BlockKind, A, B>],
    held: &mut Vec<Obj<BlockKind, Held>>,
    giver: usize,
    taker: usize,
) {
    take_all(rt, cache, arena, &mut hands[giver], held, 8);
    give_all(rt, cache, &mut hands[giver], held);
    take_all(rt, cache, arena, &mut hands[taker], held, 1);
    holds(rt, cache.out(rt) == 8);
    take_all(rt, cache, arena, &mut hands[taker], held, 3);
    holds(rt, is_refused(rt, cache, arena, &mut hands[taker]));
    give_all(rt, cache, &mut hands[taker], held);
    hands[giver].flush(rt, cache);
    hands[taker].flush(rt, cache);
    holds(rt, cache.out(rt) == 0);
}

// The first of three hands gives and the last one takes, and then the other way round.
fn others<A: Ledger, B: Ledger, R: Wait + Abort>(rt: &R, alloc: Global, outs: Blank, ins: Blank) {
    let arena = arena_of(rt, alloc, 1);
    let mut cache = cache_of::<BlockKind, A, B>(rt, alloc, outs, ins);
    let mut hands = hands_of(rt, alloc, &mut cache, 3);
    let mut held = Vec::new(alloc);
    found(rt, &cache, &arena, hands.as_mut_slice(), &mut held, 0, 2);
    found(rt, &cache, &arena, hands.as_mut_slice(), &mut held, 2, 0);
    held.destroy_empty();
    holds(rt, are(cache.close(rt, hands, &arena), 24, 24, 2));
}

#[test]
fn blocks_that_another_hand_gave_are_found_in_its_part_of_the_depot(rt: HostRuntime) {
    others::<Brand, Brand, HostRuntime>(&rt, rt.alloc(), Blank::new(65), Blank::new(65));
}

// An object of the first cache is given to the second one, which has the other page of the arena. Once the second one is closed,
// the first finds that page.
fn strayed<A: Ledger, B: Ledger, C: Ledger, D: Ledger, R: Wait + Abort>(
    rt: &R,
    alloc: Global,
    outs: Blank,
    ins: Blank,
    other_outs: Blank,
    other_ins: Blank,
) {
    let arena = arena_of(rt, alloc, 2);
    let mut here = cache_of::<BlockKind, A, B>(rt, alloc, outs, ins);
    let mut there = cache_of::<BlockKind, C, D>(rt, alloc, other_outs, other_ins);
    let mut hands = hands_of(rt, alloc, &mut here, 1);
    let mut others = hands_of(rt, alloc, &mut there, 1);
    let mut held = Vec::new(alloc);
    take_all(rt, &there, &arena, &mut others[0], &mut held, 1);
    match hands[0].take(rt, &here, &arena) {
        Ok(object) => others[0].give(rt, &there, object),
        Err(_) => panic!(rt; "no object"),
    }
    give_all(rt, &there, &mut others[0], &mut held);
    let found = there.close(rt, others, &arena);
    holds(
        rt,
        found.allocs == 1 && found.frees == 2 && found.missing == 0 && found.foreign == 1,
    );
    take_all(rt, &here, &arena, &mut hands[0], &mut held, 8);
    give_all(rt, &here, &mut hands[0], &mut held);
    held.destroy_empty();
    let lost = here.close(rt, hands, &arena);
    holds(
        rt,
        lost.allocs == 9 && lost.frees == 8 && lost.missing == 1 && lost.foreign == 0,
    );
}

#[test]
fn a_closed_cache_tells_what_strayed_and_gives_its_pages_back(rt: HostRuntime) {
    strayed::<Brand, Brand, Brand, Brand, HostRuntime>(
        &rt,
        rt.alloc(),
        Blank::new(65),
        Blank::new(65),
        Blank::new(65),
        Blank::new(65),
    );
}

// Takes this many objects, or fewer if memory is refused, which is reported as such.
fn take_some<K: Kind, A: Ledger, B: Ledger, R: Wait + Abort>(
    rt: &R,
    cache: &Cache<K, A, B>,
    arena: &ArenaLock,
    hand: &mut Hand<K, A, B>,
    held: &mut Vec<Obj<K, Held>>,
    count: u32,
) {
    for _taken in 0..count {
        match hand.take(rt, cache, arena) {
            Ok(object) => held.push_reserved(object),
            Err(fault) => holds(rt, matches!(fault, TakeFault::NoMemory)),
        }
    }
}

// One hand takes up to 17 cells and gives them back. If the memory of a page is refused, one of the takes is; if that
// of the new magazine is, the last cell goes home. The answer is how many were taken, and how many slots were still out
// when all were given back.
fn spared<A: Ledger, B: Ledger, R: Wait + Abort>(
    rt: &R,
    arena: &ArenaLock,
    cache: &Cache<CellKind, A, B>,
    hand: &mut Hand<CellKind, A, B>,
    held: &mut Vec<Obj<CellKind, Held>>,
) -> (u32, u32) {
    take_some(rt, cache, arena, hand, held, 17);
    let taken = held.len() as u32;
    holds(rt, cache.out(rt) == taken);
    give_all(rt, cache, hand, held);
    let given = cache.out(rt);
    holds(rt, given == taken || (taken == 17 && given == 16));
    let left = if given == 17 { 9 } else { given };
    holds(rt, cache.reap_pass(rt, arena) == 0 && cache.out(rt) == left);
    hand.flush(rt, cache);
    holds(rt, cache.reap_pass(rt, arena) == 1 && cache.out(rt) == 0);
    (taken, given)
}

// The same with a cache of its own, if there is memory for one.
fn sparing<A: Ledger, B: Ledger, R: Wait + Abort + Print>(
    rt: &R,
    alloc: Global,
    outs: Blank,
    ins: Blank,
) {
    let Ok(arena) = ArenaLock::new(alloc, 4) else {
        return;
    };
    let Ok(mut hands) = Vec::with_capacity(alloc, 1) else {
        return;
    };
    let Ok(mut held) = Vec::with_capacity(alloc, 17) else {
        hands.destroy_empty();
        return;
    };
    let Ok(mut cache) = Cache::<CellKind, A, B>::new(alloc, outs, ins) else {
        hands.destroy_empty();
        held.destroy_empty();
        return;
    };
    let Ok(mut hand) = cache.hand(alloc) else {
        held.destroy_empty();
        holds(rt, are(cache.close(rt, hands, &arena), 0, 0, 0));
        return;
    };
    let (taken, given) = spared(rt, &arena, &cache, &mut hand, &mut held);
    held.destroy_empty();
    hands.push_reserved(hand);
    let count = u64::from(taken);
    let totals = cache.close(rt, hands, &arena);
    holds(rt, are(totals, count, count, 17 - count));

    // The script that refuses memory looks for each of the outcomes.
    let _ = println!(rt; "taken {taken}, out {given}");
}

#[test]
fn cells_add_up_whatever_memory_is_refused(rt: HostRuntime) {
    sparing::<Brand, Brand, HostRuntime>(&rt, rt.alloc(), Blank::new(65), Blank::new(65));
}

// Takes 17 objects and gives them back, so often.
fn work<K: Kind, A: Ledger, B: Ledger, R: Wait + Abort>(
    rt: &R,
    alloc: Global,
    cache: &Cache<K, A, B>,
    arena: &ArenaLock,
    hand: &mut Hand<K, A, B>,
    turns: u32,
) {
    let mut held = Vec::new(alloc);
    for _ in 0..turns {
        take_all(rt, cache, arena, hand, &mut held, 17);
        give_all(rt, cache, hand, &mut held);
    }
    held.destroy_empty();
}

// The hands, each on a thread of its own.
fn team<A: Ledger + Send + Sync, B: Ledger + Send + Sync, R: Threads + Wait + Abort + Sync>(
    rt: &R,
    alloc: &Global,
    cache: &Cache<CellKind, A, B>,
    arena: &ArenaLock,
    turns: &u32,
    hands: &mut [Hand<CellKind, A, B>],
) {
    let count = hands.len();
    for_each_mut(
        rt,
        hands,
        count,
        &|_, hand| { work(rt, *alloc, cache, arena, hand, *turns) },
    );
}

// This many passes of the reaper.
fn reap<K: Kind, A: Ledger, B: Ledger, R: Wait>(
    rt: &R,
    cache: &Cache<K, A, B>,
    arena: &ArenaLock,
    passes: &u32,
) {
    for _ in 0..*passes {
        cache.reap_pass(rt, arena);
    }
}

// The hands, and the reaper at the same time.
fn crew<'a, A: Ledger + Send + Sync, B: Ledger + Send + Sync, R: Threads + Wait + Abort + Sync>(
    rt: &'a R,
    alloc: &'a Global,
    cache: &'a Cache<CellKind, A, B>,
    arena: &'a ArenaLock,
    turns: &'a u32,
    hands: &'a mut [Hand<CellKind, A, B>],
) {
    join_mut(
        rt,
        &mut || reap(rt, cache, arena, turns),
        &mut || { team(rt, alloc, cache, arena, turns, hands) },
    );
}

// This many hands take 17 cells each and give them back, so often: this many pairs in all.
fn crowd<A: Ledger + Send + Sync, B: Ledger + Send + Sync, R: Threads + Wait + Abort + Sync>(
    rt: &R,
    alloc: Global,
    outs: Blank,
    ins: Blank,
    count: u32,
    turns: u32,
    pairs: u64,
) {
    let arena = arena_of(rt, alloc, 16);
    let mut cache = cache_of::<CellKind, A, B>(rt, alloc, outs, ins);
    let mut hands = hands_of(rt, alloc, &mut cache, count);
    crew(rt, &alloc, &cache, &arena, &turns, hands.as_mut_slice());
    holds(rt, are(cache.close(rt, hands, &arena), pairs, pairs, 0));
}

#[test]
fn two_threads_and_a_reaper_add_up(rt: HostRuntime) {
    crowd::<Brand, Brand, HostRuntime>(
        &rt,
        rt.alloc(),
        Blank::new(65),
        Blank::new(65),
        2,
        60_000,
        2_040_000,
    );
}

#[test]
fn four_threads_and_a_reaper_add_up(rt: HostRuntime) {
    crowd::<Brand, Brand, HostRuntime>(
        &rt,
        rt.alloc(),
        Blank::new(65),
        Blank::new(65),
        4,
        60_000,
        4_080_000,
    );
}

#[test]
fn sixty_four_hands_add_up(rt: HostRuntime) {
    crowd::<Brand, Brand, HostRuntime>(
        &rt,
        rt.alloc(),
        Blank::new(65),
        Blank::new(65),
        64,
        3,
        3_264,
    );
}
