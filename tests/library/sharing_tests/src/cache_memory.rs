//! Calls of object caches whose memory may be refused. A cache or an arena is made again then. A take is refused, and made again; an object
//! that is given back lies aside. The script tests/want-of-memory refuses one allocation after another, and looks for each line that is
//! reported here.

use crate::facts::holds;
use shared_cache::{ArenaPass, Cache, Hand, PAUSES, SharedArena, TakeFault};
use slab_layer::{BlockKind, Held, Obj};
use std::alloc::{AllocError, Global};
use std::process::Abort;
use vmem_arena::Arena;

fn warns(rt: &impl Print, call: &str) {
    let _ = println!(rt; "refused: {call}");
}

fn arena_again<R: Abort + Print>(rt: &R, alloc: Global) -> (SharedArena, Vec<ArenaPass>) {
    for _ in 0..3 {
        let Ok(arena) = Arena::new(alloc, 8) else {
            continue;
        };
        match SharedArena::new(alloc, arena, 1) {
            Ok(made) => return made,
            Err(AllocError) => warns(rt, "a shared arena"),
        }
    }
    panic!(rt; "memory is refused once")
}

fn cache_again<R: Abort + Print>(rt: &R, alloc: Global) -> (Cache<BlockKind>, Vec<Hand<BlockKind>>) {
    match Cache::new(alloc, 1) {
        Ok(made) => made,
        Err(AllocError) => {
            warns(rt, "a shared cache");
            match Cache::new(alloc, 1) {
                Ok(made) => made,
                Err(AllocError) => panic!(rt; "memory is refused once"),
            }
        }
    }
}

// An object, asked for again where its page found no memory.
fn take_again<R: Abort + Print>(rt: &R, cache: &Cache<BlockKind>, arena: &SharedArena, hand: &mut Hand<BlockKind>, pages: &mut ArenaPass) -> Obj<BlockKind, Held> {
    for _ in 0..2 {
        match hand.take(cache, arena, pages, PAUSES) {
            Ok(object) => return object,
            Err(TakeFault::NoMemory) => warns(rt, "a page"),
            Err(_) => panic!(rt; "there are pages"),
        }
    }
    panic!(rt; "memory is refused once")
}

type Lists = (Vec<Obj<BlockKind, Held>>, Vec<Hand<BlockKind>>, Vec<ArenaPass>);

// Room for twenty objects, a hand and a pass.
fn lists(alloc: Global) -> Result<Lists, AllocError> {
    let closing = Vec::with_capacity(alloc, 1)?;
    let ending = Vec::with_capacity(alloc, 1)?;
    let out = Vec::with_capacity(alloc, 20)?;
    Ok((out, closing, ending))
}

#[test]
fn each_call_is_made_again_where_memory_is_refused(rt: HostRuntime) {
    let (mut out, mut closing, mut ending) = match lists(rt.alloc()) {
        Ok(lists) => lists,
        Err(AllocError) => return,
    };
    let (arena, mut passes) = arena_again(&rt, rt.alloc());
    let (cache, mut hands) = cache_again(&rt, rt.alloc());
    let (Some(mut hand), Some(mut pages)) = (hands.pop(), passes.pop()) else {
        panic!(&rt; "one of each");
    };
    for _ in 0..20 {
        out.push_reserved(take_again(&rt, &cache, &arena, &mut hand, &mut pages));
    }
    // Eight magazines are made for what comes back, or what finds none lies aside.
    while let Some(object) = out.pop() {
        hand.give(&cache, object);
    }
    out.destroy_empty();
    closing.push_reserved(hand);
    let totals = cache.close(closing, None, &arena, &mut pages, PAUSES);
    ending.push_reserved(pages);
    holds(&rt, totals.allocs == 20 && totals.frees == 20 && totals.missing == 0 && totals.foreign == 0);
    holds(&rt, arena.close(ending).largest() == 8);
}
