//! Workers whose memory may be refused. A keeper is made again then, and a block is asked for again where its page found no memory. Nothing
//! else takes memory that it can't do without: what is given back, put on a shelf or closed is so whatever is refused. The script
//! tests/want-of-memory refuses one allocation after another, and looks for each line that is reported here.

use crate::facts::holds;
use crate::workers::{closed, opened};
use ebpf_machine::objects::Objects;
use ebpf_object::Object;
use shared_store::{Keeper, Store};
use std::alloc::{AllocError, Global};
use std::process::Abort;
use vmem_arena::Arena;

fn warns(rt: &impl Print, call: &str) {
    let _ = println!(rt; "refused: {call}");
}

fn keeper_again<R: Abort + Print>(rt: &R, alloc: Global) -> Keeper {
    for _ in 0..3 {
        let Ok(arena) = Arena::new(alloc, 8) else {
            continue;
        };
        match Keeper::new(alloc, arena, 2) {
            Ok(keeper) => return keeper,
            Err(AllocError) => warns(rt, "a keeper"),
        }
    }
    panic!(rt; "memory is refused once")
}

fn take_again<R: Abort + Print>(rt: &R, store: &mut Store) -> Object {
    for _ in 0..2 {
        match store.take(2, 0) {
            Some(object) => return object,
            None => warns(rt, "a block"),
        }
    }
    panic!(rt; "memory is refused once")
}

#[test]
fn each_call_is_made_again_where_memory_is_refused(rt: HostRuntime) {
    let Ok(mut out) = Vec::with_capacity(rt.alloc(), 20) else {
        return;
    };
    let mut keeper = keeper_again(&rt, rt.alloc());
    let (mut one, mut other) = (opened(&rt, &keeper), opened(&rt, &keeper));
    for _ in 0..20 {
        out.push_reserved(take_again(&rt, &mut one));
    }
    // Magazines are made for what comes back, or what finds none lies aside.
    while let Some(object) = out.pop() {
        if let Some(found) = one.swap(2, Some(object), 0) {
            one.give(2, found);
        }
    }
    out.destroy_empty();
    match other.swap(2, None, 0) {
        Some(object) => other.give(2, object),
        None => panic!(&rt; "a block is there"),
    }
    one.end();
    other.end();
    let _ = keeper.reap();
    let [_, _, blocks] = closed(&rt, keeper).kinds;
    holds(&rt, blocks.allocs == 20 && blocks.puts == 20 && blocks.gets == 20 && blocks.left == 0);
}
