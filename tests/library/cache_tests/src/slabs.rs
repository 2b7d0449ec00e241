//! Pages of each kind that are filled and emptied, and what a client finds.

use crate::arena::{arena_of, taken};
use crate::facts::holds;
use slab_layer::{BlockKind, CellKind, Home, Kind, Obj, RecordKind, Slabs};
use std::alloc::Global;
use std::process::Abort;
use vmem_arena::Arena;

// Slabs with the objects of one page of the arena.
pub(crate) fn grown<K: Kind>(rt: &impl Abort, alloc: Global, arena: &mut Arena) -> Slabs<K> {
    let mut slabs = Slabs::new(alloc);
    let span = taken(rt, arena, 1);
    holds(rt, slabs.grow(span).is_ok());
    slabs
}

// Takes every object of the slabs, of which there are this many.
fn take_all<K: Kind>(
    rt: &impl Abort,
    slabs: &mut Slabs<K>,
    held: &mut Vec<Obj<K, Home>>,
    count: u32,
) {
    for taken in 0..count {
        holds(rt, slabs.out() == taken);
        let Some(object) = slabs.take() else {
            panic!(rt; "a slab has an object less");
        };
        if let Err(failed) = held.push(object) {
            slabs.give(failed.value);
            panic!(rt; "no memory");
        }
    }
    if let Some(object) = slabs.take() {
        slabs.give(object);
        panic!(rt; "a slab has an object more");
    }
    holds(rt, slabs.out() == count);
}

// Gives the objects back; no page is given up before the last of them.
fn give_all<K: Kind>(rt: &impl Abort, slabs: &mut Slabs<K>, mut held: Vec<Obj<K, Home>>) {
    while let Some(object) = held.pop() {
        holds(rt, slabs.reap().is_none());
        holds(rt, slabs.give(object));
    }
    held.destroy_empty();
    holds(rt, slabs.out() == 0);
}

// A page of the kind is filled and emptied; it has this many objects.
fn fills_and_empties<K: Kind>(rt: &impl Abort, alloc: Global, count: u32) {
    let mut arena = arena_of(rt, alloc, 1);
    let mut slabs = grown::<K>(rt, alloc, &mut arena);
    holds(rt, slabs.has(0) && !slabs.has(1));
    let mut held = Vec::new(alloc);
    take_all(rt, &mut slabs, &mut held, count);
    give_all(rt, &mut slabs, held);
    let Some(span) = slabs.reap() else {
        panic!(rt; "a slab with nothing out is not given up");
    };
    holds(
        rt,
        arena.give(span) && !slabs.has(0) && arena.largest() == 1,
    );
    slabs.end();
}

#[test]
fn a_page_has_256_cells(rt: HostRuntime) {
    fills_and_empties::<CellKind>(&rt, rt.alloc(), 256);
}

#[test]
fn a_page_has_64_records(rt: HostRuntime) {
    fills_and_empties::<RecordKind>(&rt, rt.alloc(), 64);
}

#[test]
fn a_page_has_8_blocks(rt: HostRuntime) {
    fills_and_empties::<BlockKind>(&rt, rt.alloc(), 8);
}

#[test]
fn slabs_refuse_an_object_of_a_page_that_they_lack(rt: HostRuntime) {
    let mut arena = arena_of(&rt, rt.alloc(), 2);
    let mut here = grown::<CellKind>(&rt, rt.alloc(), &mut arena);
    let mut there = grown::<CellKind>(&rt, rt.alloc(), &mut arena);
    let Some(stranger) = there.take() else {
        panic!(rt; "a grown slab has no object");
    };
    holds(&rt, stranger.slot() / 256 == 1);
    holds(
        &rt,
        !here.give(stranger) && here.out() == 0 && there.out() == 1,
    );
    here.end();
    there.end();
}

#[test]
fn a_client_finds_the_image_whoever_wrote_before(rt: HostRuntime) {
    let mut arena = arena_of(&rt, rt.alloc(), 1);
    let mut slabs = grown::<BlockKind>(&rt, rt.alloc(), &mut arena);
    let Some(home) = slabs.take() else {
        panic!(rt; "a grown slab has no object");
    };
    let mut held = home.construct().hold();
    holds(&rt, held.bytes().iter().all(|byte| *byte == 0x5a));
    held.write(510, &[1, 2]);
    holds(&rt, matches!(&held.bytes()[509..], [0x5a, 1, 2]));
    let again = held.restore().hold();
    holds(
        &rt,
        again.bytes().len() == 512 && again.bytes().iter().all(|byte| *byte == 0x5a),
    );
    holds(&rt, slabs.give(again.restore().retire()));
    slabs.end();
}
