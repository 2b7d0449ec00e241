//! Objects that go through a layer and the depot, and how many of them each holds.

use crate::arena::arena_of;
use crate::slabs::grown;
use magazine::{Depot, Layer, Magazine};
use slab_layer::{BlockKind, CellKind, Kind, Obj, Ready, RecordKind, Slabs};
use std::alloc::Global;
use std::process::Abort;

// More than any layer or depot here holds.
const MANY: u32 = 64;

pub(crate) fn layer_of<K: Kind>(rt: &impl Abort, alloc: Global) -> Layer<K> {
    match Layer::new(alloc) {
        Ok(layer) => layer,
        Err(_) => panic!(rt; "no memory"),
    }
}

pub(crate) fn magazine_of<K: Kind>(rt: &impl Abort, alloc: Global) -> Magazine<K> {
    match Magazine::new(alloc) {
        Ok(magazine) => magazine,
        Err(_) => panic!(rt; "no memory"),
    }
}

// An object off the slabs.
fn ready<K: Kind>(rt: &impl Abort, slabs: &mut Slabs<K>) -> Obj<K, Ready> {
    match slabs.take() {
        Some(object) => object.construct(),
        None => panic!(rt; "no object is home"),
    }
}

// The object goes home, which each does once.
fn go_home<K: Kind>(rt: &impl Abort, slabs: &mut Slabs<K>, object: Obj<K, Ready>) {
    assert!(rt; slabs.give(object.retire()), "an object comes home twice");
}

// The way by which an object is given back: into the layer, or by the depot's exchange, or home to the slabs if
// the depot has no empty magazine.
fn given<K: Kind>(
    rt: &impl Abort,
    slabs: &mut Slabs<K>,
    layer: &mut Layer<K>,
    depot: &mut Depot<K>,
) -> u8 {
    let Err(back) = layer.try_give(ready(rt, slabs)) else {
        return b'g';
    };
    if !layer.relieve(depot) {
        go_home(rt, slabs, back);
        return b'h';
    }
    if let Err(again) = layer.try_give(back) {
        go_home(rt, slabs, again);
        panic!(rt; "a relieved layer has no room");
    }
    b'G'
}

// The way by which an object is taken: out of the layer, or by the depot's exchange, or not if the depot has no
// full magazine. The object goes home.
fn taken<K: Kind>(
    rt: &impl Abort,
    slabs: &mut Slabs<K>,
    layer: &mut Layer<K>,
    depot: &mut Depot<K>,
) -> u8 {
    if let Some(object) = layer.try_take() {
        go_home(rt, slabs, object);
        return b't';
    }
    if !layer.refill(depot) {
        return b'n';
    }
    let Some(object) = layer.try_take() else {
        panic!(rt; "a refilled layer has no round");
    };
    go_home(rt, slabs, object);
    b'T'
}

// Ends the layer; the answer is how many rounds it had.
fn ended<K: Kind>(rt: &impl Abort, slabs: &mut Slabs<K>, mut layer: Layer<K>) -> u32 {
    for rounds in 0..MANY {
        let Some(object) = layer.try_take() else {
            layer.end();
            return rounds;
        };
        go_home(rt, slabs, object);
    }
    panic!(rt; "a layer has too many rounds");
}

// Ends the magazine; the answer is how many rounds it had.
fn unloaded<K: Kind>(rt: &impl Abort, slabs: &mut Slabs<K>, mut magazine: Magazine<K>) -> u32 {
    for rounds in 0..MANY {
        let Some(object) = magazine.pop() else {
            magazine.end();
            return rounds;
        };
        go_home(rt, slabs, object);
    }
    panic!(rt; "a magazine has too many rounds");
}

// Ends the depot, each of whose full magazines has this many rounds; the answer is how many full ones it had.
fn closed<K: Kind>(rt: &impl Abort, slabs: &mut Slabs<K>, mut depot: Depot<K>, rounds: u32) -> u32 {
    for fulls in 0..MANY {
        let Some(magazine) = depot.drain_full() else {
            depot.end();
            return fulls;
        };
        assert!(rt; unloaded(rt, slabs, magazine) == rounds);
    }
    panic!(rt; "a depot has too many magazines");
}

// A layer of the kind takes exactly this many objects, and gives exactly these again.
fn holds<K: Kind>(rt: &impl Abort, alloc: Global, count: u32) {
    let mut arena = arena_of(rt, alloc, 1);
    let mut slabs = grown::<K>(rt, alloc, &mut arena);
    let mut layer = layer_of::<K>(rt, alloc);
    let mut depot = Depot::new(alloc);
    for _ in 0..count {
        assert!(rt; given(rt, &mut slabs, &mut layer, &mut depot) == b'g');
    }
    assert!(rt; given(rt, &mut slabs, &mut layer, &mut depot) == b'h');
    for _ in 0..count {
        assert!(rt; taken(rt, &mut slabs, &mut layer, &mut depot) == b't');
    }
    assert!(rt; taken(rt, &mut slabs, &mut layer, &mut depot) == b'n');
    assert!(rt; ended(rt, &mut slabs, layer) == 0 && slabs.out() == 0);
    assert!(rt; closed(rt, &mut slabs, depot, 0) == 0);
    slabs.end();
}

#[test]
fn a_layer_holds_16_cells(rt: HostRuntime) {
    holds::<CellKind>(&rt, rt.alloc(), 16);
}

#[test]
fn a_layer_holds_8_records(rt: HostRuntime) {
    holds::<RecordKind>(&rt, rt.alloc(), 8);
}

#[test]
fn a_layer_holds_4_blocks(rt: HostRuntime) {
    holds::<BlockKind>(&rt, rt.alloc(), 4);
}

// One step: `m` adds an empty magazine to the depot, `g`, `G` or `h` gives an object, and any other takes one.
fn step<K: Kind>(
    rt: &impl Abort,
    alloc: Global,
    slabs: &mut Slabs<K>,
    layer: &mut Layer<K>,
    depot: &mut Depot<K>,
    way: u8,
) -> u8 {
    match way {
        b'm' => {
            if let Err(back) = depot.add_empty(magazine_of(rt, alloc)) {
                back.end();
                panic!(rt; "no memory");
            }
            b'm'
        }
        b'g' | b'G' | b'h' => given(rt, slabs, layer, depot),
        _ => taken(rt, slabs, layer, depot),
    }
}

// Takes the steps in turn, each of which goes the way that is written.
fn walk<K: Kind>(
    rt: &impl Abort,
    alloc: Global,
    slabs: &mut Slabs<K>,
    layer: &mut Layer<K>,
    depot: &mut Depot<K>,
    ways: &[u8],
) {
    for way in ways {
        if *way != b' ' {
            assert!(rt;
                step(rt, alloc, slabs, layer, depot, *way) == *way,
                "not {way}"
            );
        }
    }
}

// The ways of blocks, of which a magazine holds two, as the depot has empty magazines or full ones. Into both
// magazines and home; by an exchange for an empty one. Out of both, and by an exchange for a full one, which leaves
// an empty one there for the next.
const WAYS: &[u8] = b"nggggh mGgh mGg tttt TtTtn ggggGg ttttTtn";

#[test]
fn objects_go_by_layer_depot_and_slabs(rt: HostRuntime) {
    let alloc = rt.alloc();
    let mut arena = arena_of(&rt, alloc, 1);
    let mut slabs = grown::<BlockKind>(&rt, alloc, &mut arena);
    let mut layer = layer_of(&rt, alloc);
    let mut depot = Depot::new(alloc);
    walk(&rt, alloc, &mut slabs, &mut layer, &mut depot, WAYS);
    assert!(rt; ended(&rt, &mut slabs, layer) == 0);
    assert!(rt; closed(&rt, &mut slabs, depot, 2) == 0);
    assert!(rt; slabs.out() == 0);
    slabs.end();
}

#[test]
fn a_depot_gives_up_its_full_magazines_whole(rt: HostRuntime) {
    let alloc = rt.alloc();
    let mut arena = arena_of(&rt, alloc, 1);
    let mut slabs = grown::<CellKind>(&rt, alloc, &mut arena);
    let mut layer = layer_of(&rt, alloc);
    let mut depot = Depot::new(alloc);
    walk(
        &rt,
        alloc,
        &mut slabs,
        &mut layer,
        &mut depot,
        b"mmm gggggggggggggggg Gggggggg Gg",
    );
    assert!(rt; slabs.out() == 26);
    assert!(rt; closed(&rt, &mut slabs, depot, 8) == 2 && slabs.out() == 10);
    assert!(rt; ended(&rt, &mut slabs, layer) == 10 && slabs.out() == 0);
    slabs.end();
}
