//! Calls whose memory may be refused: each leaves what was there, and then does when it is made again what it would have done at
//! once. The script tests/want-of-memory refuses one allocation after another, and looks for each line that is reported here.

use crate::arena::{arena_of, taken};
use crate::facts::holds;
use crate::magazines::{layer_of, magazine_of};
use magazine::{Depot, Layer, Magazine};
use slab_layer::{CellKind, Slabs};
use std::alloc::Global;
use std::process::Abort;
use vmem_arena::{Arena, Span};

fn warns(rt: &impl Print, call: &str) {
    let _ = println!(rt; "refused: {call}");
}

fn arena_again<R: Abort + Print>(rt: &R, alloc: Global) -> Arena {
    let Ok(arena) = Arena::new(alloc, 1) else {
        warns(rt, "an arena");
        return arena_of(rt, alloc, 1);
    };
    arena
}

fn grow_again<R: Abort + Print>(rt: &R, slabs: &mut Slabs<CellKind>, span: Span) {
    let page = span.first();
    let Err(back) = slabs.grow(span) else {
        return;
    };
    warns(rt, "a page of objects");
    holds(rt, !slabs.has(page) && slabs.out() == 0);
    holds(rt, back.first() == page && back.len() == 1);
    holds(rt, slabs.grow(back).is_ok());
}

fn layer_again<R: Abort + Print>(rt: &R, alloc: Global) -> Layer<CellKind> {
    let Ok(layer) = Layer::new(alloc) else {
        warns(rt, "a layer");
        return layer_of(rt, alloc);
    };
    layer
}

fn magazine_again<R: Abort + Print>(rt: &R, alloc: Global) -> Magazine<CellKind> {
    let Ok(magazine) = Magazine::new(alloc) else {
        warns(rt, "a magazine");
        return magazine_of(rt, alloc);
    };
    magazine
}

fn add_again<R: Abort + Print>(rt: &R, depot: &mut Depot<CellKind>, magazine: Magazine<CellKind>) {
    let Err(back) = depot.add_empty(magazine) else {
        return;
    };
    warns(rt, "a place in a depot");
    if let Err(lost) = depot.add_empty(back) {
        lost.end();
        panic!(rt; "memory is refused once");
    }
}

#[test]
fn each_call_is_made_again_where_memory_is_refused(rt: HostRuntime) {
    let alloc = rt.alloc();
    let mut arena = arena_again(&rt, alloc);
    let mut slabs = Slabs::new(alloc);
    let span = taken(&rt, &mut arena, 1);
    grow_again(&rt, &mut slabs, span);
    holds(&rt, slabs.reap().is_some());
    slabs.end();
    layer_again(&rt, alloc).end();
    let mut depot = Depot::new(alloc);
    let magazine = magazine_again(&rt, alloc);
    add_again(&rt, &mut depot, magazine);
    depot.end();
}
