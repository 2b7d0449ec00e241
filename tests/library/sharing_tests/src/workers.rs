//! Stores of a keeper: what a worker's calls are answered, alone and beside others, and the totals at the end.
//!
//! Each object that a worker writes has one byte in all its first sixteen, so that one which two threads had at once shows, and each slot is
//! marked while a worker has its object.

use crate::facts::holds;
use ebpf_machine::objects::Objects;
use ebpf_object::{KindName, Object};
use shared_store::{Keeper, KindTotals, OpenFault, SharedTotals, Store};
use std::alloc::{AllocError, Global};
use std::process::Abort;
use std::sync::atomic::{AtomicU64, Ordering};
use std::thread::{Threads, for_each_mut};
use vmem_arena::Arena;

// A keeper of this many workers, whose objects lie on this many pages.
pub(crate) fn keeper(rt: &impl Abort, alloc: Global, pages: u32, workers: u32) -> Keeper {
    let Ok(arena) = Arena::new(alloc, pages) else {
        panic!(rt; "no memory");
    };
    match Keeper::new(alloc, arena, workers) {
        Ok(keeper) => keeper,
        Err(AllocError) => panic!(rt; "no memory"),
    }
}

// A worker that isn't open yet.
pub(crate) fn opened(rt: &impl Abort, keeper: &Keeper) -> Store {
    match keeper.open() {
        Ok(store) => store,
        Err(_) => panic!(rt; "a worker isn't open"),
    }
}

// The totals of a keeper of whose workers none is open.
pub(crate) fn closed(rt: &impl Abort, keeper: Keeper) -> SharedTotals {
    let totals = match keeper.close() {
        Ok(totals) => totals,
        Err(_) => panic!(rt; "no worker is open"),
    };
    for kind in totals.kinds {
        let KindTotals { allocs, frees, missing, foreign, puts, gets, left, .. } = kind;
        holds(rt, missing + frees == allocs + foreign && missing == 0 && foreign == 0);
        holds(rt, frees == allocs && puts == gets + left && left <= 1);
    }
    holds(rt, totals.clashes == 0 && totals.strays == 0 && totals.owned == 0);
    totals
}

// An object of a kind, which is there.
fn taken(rt: &impl Abort, store: &mut Store, kind: u8) -> Object {
    match store.take(kind, 0) {
        Some(object) => object,
        None => panic!(rt; "an object is there"),
    }
}

// That a call got no object.
fn is_nothing(rt: &impl Abort, found: Option<Object>) {
    match found {
        Some(_) => panic!(rt; "no object is there"),
        None => {}
    }
}

// That a thread has ended its worker.
fn is_empty(rt: &impl Abort, place: Option<Store>) {
    match place {
        Some(_) => panic!(rt; "the worker is ended"),
        None => {}
    }
}

// That all workers are open.
fn are_open(rt: &impl Abort, keeper: &Keeper) {
    match keeper.open() {
        Ok(_) => panic!(rt; "all workers are open"),
        Err(fault) => holds(rt, matches!(fault, OpenFault::Busy)),
    }
}

#[test]
fn a_worker_takes_and_gives_each_kind(rt: HostRuntime) {
    let keeper = keeper(&rt, rt.alloc(), 3, 1);
    let mut store = opened(&rt, &keeper);
    for (kind, size, fill) in [(0, 16, 0), (1, 64, 255), (2, 512, 90)] {
        let mut object = taken(&rt, &mut store, kind);
        let bytes = store.bytes(&object);
        holds(&rt, bytes.len() == size && bytes[0] == fill && bytes[size - 1] == fill);
        store.write(&mut object, 1, &[7, 8]);
        holds(&rt, matches!(&store.bytes(&object)[..3], [first, 7, 8] if *first == fill));
        store.give(kind, object);
    }
    store.end();
    for kind in closed(&rt, keeper).kinds {
        holds(&rt, kind.allocs == 1 && kind.nulls == 0 && kind.busy == 0 && kind.puts == 0 && kind.left == 0);
    }
}

#[test]
fn what_one_worker_leaves_another_gets(rt: HostRuntime) {
    let keeper = keeper(&rt, rt.alloc(), 3, 2);
    let (mut one, mut other) = (opened(&rt, &keeper), opened(&rt, &keeper));
    is_nothing(&rt, other.swap(0, None, 1));
    let mut object = taken(&rt, &mut one, 0);
    one.write(&mut object, 0, &[9]);
    is_nothing(&rt, one.swap(0, Some(object), 1));
    one.end();
    match other.swap(0, None, 1) {
        Some(object) => {
            holds(&rt, other.bytes(&object)[0] == 9);
            is_nothing(&rt, other.swap(0, Some(object), 2));
        }
        None => panic!(&rt; "the object is there"),
    }
    other.end();
    let [cells, ..] = closed(&rt, keeper).kinds;
    holds(&rt, cells.allocs == 1 && cells.frees == 1 && cells.puts == 2 && cells.gets == 1 && cells.left == 1);
}

#[test]
fn a_host_leaves_an_object(rt: HostRuntime) {
    let keeper = keeper(&rt, rt.alloc(), 3, 1);
    let mut store = opened(&rt, &keeper);
    holds(&rt, store.can_get(KindName::Record));
    holds(&rt, store.put(KindName::Record, &[1, 2]) == Some(false));
    holds(&rt, store.put(KindName::Record, &[3]) == Some(true));
    match store.swap(1, None, 0) {
        Some(object) => {
            holds(&rt, matches!(&store.bytes(&object)[..2], [3, 255]));
            store.give(1, object);
        }
        None => panic!(&rt; "the record is there"),
    }
    store.end();
    let [_, records, _] = closed(&rt, keeper).kinds;
    holds(&rt, records.allocs == 2 && records.puts == 2 && records.gets == 2 && records.left == 0);
}

#[test]
fn a_host_without_a_page_leaves_nothing(rt: HostRuntime) {
    let mut keeper = keeper(&rt, rt.alloc(), 1, 1);
    let mut store = opened(&rt, &keeper);
    let object = taken(&rt, &mut store, 0);
    holds(&rt, store.put(KindName::Block, &[1]).is_none());
    is_nothing(&rt, store.take(2, 0));
    store.give(0, object);
    // The page is that of the cells until the worker's hand sends them home and the keeper reaps.
    store.end();
    let _ = keeper.reap();
    let [cells, _, blocks] = closed(&rt, keeper).kinds;
    holds(&rt, cells.allocs == 1 && blocks.nulls == 2 && blocks.allocs == 0 && blocks.puts == 0);
}

#[test]
fn a_worker_that_has_lent_all_that_it_may_leaves_a_shelf_alone(rt: HostRuntime) {
    let keeper = keeper(&rt, rt.alloc(), 3, 2);
    let (mut one, mut other) = (opened(&rt, &keeper), opened(&rt, &keeper));
    holds(&rt, other.put(KindName::Cell, &[6]) == Some(false));
    let Ok(mut out) = Vec::with_capacity(rt.alloc(), 128) else {
        panic!(&rt; "no memory");
    };
    for _ in 0..127 {
        out.push_reserved(taken(&rt, &mut one, 0));
    }
    let object = taken(&rt, &mut one, 0);
    is_nothing(&rt, one.take(0, 0));
    holds(&rt, !one.can_get(KindName::Cell) && one.can_get(KindName::Record));
    // What is given goes back, and then there is room.
    is_nothing(&rt, one.swap(0, None, 0));
    is_nothing(&rt, one.swap(0, Some(object), 0));
    holds(&rt, one.can_get(KindName::Cell));
    match one.swap(0, None, 0) {
        Some(object) => {
            holds(&rt, one.bytes(&object)[0] == 6);
            one.give(0, object);
        }
        None => panic!(&rt; "the object is there"),
    }
    while let Some(object) = out.pop() {
        one.give(0, object);
    }
    out.destroy_empty();
    one.end();
    other.end();
    let [cells, ..] = closed(&rt, keeper).kinds;
    holds(&rt, cells.allocs == 129 && cells.nulls == 1 && cells.puts == 1 && cells.gets == 1);
}

#[test]
fn as_many_workers_are_open_as_there_are(rt: HostRuntime) {
    let keeper = keeper(&rt, rt.alloc(), 1, 2);
    let (one, other) = (opened(&rt, &keeper), opened(&rt, &keeper));
    are_open(&rt, &keeper);
    one.end();
    let again = opened(&rt, &keeper);
    are_open(&rt, &keeper);
    again.end();
    other.end();
    let _ = closed(&rt, keeper);
}

#[test]
fn a_keeper_of_which_a_worker_is_open_comes_back(rt: HostRuntime) {
    let keeper = keeper(&rt, rt.alloc(), 1, 3);
    let mut stores = (opened(&rt, &keeper), opened(&rt, &keeper));
    let object = taken(&rt, &mut stores.1, 0);
    stores.0.end();
    let Err(mut keeper) = keeper.close() else {
        panic!(&rt; "a worker is open");
    };
    // Nothing changed: it reaps, and opens the workers that aren't open.
    holds(&rt, keeper.reap() == 0);
    let again = (opened(&rt, &keeper), opened(&rt, &keeper));
    are_open(&rt, &keeper);
    again.0.end();
    again.1.end();
    stores.1.give(0, object);
    let Err(keeper) = keeper.close() else {
        panic!(&rt; "a worker is open");
    };
    stores.1.end();
    let [cells, ..] = closed(&rt, keeper).kinds;
    holds(&rt, cells.allocs == 1);
}

#[test]
fn a_worker_outlives_its_keeper(rt: HostRuntime) {
    let keeper = keeper(&rt, rt.alloc(), 1, 2);
    let mut store = opened(&rt, &keeper);
    drop(keeper);
    let object = taken(&rt, &mut store, 0);
    is_nothing(&rt, store.swap(0, Some(object), 0));
    store.end();
}

// Takes a hundred objects of each kind, and gives all of them back.
fn hundreds(rt: &impl Abort, alloc: Global, store: &mut Store) {
    let Ok(mut out) = Vec::with_capacity(alloc, 100) else {
        panic!(rt; "no memory");
    };
    for kind in 0..3 {
        for _ in 0..100 {
            out.push_reserved(taken(rt, store, kind));
        }
        while let Some(object) = out.pop() {
            store.give(kind, object);
        }
    }
    out.destroy_empty();
}

#[test]
fn a_worker_that_ends_keeps_no_page(rt: HostRuntime) -> Result<(), AllocError> {
    let alloc = rt.alloc();
    let mut places = Vec::with_capacity(alloc, 2)?;
    let mut keeper = keeper(&rt, alloc, 16, 1);
    places.push_reserved(None);
    places.push_reserved(Some(opened(&rt, &keeper)));
    for_each_mut(&rt, places.as_mut_slice(), 2, &|_, place| {
        if let Some(mut store) = place.take() {
            hundreds(&rt, alloc, &mut store);
            store.end();
        }
    });
    while let Some(place) = places.pop() {
        is_empty(&rt, place);
    }
    places.destroy_empty();
    // A hundred cells were on one page, as many records on two, and as many blocks on thirteen.
    holds(&rt, keeper.reap() == 16 && keeper.reap() == 0);
    let [cells, records, blocks] = closed(&rt, keeper).kinds;
    holds(&rt, cells.allocs == 100 && records.allocs == 100 && blocks.allocs == 100);
    Ok(())
}

#[test]
fn a_worker_s_counts_go_on_in_its_place(rt: HostRuntime) {
    let keeper = keeper(&rt, rt.alloc(), 1, 1);
    for _ in 0..3 {
        let mut store = opened(&rt, &keeper);
        let object = taken(&rt, &mut store, 0);
        store.give(0, object);
        store.end();
    }
    let [cells, ..] = closed(&rt, keeper).kinds;
    holds(&rt, cells.allocs == 3 && cells.frees == 3);
}

// The slots of each kind that a worker has, and how often a second one had.
#[derive(Drop)]
struct Holders {
    slots: Vec<AtomicU64>,
    twice: AtomicU64,
}

const SLOTS: usize = 65_536;

fn holders(alloc: Global) -> Result<Holders, AllocError> {
    let mut slots = Vec::with_capacity(alloc, 3 * SLOTS)?;
    for _ in 0..3 * SLOTS {
        slots.push_reserved(AtomicU64::new(0));
    }
    Ok(Holders {
        slots,
        twice: AtomicU64::new(0),
    })
}

// Where the slot of an object is noted.
fn place_of(object: &Object) -> usize {
    match object {
        Object::Cell(object) => object.slot() as usize,
        Object::Record(object) => SLOTS + object.slot() as usize,
        Object::Block(object) => 2 * SLOTS + object.slot() as usize,
    }
}

impl Holders {
    fn note(&self, object: &Object) {
        if self.slots[place_of(object)].swap(1, Ordering::SeqCst) != 0 {
            self.twice.fetch_add(1, Ordering::SeqCst);
        }
    }

    fn forget(&self, object: &Object) {
        self.slots[place_of(object)].store(0, Ordering::SeqCst);
    }
}

// How many calls were answered so.
#[derive(Clone, Copy)]
struct Answers {
    granted: u64,
    nulls: u64,
    puts: u64,
    gets: u64,
    pages: u64,
}

const NONE: Answers = Answers { granted: 0, nulls: 0, puts: 0, gets: 0, pages: 0 };

// What a thread has: one of them the keeper, each other one a worker.
struct Actor {
    number: u64,
    keeper: Option<Keeper>,
    store: Option<Store>,
    answers: Answers,
}

// Sixteen bytes of one number, no two of which are those of an image.
fn stamp(number: u64) -> [u8; 16] {
    [(number % 80 + 1) as u8; 16]
}

// That the first sixteen bytes are one number, which a worker wrote.
fn is_stamped(rt: &impl Abort, store: &Store, object: &Object) {
    let bytes = store.bytes(object);
    let first = bytes[0];
    for place in 0..16 {
        holds(rt, bytes[place] == first && first != 0 && first <= 80);
    }
}

// One turn of a worker: it takes an object, writes it, and gives it back or exchanges it for what is on its shelf.
fn turn(rt: &impl Abort, holders: &Holders, store: &mut Store, answers: &mut Answers, number: u64) {
    let kind = (number % 3) as u8;
    let at = (number % 4_096) as u16;
    let Some(mut object) = store.take(kind, at) else {
        answers.nulls += 1;
        return;
    };
    answers.granted += 1;
    holders.note(&object);
    store.write(&mut object, 0, &stamp(number));
    is_stamped(rt, store, &object);
    holders.forget(&object);
    if number % 2 == 0 {
        store.give(kind, object);
        return;
    }
    answers.puts += 1;
    if let Some(object) = store.swap(kind, Some(object), at) {
        answers.gets += 1;
        holders.note(&object);
        is_stamped(rt, store, &object);
        holders.forget(&object);
        store.give(kind, object);
    }
}

fn turns(rt: &impl Abort, holders: &Holders, store: &mut Store, answers: &mut Answers, first: u64, many: u64) {
    for number in first..first + many {
        turn(rt, holders, store, answers, number);
    }
}

// What the keeper's thread does: it reaps, and opens a worker each time if it can, with which it works and which it ends.
fn keep(rt: &impl Abort, holders: &Holders, keeper: &mut Keeper, answers: &mut Answers, many: u64) {
    for number in 0..many / 20 {
        answers.pages += u64::from(keeper.reap());
        if let Ok(mut store) = keeper.open() {
            turns(rt, holders, &mut store, answers, number * 20, 20);
            store.end();
        }
    }
}

// Half of the turns of a worker.
fn half(rt: &impl Abort, holders: &Holders, actor: &mut Actor, many: u64) {
    if let Some(store) = &mut actor.store {
        turns(rt, holders, store, &mut actor.answers, actor.number * 7, many / 2);
    }
}

// What a thread does. Each worker with an odd number is ended in the middle, and then the keeper's thread may open it.
fn act(rt: &impl Abort, holders: &Holders, actor: &mut Actor, many: u64) {
    if let Some(keeper) = &mut actor.keeper {
        keep(rt, holders, keeper, &mut actor.answers, many);
        return;
    }
    half(rt, holders, actor, many);
    if actor.number % 2 == 0 {
        half(rt, holders, actor, many);
        return;
    }
    if let Some(store) = actor.store.take() {
        store.end();
    }
}

// A keeper in the first place, and after it a worker in each.
fn actors(rt: &impl Abort, alloc: Global, pages: u32, workers: u32) -> Result<Vec<Actor>, AllocError> {
    let mut all = Vec::with_capacity(alloc, workers as usize + 1)?;
    let keeper = keeper(rt, alloc, pages, workers);
    for number in 0..workers {
        let store = Some(opened(rt, &keeper));
        all.push_reserved(Actor {
            number: u64::from(number),
            keeper: None,
            store,
            answers: NONE,
        });
    }
    all.push_reserved(Actor {
        number: 0,
        keeper: Some(keeper),
        store: None,
        answers: NONE,
    });
    Ok(all)
}

// The keeper of actors that end, and what all of them were answered.
fn ended(rt: &impl Abort, mut actors: Vec<Actor>) -> (Keeper, Answers) {
    let (mut all, mut found) = (NONE, None);
    while let Some(actor) = actors.pop() {
        let Actor { number: _, keeper, store, answers } = actor;
        if let Some(keeper) = keeper {
            found = Some(keeper);
        }
        if let Some(store) = store {
            store.end();
        }
        all.granted += answers.granted;
        all.nulls += answers.nulls;
        all.puts += answers.puts;
        all.gets += answers.gets;
        all.pages += answers.pages;
    }
    actors.destroy_empty();
    match found {
        Some(keeper) => (keeper, all),
        None => panic!(rt; "one has the keeper"),
    }
}

// A keeper with this many workers, each on a thread of its own with this many turns.
fn crowd<R: Threads + Abort + Sync>(rt: &R, alloc: Global, workers: u32, many: u64) -> Result<(), AllocError> {
    let holders = holders(alloc)?;
    let mut actors = actors(rt, alloc, 256, workers)?;
    let count = actors.len();
    for_each_mut(rt, actors.as_mut_slice(), count, &|_, actor| act(rt, &holders, actor, many));
    holds(rt, holders.twice.load(Ordering::SeqCst) == 0);
    let (keeper, answers) = ended(rt, actors);
    let mut all = NONE;
    for kind in closed(rt, keeper).kinds {
        all.granted += kind.allocs;
        all.nulls += kind.nulls + kind.busy;
        all.puts += kind.puts;
        all.gets += kind.gets;
    }
    holds(rt, all.granted == answers.granted && all.nulls == answers.nulls);
    holds(rt, all.puts == answers.puts && all.gets == answers.gets);
    Ok(())
}

#[test]
fn one_worker_is_served(rt: HostRuntime) -> Result<(), AllocError> {
    crowd(&rt, rt.alloc(), 1, 30_000)
}

#[test]
fn two_workers_are_served(rt: HostRuntime) -> Result<(), AllocError> {
    crowd(&rt, rt.alloc(), 2, 30_000)
}

#[test]
fn four_workers_are_served(rt: HostRuntime) -> Result<(), AllocError> {
    crowd(&rt, rt.alloc(), 4, 20_000)
}

#[test]
fn sixteen_workers_are_served(rt: HostRuntime) -> Result<(), AllocError> {
    crowd(&rt, rt.alloc(), 16, 8_000)
}

#[test]
fn sixty_four_workers_are_served(rt: HostRuntime) -> Result<(), AllocError> {
    crowd(&rt, rt.alloc(), 64, 3_000)
}
