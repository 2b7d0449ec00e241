//! Threads that take, put and exchange values side by side.
//!
//! A value has a number, a bit of its own, which is there twice; a mark while a thread has it; and a count of the turns that were done with it. So a
//! value that two threads had at once, or one that was copied or lost, shows.

use crate::facts::holds;
use exchange_shelf::{Left, Shelf, ShelfHand};
use shared_row::{Pass, Row, Scale};
use std::alloc::{AllocError, Global};
use std::process::Abort;
use std::thread::{Threads, for_each_mut};

#[derive(Drop)]
pub(crate) struct Value {
    pub(crate) number: u64,
    pub(crate) is_out: bool,
    turns: u64,
    again: u64,
}

// Values that weigh nothing.
struct Nothing;

impl Scale<Box<Value>> for Nothing {
    ghost left = { λ b. 0 };

    ghost right = { λ b. 0 };
}

type Places = Row<Box<Value>, Nothing>;

// A thread's pass, its number, and how often it took a value.
#[derive(Drop)]
struct Worker {
    pass: Pass<Box<Value>, Nothing>,
    number: usize,
    turns: u64,
}

// This many values, each with a bit of its own.
pub(crate) fn values_of(alloc: Global, count: usize) -> Result<Vec<Box<Value>>, AllocError> {
    let mut values = Vec::with_capacity(alloc, count)?;
    for place in 0..count {
        let value = Value {
            number: 1 << place,
            is_out: false,
            turns: 0,
            again: 1 << place,
        };
        values.push_reserved(Box::new(alloc, value)?);
    }
    Ok(values)
}

// The value was with nobody, and is with this thread now.
pub(crate) fn mark(rt: &impl Abort, value: &mut Box<Value>) {
    holds(rt, !value.is_out && value.number == value.again);
    value.is_out = true;
    value.turns += 1;
}

// Takes the value of a place, if it is there.
fn taken(rt: &impl Abort, row: &Places, worker: &mut Worker, place: usize) -> Option<Box<Value>> {
    let mut value = row.take(&mut worker.pass, place)?;
    mark(rt, &mut value);
    worker.turns += 1;
    Some(value)
}

fn put(row: &Places, worker: &mut Worker, place: usize, mut value: Box<Value>) {
    value.is_out = false;
    row.put(&mut worker.pass, place, value);
}

// One turn: the values of two places, if both are there, change places.
fn turn(rt: &impl Abort, row: &Places, worker: &mut Worker, first: usize, second: usize) {
    let Some(one) = taken(rt, row, worker, first) else {
        return;
    };
    match taken(rt, row, worker, second) {
        Some(other) => {
            put(row, worker, second, one);
            put(row, worker, first, other);
        }
        None => put(row, worker, first, one),
    }
}

fn work(rt: &impl Abort, row: &Places, worker: &mut Worker, turns: usize) {
    let places = row.places();
    for round in 0..turns {
        let first = (round + worker.number) % places;
        let second = (round * 7 + worker.number * 3) % places;
        turn(rt, row, worker, first, second);
    }
}

// How often the workers took a value, and their passes.
fn ended(alloc: Global, mut workers: Vec<Worker>) -> Result<(u64, Vec<Pass<Box<Value>, Nothing>>), AllocError> {
    let mut passes = Vec::with_capacity(alloc, workers.len())?;
    let mut turns = 0;
    while let Some(worker) = workers.pop() {
        let Worker { pass, number: _, turns: own } = worker;
        passes.push_reserved(pass);
        turns += own;
    }
    workers.destroy_empty();
    Ok((turns, passes))
}

// Each value is there once, with nobody, and the turns that were done with all of them are as many as those that the threads made.
pub(crate) fn are_whole(rt: &impl Abort, values: &[Box<Value>], turns: u64) {
    let mut bits = 0;
    let mut done = 0;
    for value in values {
        holds(rt, !value.is_out && value.number == value.again && bits & value.number == 0);
        bits |= value.number;
        done += value.turns;
    }
    holds(rt, bits == u64::MAX >> (64 - values.len()) && done == turns);
}

// This many threads, each with this many turns, and this many places.
fn exchange<R: Threads + Abort + Sync>(rt: &R, alloc: Global, threads: u32, turns: usize, places: usize) -> Result<(), AllocError> {
    let Ok((row, mut passes)) = Places::new(alloc, values_of(alloc, places)?, threads) else {
        return Err(AllocError);
    };
    let mut workers = Vec::with_capacity(alloc, threads as usize)?;
    while let Some(pass) = passes.pop() {
        let number = passes.len();
        workers.push_reserved(Worker { pass, number, turns: 0 });
    }
    passes.destroy_empty();
    let count = workers.len();
    for_each_mut(rt, workers.as_mut_slice(), count, &|_, worker| work(rt, &row, worker, turns));
    let (turns, passes) = ended(alloc, workers)?;
    let values = row.close(passes, Vec::with_capacity(alloc, places)?);
    are_whole(rt, values.as_slice(), turns);
    Ok(())
}

#[test]
fn four_threads_move_the_values_of_three_places(rt: HostRuntime) -> Result<(), AllocError> {
    exchange(&rt, rt.alloc(), 4, 200_000, 3)
}

#[test]
fn four_threads_take_one_value(rt: HostRuntime) -> Result<(), AllocError> {
    exchange(&rt, rt.alloc(), 4, 200_000, 1)
}

#[test]
fn sixteen_threads_move_sixty_values(rt: HostRuntime) -> Result<(), AllocError> {
    exchange(&rt, rt.alloc(), 16, 50_000, 60)
}

// A thread's hand of a shelf, what it has, and what it put there and got.
#[derive(Drop)]
struct Trader {
    hand: ShelfHand<Box<Value>>,
    own: Option<Box<Value>>,
    puts: u64,
    gets: u64,
}

// Exchanges what the trader has for what is on the shelf, so many times.
fn trade(rt: &impl Abort, shelf: &Shelf<Box<Value>>, trader: &mut Trader, turns: usize) {
    for _ in 0..turns {
        let mut brought = trader.own.take();
        if let Some(value) = &mut brought {
            value.is_out = false;
            trader.puts += 1;
        }
        let mut found = shelf.swap(&mut trader.hand, brought);
        if let Some(value) = &mut found {
            mark(rt, value);
            trader.gets += 1;
        }
        trader.own = found;
    }
}

// What traders had at the end: their hands, their values, and what they put on the shelf and got.
#[derive(Drop)]
struct Counted {
    hands: Vec<ShelfHand<Box<Value>>>,
    values: Vec<Box<Value>>,
    puts: u64,
    gets: u64,
}

fn counted(alloc: Global, mut traders: Vec<Trader>) -> Result<Counted, AllocError> {
    let mut all = Counted {
        hands: Vec::with_capacity(alloc, traders.len())?,
        values: Vec::with_capacity(alloc, traders.len() + 1)?,
        puts: 0,
        gets: 0,
    };
    while let Some(trader) = traders.pop() {
        let Trader { hand, own, puts, gets } = trader;
        all.hands.push_reserved(hand);
        if let Some(mut value) = own {
            value.is_out = false;
            all.values.push_reserved(value);
        }
        all.puts += puts;
        all.gets += gets;
    }
    traders.destroy_empty();
    Ok(all)
}

// This many threads exchange over one shelf, so often each. Each value is with one of them then, or left there.
fn crowd<R: Threads + Abort + Sync>(rt: &R, alloc: Global, threads: u32, turns: usize) -> Result<(), AllocError> {
    let (shelf, mut hands) = Shelf::new(alloc, threads)?;
    let mut values = values_of(alloc, threads as usize)?;
    let mut traders = Vec::with_capacity(alloc, threads as usize)?;
    while let Some(hand) = hands.pop() {
        let own = values.pop();
        traders.push_reserved(Trader { hand, own, puts: 0, gets: 0 });
    }
    hands.destroy_empty();
    let count = traders.len();
    for_each_mut(rt, traders.as_mut_slice(), count, &|_, trader| trade(rt, &shelf, trader, turns));
    let Counted { hands, mut values, puts, gets } = counted(alloc, traders)?;
    let left = shelf.close(hands);
    holds(rt, left.puts == puts && left.gets == gets);
    holds(rt, puts == gets + u64::from(left.object.is_some()));
    if let Some(value) = left.object {
        values.push_reserved(value);
    }
    are_whole(rt, values.as_slice(), gets);
    Ok(())
}

#[test]
fn two_threads_hand_one_another_values(rt: HostRuntime) -> Result<(), AllocError> {
    crowd(&rt, rt.alloc(), 2, 500_000)
}

#[test]
fn four_threads_hand_one_another_values(rt: HostRuntime) -> Result<(), AllocError> {
    crowd(&rt, rt.alloc(), 4, 250_000)
}

#[test]
fn sixty_four_threads_hand_one_another_values(rt: HostRuntime) -> Result<(), AllocError> {
    crowd(&rt, rt.alloc(), 64, 15_000)
}
