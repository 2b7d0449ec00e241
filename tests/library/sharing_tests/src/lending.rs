//! What is taken from the places of a lending row, and put back, by one call after another and by threads.

use crate::crowds::{Value, are_whole, mark, values_of};
use crate::facts::{holds, is_text};
use crate::surface::AtMost;
use exchange_shelf::{Shelf, ShelfHand};
use lending_row::{Fitting, LendingRow, Loan};
use std::alloc::{AllocError, Global};
use std::process::Abort;
use std::thread::{Threads, for_each_mut};

// A row: what it shows; the values; the calls; and what is in the places at the end. `1<7` is that 7 is taken from place 1, `1<-` that its value is
// lent, and `1>8` that 8 is put there.
const ROWS: &str = "\
values are in the order of their places | 3 1 2 | 2<2 0<3 1<1 0>3 1>1 2>2 | 3 1 2
a value is lent once | 10 20 | 0<10 0<- 0<- 1<20 0<- 1<- 0>11 1>21 | 11 21
what is put is taken next | 1 | 0<1 0>2 0<2 0>3 0<3 0<- 0>4 | 4
what is not put back is lent at the end | 1 2 3 | 1<2 | 1 - 3
values change places | 4 6 | 0<4 1<6 0>6 1>4 | 6 4
nothing is done with 12 places | 1 2 3 4 5 6 7 8 9 10 11 12 | | 1 2 3 4 5 6 7 8 9 10 11 12
a row has no place | | | ";

type Numbers = LendingRow<u64, u64, AtMost>;

// The numbers of a text, with spaces between them.
fn numbers(alloc: Global, text: &str) -> Result<Vec<u64>, AllocError> {
    let mut all = Vec::new(alloc);
    for word in text.split_ascii_whitespace() {
        all.push(word.parse().unwrap_or(u64::MAX))?;
    }
    Ok(all)
}

// Makes the call, and compares what it answers.
fn make(rt: &impl Abort, row: &Numbers, loans: &mut [Option<Loan<u64, u64>>], call: &str) {
    if let Some((place, value)) = call.split_once('>') {
        let Some(loan) = loans[place.parse().unwrap_or(usize::MAX)].take() else {
            panic!(rt; "{call}: there is no loan");
        };
        row.put(loan, value.parse().unwrap_or(u64::MAX));
        return;
    }
    let Some((place, expected)) = call.split_once('<') else {
        panic!(rt; "{call} is no call");
    };
    let place = place.parse().unwrap_or(usize::MAX);
    match row.take(place) {
        Ok((value, loan)) => {
            assert!(rt; expected.parse() == Ok(value), "{call}: {value}");
            loans[place] = Some(loan);
        }
        Err(_) => assert!(rt; expected == "-", "{call}"),
    }
}

// What is in the places of the row at the end, as a text.
fn after(rt: &impl Abort, alloc: Global, values: &str, calls: &str) -> Result<String, AllocError> {
    let values = numbers(alloc, values)?;
    let places = values.len();
    let Ok(row) = Numbers::new(alloc, values, &100) else {
        panic!(rt; "no memory");
    };
    holds(rt, row.places() == places);
    let mut loans = Vec::with_capacity(alloc, places)?;
    for _ in 0..places {
        loans.push_reserved(None);
    }
    for call in calls.split_ascii_whitespace() {
        make(rt, &row, loans.as_mut_slice(), call);
    }
    let mut text = String::new(alloc);
    for place in 0..places {
        let gap = if place == 0 { "" } else { " " };
        match row.take(place) {
            Ok((value, _)) => text.push_str(format!(in alloc; "{gap}{value}")?.as_str())?,
            Err(_) => text.push_str(format!(in alloc; "{gap}-")?.as_str())?,
        }
    }
    Ok(text)
}

#[test]
fn places_are_left_with_their_values(rt: HostRuntime) -> Result<(), AllocError> {
    for row in ROWS.lines() {
        let (what, columns) = row.split_once(" | ").ok_or(AllocError)?;
        let (values, columns) = columns.split_once("| ").ok_or(AllocError)?;
        let (calls, expected) = columns.split_once("| ").ok_or(AllocError)?;
        let text = after(&rt, rt.alloc(), values, calls)?;
        is_text(&rt, what, text.as_str(), expected);
    }
    Ok(())
}

// Any value fits.
struct Any;

impl Fitting<Box<Value>, u64> for Any {
    ghost fits = { λ k b. Unit {0} };
}

type Lending = LendingRow<Box<Value>, u64, Any>;

// A value on its way from one thread to another, with its loan.
type Lot = (Box<Value>, Loan<Box<Value>, u64>);

// A thread's hand of a shelf, its number, and how often it took a value.
#[derive(Drop)]
struct Lender {
    hand: ShelfHand<Lot>,
    number: usize,
    turns: u64,
}

fn give_back(row: &Lending, lot: Lot) {
    let (mut value, loan) = lot;
    value.is_out = false;
    row.put(loan, value);
}

// Takes values from all places in turn, leaves each with its loan on the shelf for another thread, and puts back what others left there.
fn lend(rt: &impl Abort, row: &Lending, shelf: &Shelf<Lot>, lender: &mut Lender, turns: usize) {
    for round in 0..turns {
        let mut brought = None;
        if let Ok((mut value, loan)) = row.take((round + lender.number) % row.places()) {
            mark(rt, &mut value);
            lender.turns += 1;
            brought = Some((value, loan));
        }
        if let Some(lot) = shelf.swap(&mut lender.hand, brought) {
            give_back(row, lot);
        }
    }
}

// The values of the places in order, of which none is lent.
fn taken(rt: &impl Abort, alloc: Global, row: &Lending) -> Result<Vec<Box<Value>>, AllocError> {
    let mut values = Vec::with_capacity(alloc, row.places())?;
    for place in 0..row.places() {
        match row.take(place) {
            Ok((value, _)) => {
                holds(rt, value.number == 1 << place);
                values.push_reserved(value);
            }
            Err(_) => panic!(rt; "the value of place {place} is lent"),
        }
    }
    Ok(values)
}

// This many threads, each with this many turns, and this many places.
fn crowd<R: Threads + Abort + Sync>(rt: &R, alloc: Global, threads: u32, turns: usize, places: usize) -> Result<(), AllocError> {
    let Ok(row) = Lending::new(alloc, values_of(alloc, places)?, &0) else {
        return Err(AllocError);
    };
    let (shelf, mut hands) = Shelf::new(alloc, threads)?;
    let mut lenders = Vec::with_capacity(alloc, threads as usize)?;
    while let Some(hand) = hands.pop() {
        let number = hands.len();
        lenders.push_reserved(Lender { hand, number, turns: 0 });
    }
    let count = lenders.len();
    for_each_mut(rt, lenders.as_mut_slice(), count, &|_, lender| lend(rt, &row, &shelf, lender, turns));
    let mut turns = 0;
    while let Some(lender) = lenders.pop() {
        turns += lender.turns;
        hands.push_reserved(lender.hand);
    }
    lenders.destroy_empty();
    if let Some(lot) = shelf.close(hands).object {
        give_back(&row, lot);
    }
    are_whole(rt, taken(rt, alloc, &row)?.as_slice(), turns);
    Ok(())
}

#[test]
fn two_threads_lend_one_value(rt: HostRuntime) -> Result<(), AllocError> {
    crowd(&rt, rt.alloc(), 2, 200_000, 1)
}

#[test]
fn four_threads_lend_three_values(rt: HostRuntime) -> Result<(), AllocError> {
    crowd(&rt, rt.alloc(), 4, 200_000, 3)
}

#[test]
fn sixteen_threads_lend_sixty_values(rt: HostRuntime) -> Result<(), AllocError> {
    crowd(&rt, rt.alloc(), 16, 50_000, 60)
}
