//! Claims and draws, one after another and on threads side by side.

use crate::facts::holds;
use owners_table::mark::{Mark, Owner};
use owners_table::owners::{Other, OwnerSeat, Owners, Taken};
use owners_table::tickets::{TicketSeat, Tickets};
use std::alloc::{AllocError, Global};
use std::process::Abort;
use std::thread::{Threads, join};

// A table of this many slots, with its two seats.
fn table_of(rt: &impl Abort, alloc: Global, slots: u32) -> (Owners, OwnerSeat, OwnerSeat) {
    let Ok((owners, mut seats)) = Owners::new(alloc, slots, 2) else {
        panic!(rt; "no memory")
    };
    let Some(second) = seats.pop() else {
        unreachable!()
    };
    let Some(first) = seats.pop() else {
        unreachable!()
    };
    (owners, first, second)
}

// The words that a table leaves, closed with its two seats.
fn words_of(
    rt: &impl Abort,
    alloc: Global,
    owners: Owners,
    a: OwnerSeat,
    b: OwnerSeat,
) -> Vec<u64> {
    let Ok(seats) = vec![in alloc; a, b] else {
        panic!(rt; "no memory")
    };
    let Ok(words) = owners.close(alloc, seats) else {
        panic!(rt; "no memory")
    };
    words
}

#[test]
fn a_claim_is_granted_where_the_slot_is_free(rt: HostRuntime) {
    let (owners, mut a, mut b) = table_of(&rt, rt.alloc(), 4);
    let first = Mark { run: 0, at: 1 };
    let second = Mark { run: 5, at: 2 };
    let Ok(()) = owners.claim(&mut a, 3, first) else {
        panic!(&rt; "the slot was free")
    };
    holds(&rt, is_taken(owners.claim(&mut b, 3, first), first));
    holds(&rt, is_taken(owners.claim(&mut a, 3, second), first));
    owners.release(&mut a, 3);
    holds(&rt, owners.claim(&mut b, 3, second).is_ok());
    let (a, b) = owners.meet(a, b);
    let words = words_of(&rt, rt.alloc(), owners, a, b);
    holds(
        &rt,
        matches!(words.as_slice(), [0, 0, 0, 24578]) && second.word() == 24578,
    );
}

#[test]
fn a_shelved_slot_is_fetched_from_its_own_shelf(rt: HostRuntime) {
    let (owners, mut a, mut b) = table_of(&rt, rt.alloc(), 4);
    let first = Mark { run: 0, at: 1 };
    let second = Mark { run: 5, at: 2 };
    let free = owners.fetch(&mut b, 3, 2, second);
    holds(&rt, matches!(free, Err(Other { found: None })));
    let Ok(()) = owners.claim(&mut a, 3, first) else {
        panic!(&rt; "the slot was free")
    };
    let run = owners.fetch(&mut b, 3, 2, second);
    holds(
        &rt,
        matches!(run, Err(Other { found: Some(owner) }) if is_run(owner, first)),
    );
    owners.shelve(&mut a, 3, 2);
    let wrong = owners.fetch(&mut b, 3, 1, second);
    holds(
        &rt,
        matches!(
            wrong,
            Err(Other {
                found: Some(Owner::Shelf(2))
            })
        ),
    );
    let shelf = owners.claim(&mut b, 3, second);
    holds(
        &rt,
        matches!(
            shelf,
            Err(Taken {
                owner: Owner::Shelf(2)
            })
        ),
    );
    holds(&rt, owners.fetch(&mut b, 3, 2, second).is_ok());
    let Ok(()) = owners.claim(&mut a, 0, first) else {
        panic!(&rt; "the slot was free")
    };
    owners.shelve(&mut a, 0, 7);
    let words = words_of(&rt, rt.alloc(), owners, a, b);
    holds(&rt, matches!(words.as_slice(), [8, 0, 0, 24578]));
}

#[test]
fn a_seat_that_is_gone_leaves_its_slots_owned(rt: HostRuntime) {
    let (owners, mut a, _) = table_of(&rt, rt.alloc(), 2);
    let Ok(()) = owners.claim(&mut a, 1, Mark { run: 0, at: 3 }) else {
        panic!(&rt; "the slot was free")
    };
    let _ = a;
    let Ok(words) = owners.close(rt.alloc(), Vec::new(rt.alloc())) else {
        panic!(&rt; "no memory")
    };
    assert!(&rt; matches!(words.as_slice(), [0, 4099]));
}

// Claims each slot of a table for the run of its own number, and finds its mark in the word of the slot.
fn has_a_word_a_slot(rt: &impl Abort, alloc: Global, slots: u32) {
    let (owners, mut a, b) = table_of(rt, alloc, slots);
    for slot in 0..slots {
        holds(rt, owners.claim(&mut a, slot, Mark { run: slot, at: 1 }).is_ok());
    }
    let words = words_of(rt, alloc, owners, a, b);
    assert!(rt; words.len() == slots as usize, "{slots} slots");
    for (slot, word) in words.iter().enumerate() {
        assert!(rt; *word == (slot as u64 + 1) * 4096 + 1, "slot {slot} of {slots}");
    }
}

#[test]
fn tables_of_all_sizes_have_a_word_a_slot(rt: HostRuntime) {
    for slots in [0, 1, 15, 16, 17, 4_095, 4_096, 4_097, 65_535, 65_536, 65_537, 131_072] {
        has_a_word_a_slot(&rt, rt.alloc(), slots);
    }
}

// The claim found that the run of the mark owns the slot, by the call of the mark.
fn is_taken(claim: Result<(), Taken>, mark: Mark) -> bool {
    match claim {
        Ok(()) => false,
        Err(taken) => is_run(taken.owner, mark),
    }
}

// The owner is the run of the mark, by the call of the mark.
fn is_run(owner: Owner, mark: Mark) -> bool {
    match owner {
        Owner::Run(owner) => owner.run == mark.run && owner.at == mark.at,
        Owner::Shelf(_) => false,
    }
}

// Claims and releases the slots in turn, and counts the claims.
fn work(owners: &Owners, mut seat: OwnerSeat, run: u32, rounds: u32) -> (OwnerSeat, u32) {
    let mut granted = 0;
    let mut refused = 0;
    for round in 0..rounds {
        let slot = round % 64;
        match owners.claim(&mut seat, slot, Mark { run, at: 7 }) {
            Ok(()) => {
                owners.release(&mut seat, slot);
                granted += 1;
            }
            Err(_) => refused += 1,
        }
    }
    (seat, granted + refused)
}

#[test]
fn two_threads_leave_every_slot_free(rt: HostRuntime) {
    let (owners, a, b) = table_of(&rt, rt.alloc(), 64);
    let table = &owners;
    let ((a, first), (b, second)) = join(
        &rt,
        || -> (OwnerSeat, u32) { work(table, a, 1, 100_000) },
        || -> (OwnerSeat, u32) { work(table, b, 2, 100_000) },
    );
    holds(&rt, first == 100_000 && second == 100_000);
    let words = words_of(&rt, rt.alloc(), owners, a, b);
    holds(&rt, words.len() == 64 && words.iter().all(|w| *w == 0));
}

// One of the seats that were made with the tickets.
fn seat_of(rt: &impl Abort, tickets: &Tickets, seats: &mut Vec<TicketSeat>) -> TicketSeat {
    match seats.pop() {
        Some(seat) => seat,
        None => panic!(rt; "a seat is missing"),
    }
}

#[test]
fn tickets_end_at_their_limit(rt: HostRuntime) -> Result<(), AllocError> {
    let (tickets, mut seats) = Tickets::new(rt.alloc(), 3, 1)?;
    let mut seat = seat_of(&rt, &tickets, &mut seats);
    // 99 means None.
    for want in [0, 1, 2, 99, 99] {
        holds(&rt, tickets.draw(&mut seat).unwrap_or(99) == want);
    }
    tickets.close(vec![in rt.alloc(); seat]?);
    Ok(())
}

// Draws until there is no number, or `most` were drawn.
fn drain(
    rt: &impl Abort,
    alloc: Global,
    tickets: &Tickets,
    mut seat: TicketSeat,
    most: u32,
) -> (TicketSeat, Vec<u64>) {
    let mut drawn = Vec::new(alloc);
    for _ in 0..most {
        let Some(n) = tickets.draw(&mut seat) else {
            break;
        };
        if drawn.push(n).is_err() {
            panic!(rt; "no memory");
        }
    }
    (seat, drawn)
}

// Two threads that draw, and all that they drew.
fn drain_two<R: Threads + Abort + Sync>(
    rt: &R,
    alloc: Global,
    tickets: &Tickets,
    a: TicketSeat,
    b: TicketSeat,
    most: u32,
) -> (TicketSeat, TicketSeat, Vec<u64>) {
    let ((a, mut all), (b, other)) = join(
        rt,
        || -> (TicketSeat, Vec<u64>) { drain(rt, alloc, tickets, a, most) },
        || -> (TicketSeat, Vec<u64>) { drain(rt, alloc, tickets, b, most) },
    );
    if all.extend_from_slice(other.as_slice()).is_err() {
        panic!(rt; "no memory");
    }
    (a, b, all)
}

#[test]
fn four_threads_draw_every_number_once(rt: HostRuntime) -> Result<(), AllocError> {
    let alloc = rt.alloc();
    let (tickets, mut seats) = Tickets::new(alloc, 100_000, 4)?;
    let a = seat_of(&rt, &tickets, &mut seats);
    let b = seat_of(&rt, &tickets, &mut seats);
    let c = seat_of(&rt, &tickets, &mut seats);
    let d = seat_of(&rt, &tickets, &mut seats);
    let host = &rt;
    let all = &tickets;
    let ((a, b, drawn), (c, d, others)) = join(
        &rt,
        || -> (TicketSeat, TicketSeat, Vec<u64>) { drain_two(host, alloc, all, a, b, 100_001) },
        || -> (TicketSeat, TicketSeat, Vec<u64>) { drain_two(host, alloc, all, c, d, 100_001) },
    );
    holds(&rt, is_each_once(&rt, drawn, others, 100_000));
    tickets.close(vec![in alloc; a, b, c, d]?);
    Ok(())
}

// The two have each number below the limit once, and no other.
fn is_each_once(rt: &impl Abort, mut drawn: Vec<u64>, others: Vec<u64>, limit: usize) -> bool {
    if drawn.extend_from_slice(others.as_slice()).is_err() || drawn.sort().is_err() {
        panic!(rt; "no memory");
    }
    drawn.len() == limit && drawn.iter().enumerate().all(|(i, n)| *n == i as u64)
}
