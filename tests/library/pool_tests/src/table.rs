//! The table of owners, before the jobs and after them.

use crate::facts::holds;
use owners_table::mark::{Mark, WORDS_OF_A_RUN};
use owners_table::owners::{OwnerSeat, Owners};
use std::alloc::{AllocError, Global};
use std::process::Abort;

// A slot for each object of any arena.
const SLOTS: u32 = 65_536;

// A table with this many seats, 65 at most, and another one.
pub(crate) fn table_of(
    alloc: Global,
    count: u32,
) -> Result<(Owners, Vec<OwnerSeat>, OwnerSeat), AllocError> {
    let (owners, mut seats) = Owners::of_arena(alloc, count.min(65) + 1)?;
    let Some(other) = seats.pop() else {
        unreachable!()
    };
    Ok((owners, seats, other))
}

// The seat claims this many of the first slots.
pub(crate) fn claim_first(rt: &impl Abort, owners: &Owners, seat: &mut OwnerSeat, count: u32) {
    for slot in 0..count.min(SLOTS) {
        let claim = owners.claim(seat, slot, Mark { run: 0, at: 0 });
        holds(rt, "the slot was free", claim.is_ok());
    }
}

// That runs have this many of the first slots, and no others, and that no shelf has one, once the table is closed.
pub(crate) fn are_free(
    rt: &impl Abort,
    alloc: Global,
    owners: Owners,
    seats: Vec<OwnerSeat>,
    other: OwnerSeat,
    claimed: u32,
) -> Result<(), AllocError> {
    let mut seats = seats;
    seats.push(other)?;
    let words = owners.close(alloc, seats)?;
    let owned = (0..SLOTS).take_while(|slot| is_of_a_run(words[*slot as usize])).count();
    let free = words.iter().filter(|word| **word == 0).count();
    holds(
        rt,
        "the slots that were free are free",
        owned == claimed as usize && owned + free == words.len(),
    );
    Ok(())
}

// How many slots runs have, and shelves, once the table is closed.
pub(crate) fn owned(
    alloc: Global,
    owners: Owners,
    seats: Vec<OwnerSeat>,
) -> Result<(usize, usize), AllocError> {
    let words = owners.close(alloc, seats)?;
    let runs = words.iter().filter(|word| is_of_a_run(**word)).count();
    let free = words.iter().filter(|word| **word == 0).count();
    let shelves = words.len().wrapping_sub(runs).wrapping_sub(free);
    Ok((runs, shelves))
}

// Whether a slot with this word is a run's.
fn is_of_a_run(word: u64) -> bool {
    word >= WORDS_OF_A_RUN
}
