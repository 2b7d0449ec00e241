//! Calls whose memory may be refused: each leaves what was there, and then does when it is made again what it would have done at
//! once. The script tests/want-of-memory refuses one allocation after another, and looks for each line that is reported here.

use crate::facts::holds;
use crate::surface::{AtMost, Tens};
use exchange_shelf::{Shelf, ShelfHand};
use lending_row::LendingRow;
use shared_row::{Pass, Row};
use std::alloc::{AllocError, Global};
use std::process::Abort;

fn warns(rt: &impl Print, call: &str) {
    let _ = println!(rt; "refused: {call}");
}

fn row_again<R: Abort + Print>(rt: &R, alloc: Global, values: Vec<u64>) -> (Row<u64, Tens>, Vec<Pass<u64, Tens>>) {
    match Row::new(alloc, values, 2) {
        Ok(made) => made,
        Err(back) => {
            warns(rt, "a row");
            holds(rt, matches!(back.as_slice(), [1, 2, 27]));
            match Row::new(alloc, back, 2) {
                Ok(made) => made,
                Err(_) => panic!(rt; "memory is refused once"),
            }
        }
    }
}

fn shelf_again<R: Abort + Print>(rt: &R, alloc: Global) -> (Shelf<u64>, Vec<ShelfHand<u64>>) {
    match Shelf::new(alloc, 2) {
        Ok(made) => made,
        Err(AllocError) => {
            warns(rt, "a shelf");
            match Shelf::new(alloc, 2) {
                Ok(made) => made,
                Err(AllocError) => panic!(rt; "memory is refused once"),
            }
        }
    }
}

fn lending_again<R: Abort + Print>(rt: &R, alloc: Global, values: Vec<u64>) -> LendingRow<u64, u64, AtMost> {
    match LendingRow::new(alloc, values, &30) {
        Ok(made) => made,
        Err(back) => {
            warns(rt, "a lending row");
            holds(rt, matches!(back.as_slice(), [1, 2, 27]));
            match LendingRow::new(alloc, back, &30) {
                Ok(made) => made,
                Err(_) => panic!(rt; "memory is refused once"),
            }
        }
    }
}

// Three values with room for them in another list, if there is memory.
fn lists(alloc: Global) -> Result<(Vec<u64>, Vec<u64>), AllocError> {
    Ok((vec![in alloc; 1, 2, 27]?, Vec::with_capacity(alloc, 3)?))
}

#[test]
fn each_call_is_made_again_where_memory_is_refused(rt: HostRuntime) {
    let Ok((values, into)) = lists(rt.alloc()) else {
        return;
    };
    let (row, passes) = row_again(&rt, rt.alloc(), values);
    let values = row.close(passes, into);
    holds(&rt, matches!(values.as_slice(), [1, 2, 27]));
    let row = lending_again(&rt, rt.alloc(), values);
    holds(&rt, matches!(row.take(2), Ok((27, _))));
    let (shelf, hands) = shelf_again(&rt, rt.alloc());
    holds(&rt, shelf.close(hands).object.is_none());
}
