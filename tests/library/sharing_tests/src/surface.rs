//! Each public call of shared_row, exchange_shelf and lending_row, made once, and each type with its fields.
//!
//! They are written only from the signatures, so a reader of these can see here how a call looks.

use crate::facts::holds;
use exchange_shelf::{Left, Shelf, ShelfHand};
use lending_row::{Fitting, LendingRow, Lent, Loan, Returned};
use shared_row::{Pass, Row, Scale};
use std::alloc::AllocError;
use std::process::Abort;

// A number weighs itself on the left, and on the right what it was at the start, which is 10.
pub(crate) struct Tens;

impl Scale<u64> for Tens {
    ghost left = { λ x. x };

    ghost right = { λ x. 10 };
}

// A number is at most the one that its row was told.
pub(crate) struct AtMost;

impl Fitting<u64, u64> for AtMost {
    ghost use Rattle.std.specs.Prelude.{◌≤◌};

    ghost fits = { λ most x. x ≤ most };
}

// The only element of a list.
fn only<T>(rt: &impl Abort, mut list: Vec<T>) -> T {
    let Some(element) = list.pop() else {
        panic!(rt; "the list is empty");
    };
    list.destroy_empty();
    element
}

#[test]
fn a_value_is_taken_and_put(rt: HostRuntime) -> Result<(), AllocError> {
    let alloc = rt.alloc();
    let made: Result<(Row<u64, Tens>, Vec<Pass<u64, Tens>>), Vec<u64>> = Row::new(alloc, vec![in alloc; 10, 10]?, 1);
    let Ok((row, passes)) = made else {
        panic!(&rt; "no memory");
    };
    let mut pass = only(&rt, passes);
    holds(&rt, row.places() == 2);
    let Some(value) = row.take(&mut pass, 1) else {
        panic!(&rt; "the value is there");
    };
    holds(&rt, value == 10 && row.take(&mut pass, 1).is_none());
    row.put(&mut pass, 1, value + 5);
    let values = row.close(vec![in alloc; pass]?, Vec::with_capacity(alloc, 2)?);
    holds(&rt, matches!(values.as_slice(), [10, 15]));
    Ok(())
}

#[test]
fn a_value_is_left_and_got(rt: HostRuntime) -> Result<(), AllocError> {
    let alloc = rt.alloc();
    let (shelf, hands): (Shelf<u64>, Vec<ShelfHand<u64>>) = Shelf::new(alloc, 1)?;
    let mut hand = only(&rt, hands);
    holds(&rt, shelf.swap(&mut hand, Some(5)).is_none());
    holds(&rt, shelf.swap(&mut hand, Some(6)) == Some(5));
    holds(&rt, shelf.swap(&mut hand, None) == Some(6));
    holds(&rt, shelf.swap(&mut hand, Some(7)).is_none());
    let Left { object, puts, gets } = shelf.close(vec![in alloc; hand]?);
    holds(&rt, object == Some(7) && puts == 3 && gets == 2);
    Ok(())
}

#[test]
fn a_value_is_lent(rt: HostRuntime) -> Result<(), AllocError> {
    let alloc = rt.alloc();
    let made: Result<LendingRow<u64, u64, AtMost>, Vec<u64>> = LendingRow::new(alloc, vec![in alloc; 10, 20]?, &30);
    let Ok(row) = made else {
        panic!(&rt; "no memory");
    };
    holds(&rt, row.places() == 2);
    let taken: Result<(u64, Loan<u64, u64>), Lent<u64, u64>> = row.take(1);
    let Ok((value, loan)) = taken else {
        panic!(&rt; "the value is there");
    };
    holds(&rt, value == 20 && row.take(1).is_err());
    let _: Returned<u64, u64> = row.put(loan, value + 5);
    let Ok((value, _)) = row.take(1) else {
        panic!(&rt; "the value is back");
    };
    holds(&rt, value == 25);
    Ok(())
}
