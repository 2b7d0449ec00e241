//! What hands bring to a shelf and what they find there, one exchange after another.

use crate::facts::is_text;
use exchange_shelf::{Left, Shelf, ShelfHand};
use std::alloc::{AllocError, Global};
use std::process::Abort;

// A row: what it shows; the exchanges of three hands; what is left, how often a value was put there, and how often one was got. `a:5=-` is that hand
// a brings 5 and finds nothing, `b:-=5` that hand b brings nothing and gets 5.
const ROWS: &str = "\
nothing is there at the start | a:-=- b:-=- c:-=- | - 0 0
a value is got once | a:5=- b:-=5 c:-=- | - 1 1
a hand gets its own value | a:5=- a:-=5 | - 1 1
a value that is brought goes for the one that is there | a:1=- b:2=1 c:3=2 a:4=3 | 4 4 3
a value is left | a:1=- b:-=1 b:9=- | 9 2 1
a value goes round | a:1=- b:-=1 b:1=- c:-=1 c:1=- a:-=1 a:1=- | 1 4 3
no exchange is made | | - 0 0";

// What a word says: a number, or nothing.
fn value(word: &str) -> Option<u64> {
    match word {
        "-" => None,
        number => Some(number.parse().unwrap_or(u64::MAX)),
    }
}

// The hand that an exchange names, of three.
fn hand_of(exchange: &str) -> usize {
    match exchange.as_bytes()[0] {
        b'a' => 0,
        b'b' => 1,
        _ => 2,
    }
}

// Makes the exchange, and compares what it answers.
fn make(rt: &impl Abort, shelf: &Shelf<u64>, hands: &mut [ShelfHand<u64>], exchange: &str) {
    let Some((brought, found)) = exchange[2..].split_once('=') else {
        panic!(rt; "{exchange} is no exchange");
    };
    let hand = &mut hands[hand_of(exchange)];
    assert!(rt; shelf.swap(hand, value(brought)) == value(found), "{exchange}");
}

// What a shelf is left with, and its counts, as a text.
fn after(rt: &impl Abort, alloc: Global, exchanges: &str) -> Result<String, AllocError> {
    let (shelf, mut hands) = Shelf::new(alloc, 3)?;
    for exchange in exchanges.split_ascii_whitespace() {
        make(rt, &shelf, hands.as_mut_slice(), exchange);
    }
    let Left { object, puts, gets } = shelf.close(hands);
    match object {
        Some(value) => format!(in alloc; "{value} {puts} {gets}"),
        None => format!(in alloc; "- {puts} {gets}"),
    }
}

#[test]
fn shelves_are_left_with_what_was_not_got(rt: HostRuntime) -> Result<(), AllocError> {
    for row in ROWS.lines() {
        let (what, columns) = row.split_once(" | ").ok_or(AllocError)?;
        let (exchanges, expected) = columns.split_once("| ").ok_or(AllocError)?;
        let text = after(&rt, rt.alloc(), exchanges)?;
        is_text(&rt, what, text.as_str(), expected);
    }
    Ok(())
}
