//! What is taken from the places of a row, and what is put there, one call after another.

use crate::facts::{holds, is_text};
use crate::surface::Tens;
use shared_row::{Pass, Row};
use std::alloc::{AllocError, Global};
use std::process::Abort;

// A row: what it shows; the values; the calls of three passes; and the values at the end. `a<1=7` is that pass a takes 7 from place 1, `a<1-` that it
// takes nothing, and `a>1=8` that it puts 8 there.
const ROWS: &str = "\
values are in the order of their places | 3 1 2 | c<2=2 a<0=3 b<1=1 a>0=3 b>1=1 c>2=2 | 3 1 2
a value is with one pass at a time | 10 20 | a<0=10 b<0- c<0- b<1=20 a<1- a>0=11 b>1=21 | 11 21
a pass finds that it has a value itself | 5 | a<0=5 a<0- a>0=5 | 5
what is put is taken next | 1 | a<0=1 a>0=2 b<0=2 b>0=3 c<0=3 c>0=4 a<0=4 a>0=5 | 5
a pass has all places, and gives them back last first | 1 2 3 | b<1=2 b<2=3 b<0=1 a<0- a<1- a<2- b>0=7 b>2=9 b>1=8 | 7 8 9
values change places | 4 6 | a<0=4 a<1=6 a>1=4 a>0=6 | 6 4
nothing is done with 40 places | 1 2 3 4 5 6 7 8 9 10 11 12 13 14 15 16 17 18 19 20 21 22 23 24 25 26 27 28 29 30 31 32 33 34 35 36 37 38 39 40 | | 1 2 3 4 5 6 7 8 9 10 11 12 13 14 15 16 17 18 19 20 21 22 23 24 25 26 27 28 29 30 31 32 33 34 35 36 37 38 39 40
a row has no place | | | ";

// The numbers of a text, with spaces between them.
fn numbers(alloc: Global, text: &str) -> Result<Vec<u64>, AllocError> {
    let mut all = Vec::new(alloc);
    for word in text.split_ascii_whitespace() {
        all.push(word.parse().unwrap_or(u64::MAX))?;
    }
    Ok(all)
}

// The pass that a call names, of three.
fn pass_of(call: &str) -> usize {
    match call.as_bytes()[0] {
        b'a' => 0,
        b'b' => 1,
        _ => 2,
    }
}

// Makes the call, and compares what it answers.
fn make(rt: &impl Abort, row: &Row<u64, Tens>, passes: &mut [Pass<u64, Tens>], call: &str) {
    let pass = &mut passes[pass_of(call)];
    let rest = &call[2..];
    if let Some((place, value)) = rest.split_once('=') {
        let place = place.parse().unwrap_or(usize::MAX);
        let value = value.parse().unwrap_or(u64::MAX);
        if call.as_bytes()[1] == b'>' {
            row.put(pass, place, value);
        } else {
            assert!(rt; row.take(pass, place) == Some(value), "{call}");
        }
        return;
    }
    let place = rest[..rest.len() - 1].parse().unwrap_or(usize::MAX);
    assert!(rt; row.take(pass, place).is_none(), "{call}");
}

// The values that the row has at the end, as a text.
fn after(rt: &impl Abort, alloc: Global, values: &str, calls: &str) -> Result<String, AllocError> {
    let values = numbers(alloc, values)?;
    let places = values.len();
    let Ok((row, mut passes)) = Row::<u64, Tens>::new(alloc, values, 3) else {
        panic!(rt; "no memory");
    };
    holds(rt, row.places() == places);
    for call in calls.split_ascii_whitespace() {
        make(rt, &row, passes.as_mut_slice(), call);
    }
    let values = row.close(passes, Vec::with_capacity(alloc, places)?);
    let mut text = String::new(alloc);
    for value in values.iter() {
        let gap = if text.is_empty() { "" } else { " " };
        text.push_str(format!(in alloc; "{gap}{value}")?.as_str())?;
    }
    Ok(text)
}

#[test]
fn rows_are_left_with_their_values(rt: HostRuntime) -> Result<(), AllocError> {
    for row in ROWS.lines() {
        let (what, columns) = row.split_once(" | ").ok_or(AllocError)?;
        let (values, columns) = columns.split_once("| ").ok_or(AllocError)?;
        let (calls, expected) = columns.split_once("| ").ok_or(AllocError)?;
        let text = after(&rt, rt.alloc(), values, calls)?;
        is_text(&rt, what, text.as_str(), expected);
    }
    Ok(())
}
