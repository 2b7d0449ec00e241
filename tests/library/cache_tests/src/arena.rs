//! Spans that are taken and come back.

use crate::facts::holds;
use std::alloc::Global;
use std::process::Abort;
use vmem_arena::{Arena, ArenaFault, NoSpan, Span};

// An arena of this many pages, 1 to 256.
pub(crate) fn arena_of(rt: &impl Abort, alloc: Global, pages: u32) -> Arena {
    match Arena::new(alloc, pages) {
        Ok(arena) => arena,
        Err(_) => panic!(rt; "no arena"),
    }
}

// This many pages of an arena that has them.
pub(crate) fn taken(rt: &impl Abort, arena: &mut Arena, n: u32) -> Span {
    match arena.take(n) {
        Ok(span) => span,
        Err(NoSpan) => panic!(rt; "the arena has no such pages"),
    }
}

#[test]
fn an_arena_has_1_to_256_pages(rt: HostRuntime) {
    for pages in [0, 257] {
        assert!(rt;
            matches!(Arena::new(rt.alloc(), pages), Err(ArenaFault::Pages)),
            "of {pages}"
        );
    }
    for pages in [1, 256] {
        assert!(rt;
            arena_of(&rt, rt.alloc(), pages).largest() == pages,
            "of {pages}"
        );
    }
}

#[test]
fn spans_that_come_back_are_merged(rt: HostRuntime) {
    let mut arena = arena_of(&rt, rt.alloc(), 4);
    let low = taken(&rt, &mut arena, 2);
    let high = taken(&rt, &mut arena, 2);
    holds(
        &rt,
        low.first() + high.first() == 2 && low.len() == 2 && high.len() == 2,
    );
    holds(&rt, arena.take(1).is_err());
    holds(&rt, arena.give(low) && arena.largest() == 2);
    holds(&rt, arena.give(high) && arena.largest() == 4);
}

// Gives the span back if it has page 0 or 2.
fn give_if_even(rt: &impl Abort, arena: &mut Arena, span: Span) {
    if span.first() == 0 || span.first() == 2 {
        holds(rt, arena.give(span));
    }
}

#[test]
fn pages_apart_make_no_longer_run(rt: HostRuntime) {
    let mut arena = arena_of(&rt, rt.alloc(), 4);
    let a = taken(&rt, &mut arena, 1);
    let b = taken(&rt, &mut arena, 1);
    let c = taken(&rt, &mut arena, 1);
    let d = taken(&rt, &mut arena, 1);
    give_if_even(&rt, &mut arena, a);
    give_if_even(&rt, &mut arena, b);
    give_if_even(&rt, &mut arena, c);
    give_if_even(&rt, &mut arena, d);
    holds(&rt, arena.largest() == 1 && arena.take(2).is_err());
}

#[test]
fn a_span_that_is_not_out_is_refused(rt: HostRuntime) {
    let mut here = arena_of(&rt, rt.alloc(), 4);
    let mut there = arena_of(&rt, rt.alloc(), 4);
    let stranger = taken(&rt, &mut there, 2);
    holds(&rt, !here.give(stranger) && here.largest() == 4);
}

#[test]
fn a_full_arena_comes_back_whole_in_any_order(rt: HostRuntime) {
    let mut arena = arena_of(&rt, rt.alloc(), 256);
    let mut spans = Vec::new(rt.alloc());
    for _ in 0..256u32 {
        let span = taken(&rt, &mut arena, 1);
        holds(&rt, spans.push(Some(span)).is_ok());
    }
    holds(&rt, arena.largest() == 0);

    // 89 and 256 have no common divisor, so each place comes once.
    for turn in 0..256usize {
        let place = turn * 89 % 256;
        assert!(rt; place < spans.len());
        let Some(span) = spans[place].take() else {
            panic!(rt; "a place comes twice");
        };
        holds(&rt, arena.give(span));
    }
    holds(&rt, arena.largest() == 256);
}

#[test]
fn a_request_of_no_class_is_met_by_its_own(rt: HostRuntime) {
    let mut arena = arena_of(&rt, rt.alloc(), 8);
    let low = taken(&rt, &mut arena, 3);
    let _high = taken(&rt, &mut arena, 5);
    holds(&rt, arena.give(low) && arena.largest() == 3);
    let _again = taken(&rt, &mut arena, 3);
    holds(&rt, arena.take(1).is_err());
}

// The pages of an arena as a list kept by hand: which are taken, and by which spans.
#[derive(Drop)]
struct Hand {
    taken: Vec<bool>,
    spans: Vec<Span>,
}

// The longest run of pages that are not taken.
fn longest_run(taken: &[bool]) -> u32 {
    let mut longest = 0u32;
    let mut run = 0u32;
    for is_taken in taken {
        run = if *is_taken { 0 } else { run.saturating_add(1) };
        longest = longest.max(run);
    }
    longest
}

// Marks the pages of a span, none of which was as it is to be.
fn mark(rt: &impl Abort, taken: &mut [bool], span: &Span, is_taken: bool) {
    let first = span.first() as usize;
    let end = first + span.len() as usize;
    assert!(rt; end <= taken.len(), "the arena has no such page");
    for page in taken[first..end].iter_mut() {
        assert!(rt; *page != is_taken, "a page of two spans");
        *page = is_taken;
    }
}

impl Hand {
    fn new(rt: &impl Abort, alloc: Global, pages: usize) -> Hand {
        let Ok(taken) = vec![in alloc; false; pages] else {
            panic!(rt; "no memory");
        };
        Hand {
            taken,
            spans: Vec::new(alloc),
        }
    }

    // Takes n pages of the arena, if the list has as many next to one another.
    fn take(&mut self, rt: &impl Abort, arena: &mut Arena, n: u32) {
        let longest = longest_run(&self.taken);
        match arena.take(n) {
            Ok(span) => {
                holds(rt, span.len() == n);
                mark(rt, &mut self.taken, &span, true);
                holds(rt, self.spans.push(span).is_ok());
            }
            Err(NoSpan) => holds(rt, longest < n),
        }
        holds(rt, arena.largest() == longest_run(&self.taken));
    }

    // Gives the arena a span that is out.
    fn give(&mut self, rt: &impl Abort, arena: &mut Arena, place: usize) {
        let span = self.spans.swap_remove(place);
        mark(rt, &mut self.taken, &span, false);
        holds(rt, arena.give(span));
        holds(rt, arena.largest() == longest_run(&self.taken));
    }
}

// The powers of 7 below `ORDERS`, the highest first.
const UNITS: [u64; 12] = [
    1_977_326_743,
    282_475_249,
    40_353_607,
    5_764_801,
    823_543,
    117_649,
    16_807,
    2_401,
    343,
    49,
    7,
    1,
];

// 7 to the 12th: the orders of six takes and six gives, as numbers of 12 digits. A digit 0 is the next take, and
// another that of the span to give, of those that are out.
const ORDERS: u64 = 13_841_287_201;

// Plays an order in an arena of 8 pages, and answers how far the next one is that begins otherwise: by a digit that
// can't be played, with the higher ones if no span has its number, or by the last.
fn play(rt: &impl Abort, alloc: Global, lengths: [u32; 3], order: u64) -> u64 {
    let mut arena = arena_of(rt, alloc, 8);
    let mut hand = Hand::new(rt, alloc, 8);
    let mut takes = 0usize;
    for unit in UNITS {
        assert!(rt; unit > 0 && unit < ORDERS);
        let digit = (order / unit % 7) as usize;
        if digit == 0 {
            if takes >= 6 {
                return unit;
            }
            let n = lengths[takes % 3];
            assert!(rt; n > 0);
            hand.take(rt, &mut arena, n);
            takes += 1;
        } else {
            if digit > hand.spans.len() {
                return 7 * unit;
            }
            hand.give(rt, &mut arena, digit - 1);
        }
    }
    1
}

// Plays all orders of six spans of these lengths.
fn play_all(rt: &impl Abort, alloc: Global, lengths: [u32; 3]) {
    let mut order = 0u64;
    for _ in 0..ORDERS {
        if order >= ORDERS {
            return;
        }
        let far = play(rt, alloc, lengths, order);
        assert!(rt; far > 0 && far <= ORDERS);
        order += far - order % far;
    }
}

#[test]
fn all_orders_of_six_spans_are_as_by_hand(rt: HostRuntime) {
    for lengths in [[1, 2, 3], [3, 1, 2], [2, 1, 1], [1, 1, 5]] {
        play_all(&rt, rt.alloc(), lengths);
    }
}

#[test]
fn a_walk_of_100000_steps_is_as_by_hand(rt: HostRuntime) {
    let mut arena = arena_of(&rt, rt.alloc(), 256);
    let mut hand = Hand::new(&rt, rt.alloc(), 256);
    let mut number = 1u32;
    for _ in 0..100_000u32 {
        number = number.wrapping_mul(1_664_525).wrapping_add(1_013_904_223);
        let roll = number >> 16;
        let count = hand.spans.len();
        if count == 0 || roll % 2 == 0 {
            hand.take(&rt, &mut arena, roll / 2 % 64 + 1);
        } else {
            hand.give(&rt, &mut arena, (roll / 2) as usize % count);
        }
    }
}
