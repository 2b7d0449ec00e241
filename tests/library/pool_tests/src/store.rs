//! A store that answers the calls of a run as it was given.

use ebpf_machine::kinds::row_of;
use ebpf_machine::objects::Objects;
use ebpf_machine::report::Reply;
use ebpf_shelves::object::Object;
use std::alloc::{AllocError, Global};
use std::sync::ledger::{Blank, Book, Ledger, Share};

// What became of a slot that was granted: the kind that it was granted for, and whether it is out still.
#[derive(Clone, Copy)]
pub(crate) struct Entry {
    pub(crate) kind: u8,
    pub(crate) is_out: bool,
}

// How often objects of each kind were granted, and refused, and how often they were put on its shelf, and got from there.
#[derive(Clone, Copy)]
pub(crate) struct Sums {
    pub(crate) granted: [u64; 3],
    pub(crate) refused: [u64; 3],
    pub(crate) puts: [u64; 3],
    pub(crate) gets: [u64; 3],
}

impl Sums {
    // Nothing yet.
    pub(crate) fn new() -> Sums {
        Sums {
            granted: [0; 3],
            refused: [0; 3],
            puts: [0; 3],
            gets: [0; 3],
        }
    }
}

// What a store gives a run: the answers of its calls of `new` and of `swap`, and the bytes of what comes off shelves, one object
// after another.
#[derive(Drop)]
pub(crate) struct Given {
    pub(crate) answers: Vec<Reply>,
    pub(crate) taken: Vec<u8>,
}

// How many calls had each answer. Only contracts count them, by a part of the ledger each.
#[derive(Drop)]
pub(crate) struct Tally<L: Ledger> {
    grants: Share<L>,
    nulls: Share<L>,
    gets: Share<L>,
    misses: Share<L>,
}

// A store for one run, with what it gives; nothing, if there is no answer more or no memory. A slot is granted once, and what
// comes off a shelf is in a slot of its own.
#[derive(Drop)]
pub(crate) struct Store<L: Ledger> {
    alloc: Global,
    table: Vec<Entry>,
    given: Given,
    next: usize,
    place: usize,
    sums: Sums,
    is_short: bool,
    book: Book<L>,
    tally: Tally<L>,
}

impl<L: Ledger> Store<L> {
    // A store that has granted nothing yet, over a new ledger.
    pub(crate) fn new(alloc: Global, given: Given, blank: Blank) -> Store<L> {
        let (book, mut grants) = blank.open::<L>();
        let nulls = grants.split_off(1, 0);
        let gets = grants.split_off(1, 0);
        let misses = grants.split_off(1, 0);
        Store {
            alloc,
            table: Vec::new(alloc),
            given,
            next: 0,
            place: 0,
            sums: Sums::new(),
            is_short: false,
            book,
            tally: Tally {
                grants,
                nulls,
                gets,
                misses,
            },
        }
    }

    // What it granted and refused, and what went onto shelves and came off; none if memory ran out.
    pub(crate) fn sums(&self) -> Option<Sums> {
        if self.is_short { None } else { Some(self.sums) }
    }

    // Takes what is given to a shelf: it is no longer out.
    fn leave(&mut self, shelf: u8, given: Option<Object>) {
        if let Some(object) = given {
            count(&mut self.sums.puts, shelf);
            self.close(shelf, object);
        }
    }

    // Takes an object of a kind back: it is no longer out.
    fn close(&mut self, kind: u8, object: Object) {
        let Object {
            slot,
            kind: _,
            bytes: _,
        } = object;
        self.table[slot as usize] = Entry {
            kind,
            is_out: false,
        };
    }

    // The next answer, if there is one.
    fn answer(&mut self) -> Option<Reply> {
        let answer = self.given.answers.get(self.next).copied();
        self.next = self.next.wrapping_add(1);
        answer
    }

    // An object of a kind in a fresh slot, with these bytes; none if memory runs out.
    fn put_out(&mut self, kind: u8, bytes: Vec<u8>) -> Option<Object> {
        let slot = self.table.len() as u32;
        let entry = Entry { kind, is_out: true };
        if self.table.push(entry).is_err() {
            self.is_short = true;
            return None;
        }
        Some(Object { slot, kind, bytes })
    }

    // An object of a kind in a fresh slot, with its image; none if memory runs out.
    fn grant(&mut self, kind: u8) -> Option<Object> {
        let row = row_of(kind);
        let Ok(bytes) = vec![in self.alloc; row.fill; row.size as usize] else {
            self.is_short = true;
            return None;
        };
        self.put_out(kind, bytes)
    }

    // An object that comes off the shelf of a kind, in a fresh slot; none if memory runs out.
    fn fetch(&mut self, kind: u8) -> Option<Object> {
        let size = row_of(kind).size as usize;
        let Ok(bytes) = bytes_at(self.alloc, &self.given.taken, self.place, size) else {
            self.is_short = true;
            return None;
        };
        self.place = self.place.wrapping_add(size);
        self.put_out(kind, bytes)
    }
}

// This many bytes from a place on; 0 for each that isn't there.
fn bytes_at(alloc: Global, all: &[u8], place: usize, size: usize) -> Result<Vec<u8>, AllocError> {
    let mut bytes = vec![in alloc; 0; size]?;
    for (byte, from) in bytes.iter_mut().zip(all.iter().skip(place)) {
        *byte = *from;
    }
    Ok(bytes)
}

// One more of a kind.
fn count(counts: &mut [u64; 3], kind: u8) {
    if let Some(count) = counts.get_mut(kind as usize) {
        *count = count.wrapping_add(1);
    }
}

impl<L: Ledger> Objects for Store<L> {
    // What a proof would say of this store: nothing is proved of a test.
    ghost store = { ? };
    ghost has_size = { ? };

    type Held = Object;

    fn take(&mut self, kind: u8, _at: u16) -> Option<Object> {
        if let Some(Reply::Granted) = self.answer() {
            if let Some(object) = self.grant(kind) {
                count(&mut self.sums.granted, kind);
                self.book.add(&mut self.tally.grants, 1);
                return Some(object);
            }
        }
        count(&mut self.sums.refused, kind);
        self.book.add(&mut self.tally.nulls, 1);
        None
    }

    fn give(&mut self, kind: u8, object: Object) {
        self.close(kind, object);
    }

    // What is given is gone, and what comes off is what the run is to find there.
    fn swap(&mut self, shelf: u8, given: Option<Object>, _at: u16) -> Option<Object> {
        self.leave(shelf, given);
        if let Some(Reply::Shelf) = self.answer() {
            if let Some(object) = self.fetch(shelf) {
                count(&mut self.sums.gets, shelf);
                self.book.add(&mut self.tally.gets, 1);
                return Some(object);
            }
        }
        self.book.add(&mut self.tally.misses, 1);
        None
    }

    fn bytes<'b>(&'b self, held: &'b Object) -> &'b [u8] {
        &held.bytes
    }

    fn write(&mut self, held: &mut Object, place: usize, bytes: &[u8]) {
        held.bytes[place..place + bytes.len()].copy_from_slice(bytes);
    }
}
