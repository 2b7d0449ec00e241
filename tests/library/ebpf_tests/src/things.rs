//! Objects as a caller of ebpf_machine may make them: each call of `new` is granted one, or none is, and each shelf keeps what is put
//! there.

use ebpf_machine::kinds::row_of;
use ebpf_machine::objects::Objects;
use std::alloc::Global;

// An object: its bytes.
#[derive(Drop)]
pub(crate) struct Thing {
    bytes: Vec<u8>,
}

// A shelf for each kind. What is out is with the runs.
#[derive(Drop)]
pub(crate) struct Things {
    alloc: Global,
    grants: bool,
    shelves: [Option<Thing>; 3],
}

impl Things {
    // Nothing is on the shelves.
    pub(crate) fn new(alloc: Global, grants: bool) -> Things {
        Things {
            alloc,
            grants,
            shelves: [None, None, None],
        }
    }
}

impl Objects for Things {
    // What a proof would say of these objects: nothing is proved of a test.
    ghost store = { ? };
    ghost has_size = { ? };

    type Held = Thing;

    fn take(&mut self, kind: u8, _at: u16) -> Option<Thing> {
        if !self.grants {
            return None;
        }
        let row = row_of(kind);
        match vec![in self.alloc; row.fill; row.size as usize] {
            Ok(bytes) => Some(Thing { bytes }),
            Err(_) => None,
        }
    }

    fn give(&mut self, _kind: u8, object: Thing) {
        drop(object);
    }

    fn swap(&mut self, shelf: u8, given: Option<Thing>, _at: u16) -> Option<Thing> {
        let got = self.shelves[shelf as usize].take();
        self.shelves[shelf as usize] = given;
        got
    }

    fn bytes<'b>(&'b self, held: &'b Thing) -> &'b [u8] {
        &held.bytes
    }

    fn write(&mut self, held: &mut Thing, place: usize, bytes: &[u8]) {
        held.bytes[place..place + bytes.len()].copy_from_slice(bytes);
    }
}
