//! New objects, and what is on shelves after each exchange.

use crate::programs::holds;
use ebpf_shelves::object::Object;
use ebpf_shelves::shelves::Shelves;
use std::alloc::Global;
use std::process::Abort;

// A new object of a kind in a slot.
fn object(rt: &impl Abort, alloc: Global, slot: u32, kind: u8) -> Object {
    Object::new(alloc, slot, kind).expect(rt, "out of memory")
}

// The sizes and fills of the kinds.
const KINDS: [(usize, u8); 3] = [(16, 0x00), (64, 0xff), (512, 0x5a)];

#[test]
fn a_new_object_has_the_image_of_its_kind(rt: HostRuntime) {
    for (kind, (size, fill)) in KINDS.iter().enumerate() {
        let new = object(&rt, rt.alloc(), 7, kind as u8);
        assert!(rt;
            new.slot == 7 && new.kind == kind as u8 && new.bytes.len() == *size && new.bytes.iter().all(|byte| *byte == *fill),
            "kind {kind}"
        );
    }
}

#[test]
fn an_exchange_answers_what_was_there(rt: HostRuntime) {
    let mut shelves = Shelves::empty();
    holds(&rt, "nothing at first", shelves.slot_on(1).is_none());
    let none = shelves.exchange(1, Some(object(&rt, rt.alloc(), 3, 1)));
    holds(&rt, "nothing was there", none.is_none());
    holds(&rt, "its slot is there", shelves.slot_on(1) == Some(3));
    let bytes = shelves.bytes_on(1).expect(&rt, "its bytes are not there");
    holds(&rt, "its bytes are there", bytes.len() == 64 && bytes[63] == 0xff);
    let none = shelves.exchange(2, Some(object(&rt, rt.alloc(), 4, 2)));
    holds(&rt, "nothing was on another shelf", none.is_none());
    let third = shelves.exchange(1, Some(object(&rt, rt.alloc(), 5, 1)));
    let third = third.expect(&rt, "the first object is lost");
    holds(&rt, "the first object comes off", third.slot == 3);
    let fifth = shelves.exchange(1, None).expect(&rt, "the other is lost");
    holds(&rt, "then the other", fifth.slot == 5);
    holds(&rt, "nothing is left", shelves.bytes_on(1).is_none());
    holds(&rt, "but on its neighbour", shelves.slot_on(2) == Some(4));
    holds(&rt, "there is no fourth", shelves.slot_on(3).is_none());
}
