//! Worlds whose runs share slots: what `replay` says of them, and what is read of the slots after each event.

use crate::accepted::read;
use crate::events::is_replayed;
use crate::programs::is_text;
use ebpf_core::event::Event;
use ebpf_core::world::World;
use std::alloc::AllocError;
use std::process::Abort;
use std::test::*;

// p asks for a record, writes 5 to its first bytes, reads them and frees it; q asks for one, reads its first bytes and frees
// it. Each returns what it read.
const PROGRAMS: &str = "\
program p 0 1 b701000001000000850000000100000015000500000000007a000000050000007906000000000000bf010000000000008500000002000000bf600000000000009500000000000000
program q 0 1 b7010000010000008500000001000000150004000000000079060000000000\
00bf010000000000008500000002000000bf600000000000009500000000000000
";

// What happens, the events after `PROGRAMS`, a `;` for each end of a line, and what is reported of them after the verdicts.
const ROWS: &str = "\
a slot that is held is granted | grow 1 0;start p -;start q -;exec 0;exec 1;exec 0 0;exec 1 0; | stopped E3 6;
a slot that was freed is granted, with its image | grow 1 0;start p -;start q -;exec 0;exec 1;exec 0 0;exec 0;exec 0;exec 0;exec 0;exec 0;exec 1 0;exec 1;exec 1;exec 1;exec 1;exec 1;exec 1;exec 0;exec 0; | run 0 exit 5 executed 9;run 1 exit 18446744073709551615 executed 8;kind 0 slots 0 held 0;kind 1 slots 1 held 0;kind 2 slots 0 held 0;
a slot that is held is reaped | grow 1 0;start p -;start q -;exec 0;exec 1;exec 0 0;exec 0;exec 0;exec 0;exec 0;exec 0;exec 1 0;reap 1 0; | stopped E8 12;
a slot of another kind joins | grow 1 0;grow 0 0; | stopped E7 1;
there is no such kind | grow 3 0; | stopped E9 0;
a slot of another kind leaves | grow 1 0;reap 0 0; | stopped E8 1;
a slot of another kind is granted | grow 0 0;start p -;exec 0;exec 0 0; | stopped E4 3;
there is no answer | grow 0 0;start p -;exec 0;exec 0; | stopped E6 3;
a run holds one of two slots | grow 1 7;grow 1 3;start p -;exec 0;exec 0 7; | run 0 going 2 executed 2;kind 0 slots 0 held 0;kind 1 slots 2 held 1;kind 2 slots 0 held 0;";

#[test]
fn runs_that_share_slots_are_reported(rt: HostRuntime) {
    for row in ROWS.lines() {
        is_replayed(
            &rt,
            rt.alloc(),
            PROGRAMS,
            "p accepted 9\nq accepted 8\n",
            row,
        );
    }
}

// Two runs ask for records; the first writes to its own and frees it, and then its slot becomes a cell's. Then s puts a record on
// its shelf, and t takes it.
const EVENTS: &str = "\
program s 0 1 b70100000100000085000000010000001500060000000000bf02000000000000b70100000100000085000000040000001500020000000000bf0100000000000085000000020000009500000000000000
program t 0 1 b701000001000000b70200000000000085000000040000001500020000000000bf0100000000000085000000020000009500000000000000
grow 1 9
grow 1 7
grow 0 3
start p -
start q -
exec 0
exec 0 7
exec 1
exec 1 9
exec 0
exec 0
exec 0
exec 0
exec 0
exec 1
exec 1
reap 1 7
grow 0 7
grow 1 5
start s -
exec 2
exec 2 5
exec 2
exec 2
exec 2
exec 2
start t -
exec 3
exec 3
exec 3
";

// After each event the cells and the records, who has slots 7 and 9, how many bytes slot 7 has, with the first of them, and which
// record is on its shelf.
const READ: &str = "\
[] [9] None None None None
[] [7, 9] None None Some((64, 255)) None
[3] [7, 9] None None Some((64, 255)) None
[3] [7, 9] None None Some((64, 255)) None
[3] [7, 9] None None Some((64, 255)) None
[3] [7, 9] None None Some((64, 255)) None
[3] [7, 9] Some((0, 1)) None Some((64, 255)) None
[3] [7, 9] Some((0, 1)) None Some((64, 255)) None
[3] [7, 9] Some((0, 1)) Some((1, 1)) Some((64, 255)) None
[3] [7, 9] Some((0, 1)) Some((1, 1)) Some((64, 255)) None
[3] [7, 9] Some((0, 1)) Some((1, 1)) Some((64, 5)) None
[3] [7, 9] Some((0, 1)) Some((1, 1)) Some((64, 5)) None
[3] [7, 9] Some((0, 1)) Some((1, 1)) Some((64, 5)) None
[3] [7, 9] None Some((1, 1)) Some((64, 255)) None
[3] [7, 9] None Some((1, 1)) Some((64, 255)) None
[3] [7, 9] None Some((1, 1)) Some((64, 255)) None
[3] [9] None Some((1, 1)) None None
[3, 7] [9] None Some((1, 1)) Some((16, 0)) None
[3, 7] [5, 9] None Some((1, 1)) Some((16, 0)) None
[3, 7] [5, 9] None Some((1, 1)) Some((16, 0)) None
[3, 7] [5, 9] None Some((1, 1)) Some((16, 0)) None
[3, 7] [5, 9] None Some((1, 1)) Some((16, 0)) None
[3, 7] [5, 9] None Some((1, 1)) Some((16, 0)) None
[3, 7] [5, 9] None Some((1, 1)) Some((16, 0)) None
[3, 7] [5, 9] None Some((1, 1)) Some((16, 0)) None
[3, 7] [5, 9] None Some((1, 1)) Some((16, 0)) Some(5)
[3, 7] [5, 9] None Some((1, 1)) Some((16, 0)) Some(5)
[3, 7] [5, 9] None Some((1, 1)) Some((16, 0)) Some(5)
[3, 7] [5, 9] None Some((1, 1)) Some((16, 0)) Some(5)
[3, 7] [5, 9] None Some((1, 1)) Some((16, 0)) None
";

// How many bytes a slot has, and the first.
fn first_byte(world: &World<'_>, slot: u32) -> Option<(usize, u8)> {
    let bytes = world.bytes(slot)?;
    Some((bytes.len(), *bytes.first()?))
}

// What is read of the slots of a world, a line more.
fn write_slots(text: &mut String, world: &World<'_>) -> Result<(), AllocError> {
    let (cells, records) = (world.ledger(0), world.ledger(1));
    let (seven, nine) = (world.owner(7), world.owner(9));
    let (first, shelf) = (first_byte(world, 7), world.shelf(1));
    write!(
        text,
        "{cells:?} {records:?} {seven:?} {nine:?} {first:?} {shelf:?}\n"
    )
}

// One event more, and then what is read.
fn apply_and_write(rt: &impl Abort, world: &mut World<'_>, event: Event, text: &mut String) {
    world.apply(event).expect(rt, "each event is legal");
    write_slots(text, world).expect(rt, "out of memory");
}

#[test]
fn slots_are_read_after_each_event(rt: HostRuntime) {
    let script = format!(in rt.alloc(); "{PROGRAMS}{EVENTS}").expect(&rt, "out of memory");
    let (programs, events) = read(&rt, rt.alloc(), script.as_str());
    let mut world = World::new(rt.alloc(), &programs).expect(&rt, "out of memory");
    let mut text = String::new(rt.alloc());
    for event in events {
        apply_and_write(&rt, &mut world, event, &mut text);
    }
    is_text(&rt, "the slots", text.as_str(), READ);
}
