//! Calls whose memory may be refused: each leaves what was there, and then does when it is made again what it would have done at
//! once. The script tests/want-of-memory refuses one allocation after another, and looks for each line that is reported here.

use crate::accepted::{accepted, accepted_once, script_of};
use crate::programs::holds;
use ebpf_core::event::Event;
use ebpf_core::fault::ApplyFault;
use ebpf_core::world::{Status, World};
use ebpf_reader::read_script::read_script;
use ebpf_reader::script::{Dialect, Script, ScriptStop};
use ebpf_verify::verified::Verified;
use std::alloc::Global;
use std::process::Abort;

// One run asks for a cell and is granted slot 7, and another starts; slot 3 leaves again.
const SCRIPT: &str = "\
program cell 1 1 b701000000000000850000000100000015000500000000007a000000050000007906000000000000bf010000000000008500000002000000bf600000000000009500000000000000
grow 0 7
grow 0 3
start cell 09
exec 0
exec 0 7
start cell 0a
reap 0 3
exec 0
";

fn warns(rt: &impl Print, call: &str) {
    let _ = println!(rt; "refused: {call}");
}

fn read_again<R: Abort + Print>(rt: &R, alloc: Global) -> Script {
    match read_script(alloc, Dialect::Events, SCRIPT.as_bytes()) {
        Ok(script) => script,
        Err(stop) => {
            holds(rt, "want of memory", matches!(stop, ScriptStop::NoMemory));
            warns(rt, "a script");
            script_of(rt, alloc, Dialect::Events, SCRIPT)
        }
    }
}

fn judge_again<R: Abort + Print>(rt: &R, alloc: Global, script: &Script) -> Verified {
    let Some((_, program)) = script.programs.get_index(0) else {
        panic!(rt; "the script has no program");
    };
    let Some(verified) = accepted_once(rt, alloc, program) else {
        warns(rt, "a verdict");
        return accepted(rt, alloc, program);
    };
    verified
}

// An event, and the same event that is refused memory: the world is as it was then.
fn apply_again<R: Abort + Print>(rt: &R, world: &mut World<'_>, event: Event, same: Event) {
    let (runs, executed, slots) = (world.runs(), world.executed(0), world.ledger(0).len());
    let Err(fault) = world.apply(event) else {
        return;
    };
    let is_starting = matches!(same, Event::Start { .. });
    warns(rt, if is_starting { "a start" } else { "a slot" });
    holds(rt, "want of memory", matches!(fault, ApplyFault::NoMemory));
    holds(rt, "as many runs", world.runs() == runs);
    holds(rt, "as far", world.executed(0) == executed);
    holds(rt, "as many slots", world.ledger(0).len() == slots);
    holds(rt, "memory is refused once", world.apply(same).is_ok());
}

#[test]
fn each_call_is_made_again_where_memory_is_refused(rt: HostRuntime) {
    let alloc = rt.alloc();
    let script = read_again(&rt, alloc);
    let mut same = read_again(&rt, alloc).events.into_iter();
    let programs = [judge_again(&rt, alloc, &script)];
    let mut world = World::new(alloc, &programs).expect(&rt, "it takes no memory");
    for event in script.events {
        let same = same.next().expect(&rt, "there are as many events");
        apply_again(&rt, &mut world, event, same);
    }
    holds(&rt, "two runs", world.runs() == 2);
    let is_third = matches!(world.status(0), Some(Status::Going(3)));
    holds(&rt, "three instructions", is_third);
    holds(&rt, "a slot", matches!(world.ledger(0), [7]));
}
