//! The library as its users call it: a run in a world.

use crate::programs::{bytes_of, holds};
use ebpf_core::event::{Answer, Event};
use ebpf_core::world::{Status, World};
use ebpf_flow::check::check;
use ebpf_insn::decode::decode;
use ebpf_machine::context::Context;
use ebpf_state::kinds::kinds;
use ebpf_verify::decl::Decl;
use ebpf_verify::verify::verify;
use std::alloc::Global;
use std::test::*;

// How far a run is after as many instructions as its program has; none if the program is refused.
fn status_at_the_end(alloc: Global, bytes: &[u8], context: Context) -> Option<Status> {
    let program = decode(alloc, bytes).ok()?;
    let flowed = check(alloc, program).ok()?;
    let length = u32::try_from(context.bytes.len()).ok()?;
    let decl = Decl::new(length, 0)?;
    let programs = [verify(alloc, flowed, decl, &kinds()).ok()?];
    let mut world = World::new(alloc, &programs).ok()?;
    world
        .apply(Event::Start {
            program: 0,
            context,
        })
        .ok()?;
    for _ in 0..programs[0].len() {
        if let Some(Status::Going(_)) = world.status(0) {
            world
                .apply(Event::Exec {
                    run: 0,
                    answer: Answer::Absent,
                })
                .ok()?;
        }
    }
    world.status(0)
}

#[test]
fn a_program_is_run_by_calls(rt: HostRuntime) {
    let bytes = bytes_of(&rt, rt.alloc(), "b7000000070000009500000000000000");
    let context = Context {
        bytes: Vec::new(rt.alloc()),
    };
    let status = status_at_the_end(rt.alloc(), &bytes, context);
    holds(
        &rt,
        "it exits with 7",
        matches!(status, Some(Status::Exited(7))),
    );
}
