//! Runs, before their first instruction, the kinds of their objects, and four runs that go on together.

use crate::accepted::read;
use crate::programs::holds;
use ebpf_fours::memory::Memory;
use ebpf_fours::starting::{FourContexts, start_four};
use ebpf_fours::whole::exit_in_place;
use ebpf_fours::workspaces::FourWorkspaces;
use ebpf_machine::four_runs::{FourRuns, go_together};
use ebpf_machine::kinds::row_of;
use ebpf_machine::run::Run;
use ebpf_machine::workspace::Workspace;
use ebpf_shelves::object::Object;
use ebpf_shelves::store::Store;
use ebpf_verify::verified::Verified;
use std::alloc::Global;
use std::process::Abort;
use std::test::*;

const SEVEN: &str = "\
program seven 0 0 b7000000070000009500000000000000
";

// Doubles the byte of the context, keeps that on the stack, adds 100 to it if it is 20 at most, and then what is on the stack.
const DOUBLED: &str = "\
program doubled 1 0 71100000000000000f000000000000007b0af8ff000000002500010014000000070000006400000079a2f8ff000000000f200000000000009500000000000000
";

// A run on a context.
fn started<'v>(
    rt: &impl Abort,
    alloc: Global,
    verified: &'v Verified,
    context: &'v [u8],
) -> Run<'v, Object> {
    let workspace = Workspace::new(alloc).expect(rt, "there is memory");
    Run::start_in(workspace, verified, context).expect(rt, "it starts")
}

// That a run exits with a number, after as many instructions.
fn exits(rt: &impl Abort, run: Run<'_, Object>, store: &mut Store, number: u64, executed: u64) {
    let mut run = run;
    run.run(store, u64::MAX);
    let (report, workspace) = run.end(store);
    workspace.free();
    holds(rt, "its exit", report.exit == Some(number));
    holds(rt, "its instructions", report.executed == executed);
}

// That a run exits with a number: its memory.
fn exits_in_place(
    rt: &impl Abort,
    run: Run<'_, Object>,
    store: &mut Store,
    number: u64,
) -> Workspace<Object> {
    let ended = exit_in_place(run, store);
    holds(rt, "its exit", ended.exit() == Some(number));
    ended.forget()
}

#[test]
fn four_runs_go_on_together_up_to_where_they_part(rt: HostRuntime) {
    let alloc = rt.alloc();
    let (programs, _) = read(&rt, alloc, DOUBLED);
    let verified = programs.first().expect(&rt, "there is a program");
    let mut store = Store::new(alloc, false);
    let runs = FourRuns {
        one: started(&rt, alloc, verified, &[1]),
        two: started(&rt, alloc, verified, &[2]),
        three: started(&rt, alloc, verified, &[20]),
        four: started(&rt, alloc, verified, &[3]),
    };
    let FourRuns {
        one,
        two,
        three,
        four,
    } = go_together(runs, &store);
    holds(&rt, "the branch is next", one.pc() == 3 && one.executed() == 3);
    holds(&rt, "for all", two.pc() == 3 && three.pc() == 3 && four.executed() == 3);
    exits(&rt, one, &mut store, 104, 8);
    exits(&rt, two, &mut store, 108, 8);
    exits(&rt, three, &mut store, 80, 7);
    exits(&rt, four, &mut store, 112, 8);
}

#[test]
fn four_runs_start_in_their_memory_and_each_exits(rt: HostRuntime) {
    let (programs, _) = read(&rt, rt.alloc(), DOUBLED);
    let verified = programs.first().expect(&rt, "there is a program");
    let mut store = Store::new(rt.alloc(), false);
    let mut memory = Memory::with_one(rt.alloc()).expect(&rt, "there is memory");
    let workspaces = memory.take_four().expect(&rt, "there is memory");
    let contexts = FourContexts {
        one: &[1],
        two: &[2],
        three: &[20],
        four: &[3],
    };
    let runs = start_four(workspaces, verified, contexts, &[]).expect(&rt, "they start");
    let FourRuns {
        one,
        two,
        three,
        four,
    } = go_together(runs, &store);
    let workspaces = FourWorkspaces {
        one: exits_in_place(&rt, one, &mut store, 104),
        two: exits_in_place(&rt, two, &mut store, 108),
        three: exits_in_place(&rt, three, &mut store, 80),
        four: exits_in_place(&rt, four, &mut store, 112),
    };
    memory.put_four(workspaces);
    let one = memory.take().expect(&rt, "there is memory");
    memory.put(one);
    memory.free();
}

#[test]
fn a_run_that_is_forgotten_leaves_its_memory(rt: HostRuntime) {
    let (programs, _) = read(&rt, rt.alloc(), DOUBLED);
    let verified = programs.first().expect(&rt, "there is a program");
    started(&rt, rt.alloc(), verified, &[1]).forget().free();
}

#[test]
fn a_move_asks_for_no_object_and_holds_none(rt: HostRuntime) {
    let (programs, _) = read(&rt, rt.alloc(), SEVEN);
    let verified = programs.first().expect(&rt, "there is a program");
    let run = Run::<u32>::start(rt.alloc(), verified, Vec::new(rt.alloc()));
    let run = run.expect(&rt, "it starts");
    holds(&rt, "no kind", run.wants().is_none());
    holds(&rt, "no object", run.object(0).is_none());
}

#[test]
fn a_kind_has_its_row(rt: HostRuntime) {
    let row = row_of(2);
    holds(&rt, "a block", row.size == 512 && row.fill == 0x5a);
}
