//! A run by single steps, and the same this many instructions at a time.

use crate::alone::words_of;
use crate::facts::is_text;
use crate::programs::programs_of;
use crate::store::{Given, Store};
use ebpf_machine::objects::Objects;
use ebpf_machine::report::Reply;
use ebpf_machine::run::{Run, Turn};
use ebpf_verify::verified::Verified;
use std::alloc::Global;
use std::marker::Brand;
use std::process::Abort;
use std::sync::ledger::{Blank, Ledger};

// The most instructions that a program has.
const MOST: u64 = 4096;

// Does this many instructions at most, by one call or by a step each.
fn go<O: Objects>(run: &mut Run<'_, O::Held>, objects: &mut O, limit: u64, by_steps: bool) -> Turn {
    if !by_steps {
        return run.run(objects, limit);
    }
    let mut turn = Turn::Went;
    'steps: for _ in 0..limit.min(MOST) {
        turn = run.step(objects);
    }
    turn
}

// What is read of a run after a turn: the turn, its exit, its pc, how many instructions it did, and its output.
fn read<H>(rt: &impl Abort, text: &mut String, turn: Turn, run: &Run<'_, H>) {
    let turn = match turn {
        Turn::Went => None,
        Turn::Exited(number) => Some(number),
    };
    let (exit, pc, executed, output) = (run.exit(), run.pc(), run.executed(), run.output());
    write!(text, "{turn:?} {exit:?} {pc} {executed} {output:?}; ").expect(rt, "out of memory");
}

// Runs a program, this many instructions at a time, as often as it has instructions: what is read each time, and its report. The
// bytes of the context are 5.
fn trace_over<O: Objects>(
    rt: &impl Abort,
    alloc: Global,
    verified: &Verified,
    objects: &mut O,
    limit: u64,
    by_steps: bool,
) -> String {
    let context = vec![in alloc; 5; verified.decl().context as usize].expect(rt, "out of memory");
    let mut run = Run::start(alloc, verified, context).expect(rt, "out of memory");
    let mut text = String::new(alloc);
    'turns: for _ in 0..verified.len() {
        let turn = go(&mut run, objects, limit, by_steps);
        read(rt, &mut text, turn, &run);
    }
    let report = run.finish(objects);
    let report = words_of(alloc, &report).expect(rt, "out of memory");
    write!(text, "{report}").expect(rt, "out of memory");
    text
}

// The same over a store of its own, with a new ledger.
fn trace_in<L: Ledger>(
    rt: &impl Abort,
    alloc: Global,
    verified: &Verified,
    given: Given,
    limit: u64,
    by_steps: bool,
    blank: Blank,
) -> String {
    let mut store = Store::<L>::new(alloc, given, blank);
    trace_over(rt, alloc, verified, &mut store, limit, by_steps)
}

// The same, with an answer for each letter. What comes off a shelf has only zeros in it.
fn trace(
    rt: &impl Abort,
    alloc: Global,
    verified: &Verified,
    letters: &str,
    limit: u64,
    by_steps: bool,
) -> String {
    let given = Given {
        answers: replies(rt, alloc, letters),
        taken: Vec::new(alloc),
    };
    let blank = Blank::new(4);
    trace_in::<Brand>(rt, alloc, verified, given, limit, by_steps, blank)
}

// The answers of letters.
fn replies(rt: &impl Abort, alloc: Global, letters: &str) -> Vec<Reply> {
    let mut replies = Vec::new(alloc);
    for letter in letters.as_bytes() {
        let reply = match *letter {
            b'g' => Reply::Granted,
            b's' => Reply::Shelf,
            _ => Reply::Null,
        };
        replies.push(reply).expect(rt, "out of memory");
    }
    replies
}

// That a program is run alike both ways.
fn is_alike(rt: &impl Abort, alloc: Global, verified: &Verified, answers: &str) {
    for limit in [1, 3, u64::MAX] {
        let stepped = trace(rt, alloc, verified, answers, limit, true);
        let run = trace(rt, alloc, verified, answers, limit, false);
        is_text(rt, answers, run.as_str(), stepped.as_str());
    }
}

#[test]
fn a_run_is_its_steps(rt: HostRuntime) {
    let programs = programs_of(rt.alloc()).expect(&rt, "out of memory");
    for verified in &programs {
        for answers in ["gg", "gn", "nn", "gs", "ss"] {
            is_alike(&rt, rt.alloc(), verified, answers);
        }
    }
}

// A row: the place of a program, how many instructions at a time, and what is reported.
const ROWS: [(usize, u64, &str); 4] = [
    (
        4,
        0,
        "None None 0 0 []; None None 0 0 []; exit 0 executed 0 peak 0 output [] answers ",
    ),
    (
        4,
        1,
        "None None 1 1 []; Some(7) Some(7) 1 2 []; exit 7 executed 2 peak 0 output [] answers ",
    ),
    (
        6,
        2,
        "None None 2 2 []; Some(9) Some(9) 2 3 []; Some(9) Some(9) 2 3 []; exit 9 executed 3 peak 0 output [] answers ",
    ),
    (
        6,
        3,
        "Some(9) Some(9) 2 3 []; Some(9) Some(9) 2 3 []; Some(9) Some(9) 2 3 []; exit 9 executed 3 peak 0 output [] answers ",
    ),
];

#[test]
fn a_run_stops_at_its_limit_and_at_its_exit(rt: HostRuntime) {
    let programs = programs_of(rt.alloc()).expect(&rt, "out of memory");
    for (program, limit, expected) in ROWS.iter().copied() {
        let verified = programs.get(program).expect(&rt, "there is such a program");
        let text = trace(&rt, rt.alloc(), verified, "", limit, false);
        is_text(&rt, "a limit", text.as_str(), expected);
    }
}
