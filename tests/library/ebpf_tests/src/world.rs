//! Worlds of small programs, each written as a script: what replay answers, which events are refused, and that no order
//! matters.

use crate::accepted::read;
use crate::programs::{column, holds, is_text};
use ebpf_core::event::{Answer, Event};
use ebpf_core::fault::{ApplyCode, ApplyFault, ReplayFault};
use ebpf_core::replay::replay;
use ebpf_core::world::{Status, World};
use ebpf_machine::context::Context;
use ebpf_verify::verified::Verified;
use std::alloc::{AllocError, Global};
use std::process::Abort;
use std::test::*;

// r0 = 7, exit; two runs start, the second does one instruction, and the first does two, with which it exits.
const SEVEN: &str = "\
program seven 0 0 b7000000070000009500000000000000
start seven -
start seven -
exec 1
exec 0
exec 0
";

// What is read of a world of two runs after those events.
const AFTER_SEVEN: &str = "exit 7 executed 2, going 1 executed 1";

// How far a run of a world is.
fn progress(alloc: Global, world: &World<'_>, run: usize) -> Result<String, AllocError> {
    match (world.status(run), world.executed(run)) {
        (Some(Status::Going(slot)), Some(executed)) => {
            format!(in alloc; "going {slot} executed {executed}")
        }
        (Some(Status::Exited(number)), Some(executed)) => {
            format!(in alloc; "exit {number} executed {executed}")
        }
        _ => "none".to_string(alloc),
    }
}

// How far the first two runs of a world are.
fn readings(rt: &impl Abort, alloc: Global, world: &World<'_>) -> String {
    let mut text = progress(alloc, world, 0).expect(rt, "out of memory");
    let second = progress(alloc, world, 1).expect(rt, "out of memory");
    write!(text, ", {second}").expect(rt, "out of memory");
    text
}

const STEPS: &str = "\
program seven 0 0 b7000000070000009500000000000000
start seven -
exec 0
exec 0
start seven -
";

// How many runs there are after each of its events, and how far the first two are.
const READ: &str = "\
1: going 0 executed 0, none
1: going 1 executed 1, none
1: exit 7 executed 2, none
2: exit 7 executed 2, going 0 executed 0
";

// One event more, and then what is read.
fn apply_and_read(
    rt: &impl Abort,
    alloc: Global,
    world: &mut World<'_>,
    event: Event,
    text: &mut String,
) {
    world.apply(event).expect(rt, "each event is legal");
    let runs = world.runs();
    let read = readings(rt, alloc, world);
    write!(text, "{runs}: {read}\n").expect(rt, "out of memory");
}

#[test]
fn a_world_is_read_after_each_event(rt: HostRuntime) {
    let (programs, events) = read(&rt, rt.alloc(), STEPS);
    let mut world = World::new(rt.alloc(), &programs).expect(&rt, "out of memory");
    holds(&rt, "no run before the first", world.runs() == 0);
    let mut text = String::new(rt.alloc());
    for event in events {
        apply_and_read(&rt, rt.alloc(), &mut world, event, &mut text);
    }
    is_text(&rt, "four events", text.as_str(), READ);
}

const STARTED: &str = "\
program seven 0 0 b7000000070000009500000000000000
start seven -
";

// Tries a world of one run, which has no output: there is no second one, and no slot.
fn has_no_more(rt: &impl Abort, world: &World<'_>) {
    let is_empty = matches!(world.output(0), Some([]));
    holds(rt, "the output of a run", is_empty);
    let (output, status, executed) = (world.output(1), world.status(1), world.executed(1));
    let is_none = output.is_none() && status.is_none() && executed.is_none();
    holds(rt, "a second run", is_none);
    let is_none = world.owner(0).is_none() && world.bytes(0).is_none();
    holds(rt, "the owner and the bytes of no slot", is_none);
    for kind in 0..=u8::MAX {
        holds(rt, "a ledger without slots", world.ledger(kind).is_empty());
    }
}

#[test]
fn what_is_not_there_is_none(rt: HostRuntime) {
    let (programs, events) = read(&rt, rt.alloc(), STARTED);
    let world = replay(rt.alloc(), &programs, &events).expect(&rt, "each event is legal");
    has_no_more(&rt, &world);
}

#[test]
fn five_events_lead_to_one_exit_and_one_run_that_goes_on(rt: HostRuntime) {
    let (programs, events) = read(&rt, rt.alloc(), SEVEN);
    let world = replay(rt.alloc(), &programs, &events).expect(&rt, "each event is legal");
    holds(&rt, "two runs", world.runs() == 2);
    let text = readings(&rt, rt.alloc(), &world);
    is_text(&rt, "five events", text.as_str(), AFTER_SEVEN);
}

// emit(5), exit
const EMITS: &str = "\
program emits 0 0 b70100000500000085000000030000009500000000000000
start emits -
exec 0
exec 0
exec 0
";

#[test]
fn a_number_that_is_emitted_is_output(rt: HostRuntime) {
    let (programs, events) = read(&rt, rt.alloc(), EMITS);
    let world = replay(rt.alloc(), &programs, &events).expect(&rt, "each event is legal");
    holds(&rt, "5", matches!(world.output(0), Some([5])));
}

// What is wrong, its code, and a sixth event after those of `SEVEN`.
const ILLEGAL: &str = "\
of no run | NoSuchRun | exec 2
of a run that has ended | RunEnded | exec 0
with a slot of no ledger | SlotNotHome | exec 1 0
with null unasked | AnswerUnasked | exec 1 null
a slot that is nowhere leaves | SlotNotReapable | reap 1 0
a slot joins no kind | NoSuchProgramOrKind | grow 3 0
the context is too long | WrongContext | start seven 09
";

// The code and the number of the first event that isn't legal.
fn fault_of(alloc: Global, programs: &[Verified], events: &[Event]) -> Result<String, AllocError> {
    match replay(alloc, programs, events) {
        Err(ReplayFault::Bad { index, code }) => format!(in alloc; "{code:?} {index}"),
        _ => "no fault".to_string(alloc),
    }
}

// Tries an event after others: it is refused with a code, and the world is as it was.
fn is_refused(
    rt: &impl Abort,
    alloc: Global,
    programs: &[Verified],
    events: &[Event],
    event: Event,
    code: &str,
) {
    let mut world = replay(alloc, programs, events).expect(rt, "each event is legal");
    let text = match world.apply(event) {
        Err(ApplyFault::Bad(code)) => format!(in alloc; "{code:?}"),
        _ => "no fault".to_string(alloc),
    }
    .expect(rt, "out of memory");
    is_text(rt, code, text.as_str(), code);
    let text = readings(rt, alloc, &world);
    is_text(rt, code, text.as_str(), AFTER_SEVEN);
}

// Tries a row of `ILLEGAL`, in a whole list and as one event more.
fn is_not_legal(rt: &impl Abort, alloc: Global, row: &str) {
    let (_, columns) = column(rt, row);
    let (code, sixth) = column(rt, columns);
    let script = format!(in alloc; "{SEVEN}{sixth}").expect(rt, "out of memory");
    let (programs, mut events) = read(rt, alloc, script.as_str());
    let text = fault_of(alloc, &programs, &events).expect(rt, "out of memory");
    let expected = format!(in alloc; "{code} 5").expect(rt, "out of memory");
    is_text(rt, row, text.as_str(), expected.as_str());
    let event = events.pop().expect(rt, "there are six events");
    is_refused(rt, alloc, &programs, &events, event, code);
}

#[test]
fn an_event_that_is_not_legal_has_its_code_and_changes_nothing(rt: HostRuntime) {
    for row in ILLEGAL.lines() {
        is_not_legal(&rt, rt.alloc(), row);
    }
}

#[test]
fn a_start_of_no_program_is_not_legal(rt: HostRuntime) {
    let (programs, mut events) = read(&rt, rt.alloc(), SEVEN);
    let start = |alloc| Event::Start {
        program: 1,
        context: Context {
            bytes: Vec::new(alloc),
        },
    };
    is_refused(&rt, rt.alloc(), &programs, &events, start(rt.alloc()), "NoSuchProgramOrKind");
    let is_pushed = events.push(start(rt.alloc())).is_ok();
    holds(&rt, "there is memory", is_pushed);
    let text = fault_of(rt.alloc(), &programs, &events).expect(&rt, "out of memory");
    is_text(&rt, "no such program", text.as_str(), "NoSuchProgramOrKind 5");
}

const TWO_FAULTS: &str = "\
program seven 0 0 b7000000070000009500000000000000
start seven -
exec 3
exec 0 null
";

#[test]
fn the_first_fault_of_two_is_reported(rt: HostRuntime) {
    let (programs, events) = read(&rt, rt.alloc(), TWO_FAULTS);
    let text = fault_of(rt.alloc(), &programs, &events).expect(&rt, "out of memory");
    is_text(&rt, "two faults", text.as_str(), "NoSuchRun 1");
}

// A number, three sums and an exit, twice: 7 + 3 * 1, and 100 + 3 * 2.
const SUMS: &str = "\
program low 0 0 b7000000070000000700000001000000070000000100000007000000010000009500000000000000
program high 0 0 b7000000640000000700000002000000070000000200000007000000020000009500000000000000
";

// The program that an order has at a place: the first if the bit is set, otherwise the second.
fn program_at(order: u16, place: u32) -> usize {
    usize::from((order >> (place % 16)) & 1 == 0)
}

// The run of a program: runs are numbered in the order of their starts.
fn run_of(order: u16, program: usize) -> usize {
    usize::from(program != program_at(order, 0))
}

// The twelve events of an order: at each place the next event of its program, of which the first is its start.
fn events_of(alloc: Global, order: u16) -> Result<Vec<Event>, AllocError> {
    let mut events = Vec::new(alloc);
    let mut begun = [false, false];
    for place in 0..12 {
        let program = program_at(order, place);
        if begun.get(program) == Some(&true) {
            events.push(Event::Exec {
                run: run_of(order, program),
                answer: Answer::Absent,
            })?;
        } else {
            let context = Context {
                bytes: Vec::new(alloc),
            };
            events.push(Event::Start { program, context })?;
        }
        if let Some(mark) = begun.get_mut(program) {
            *mark = true;
        }
    }
    Ok(events)
}

// That a run of a world ended so.
fn ends_with(rt: &impl Abort, alloc: Global, world: &World<'_>, run: usize, expected: &str) {
    let text = progress(alloc, world, run).expect(rt, "out of memory");
    is_text(rt, expected, text.as_str(), expected);
}

// Tries an order: each program returns its number after five instructions.
fn ends_alike(rt: &impl Abort, alloc: Global, programs: &[Verified], order: u16) {
    let events = events_of(alloc, order).expect(rt, "out of memory");
    let world = replay(alloc, programs, &events).expect(rt, "each event is legal");
    ends_with(rt, alloc, &world, run_of(order, 0), "exit 10 executed 5");
    ends_with(rt, alloc, &world, run_of(order, 1), "exit 106 executed 5");
}

#[test]
fn two_programs_end_alike_in_each_of_their_924_orders(rt: HostRuntime) {
    let (programs, _) = read(&rt, rt.alloc(), SUMS);
    let mut orders: u32 = 0;
    for order in (0_u16..4096).filter(|order: &u16| order.count_ones() == 6) {
        orders = orders.wrapping_add(1);
        ends_alike(&rt, rt.alloc(), &programs, order);
    }
    holds(&rt, "924 orders", orders == 924);
}

#[test]
fn faults_of_events_are_written_in_words(rt: HostRuntime) {
    let code = ApplyCode::RunEnded;
    let text = format!(in rt.alloc(); "{}, {}", ApplyFault::Bad(code), ApplyFault::NoMemory).expect(
        &rt,
        "out of memory",
    );
    is_text(
        &rt,
        "of one",
        text.as_str(),
        "the event isn't legal, out of memory",
    );
    let bad = ReplayFault::Bad { index: 1, code };
    let text = format!(in rt.alloc(); "{bad}, {}", ReplayFault::NoMemory).expect(
        &rt,
        "out of memory",
    );
    is_text(
        &rt,
        "of a list",
        text.as_str(),
        "event 1 isn't legal, out of memory",
    );
}
