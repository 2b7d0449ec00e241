//! Each function with each error that it may give; runs, batches and shelves of a machine and of a worker.

mod common;

use common::{declared, load, loaded, slots_of, CELL, EMIT, FETCH, LEAVE, LOOP, READ, SEVEN};
use ebpf_host::{Error, Kind, Machine, Program, Refused, Report, Shared, Worker, NO_LIMIT};
use std::error::Error as _;

const TWO: &[u8] = include_bytes!("../../../tests/objects/two.o");
const LOOP_OBJECT: &[u8] = include_bytes!("../../loop.o");

fn refusal_of(loaded: Result<Program, Error>) -> Refused {
    match loaded {
        Err(Error::Refused(why)) => why,
        other => panic!("{other:?}"),
    }
}

#[test]
fn refusals() {
    let why = refusal_of(load(READ, 3, 0));
    assert_eq!((why.code(), why.slot(), why.lines()), ("V8", 0, ""));
    assert!(why.sentence().starts_with("slot 0 reads 4 bytes at [r1+0]") && !why.sentence().ends_with('\n'));
    assert_eq!(why.to_string(), format!("V8 at slot 0: {}", why.sentence()));
    assert_eq!(Error::Refused(why.clone()).to_string(), why.to_string());
    assert_eq!(refusal_of(Program::load(&[], declared(0, 0))).code(), "I1");
    assert_eq!(refusal_of(Program::load_unrolled(&[], declared(0, 0))).code(), "I1");
    assert_eq!(refusal_of(Program::load_elf(&[], None, declared(0, 0))).code(), "O1");
    assert_eq!(refusal_of(Program::load_elf_unrolled(&[], Some(""), declared(0, 0))).code(), "O1");
    assert_eq!(refusal_of(load(LOOP, 0, 0)).code(), "F3");
    let why = refusal_of(Program::load_elf(TWO, Some("largest"), declared(15, 0)));
    assert_eq!((why.code(), why.slot(), why.lines()), ("V8", 7, "  ./two.c:14:7: if (words[i] > most)\n"));
    assert_eq!(refusal_of(Program::load_elf(TWO, None, declared(16, 0))).code(), "O3");
    let why = refusal_of(Program::load_elf_unrolled(TWO, Some("larges"), declared(16, 0)));
    assert_eq!((why.code(), why.sentence()), ("O2", "the file has no function of that name; it has checksum, largest"));
}

/// The functions of a file, each with a name by which it is loaded, and of none.
#[test]
fn lists() {
    let functions = ebpf_host::elf_functions(TWO).expect("it can be read");
    let rows: Vec<_> = functions.iter().map(|it| (it.name.as_str(), it.section.as_str(), it.slots)).collect();
    assert_eq!(rows, [("checksum", ".text", 8), ("largest", ".text", 11)]);
    for it in &functions {
        let program = Program::load_elf(TWO, Some(&it.name), declared(16, 0)).expect("it is accepted");
        assert_eq!(u64::from(program.slots()), it.slots);
    }
    let mut none = TWO.to_vec();
    none[980] = 0x10; // neither is a function any more
    none[1004] = 0x10;
    assert_eq!(ebpf_host::elf_functions(&none), Ok(vec![]));
    match ebpf_host::elf_functions(&[]) {
        Err(Error::Refused(why)) => {
            assert_eq!((why.code(), why.sentence()), ("O1", "the file has fewer than the 64 bytes of an ELF header"));
        }
        other => panic!("{other:?}"),
    }
}

/// What a program is, as it was declared and as it is run.
#[test]
fn about() {
    let program = load(READ, 4, 3).expect("it is accepted");
    assert_eq!((program.context(), program.held(), program.slots()), (4, 3, 2));
    let unrolled = Program::load_elf_unrolled(LOOP_OBJECT, None, declared(4, 0)).expect("it is accepted");
    assert!(unrolled.slots() > 8 && unrolled.context() == 4);
    assert_eq!(ebpf_host::version(), env!("CARGO_PKG_VERSION"));
}

/// Contexts that are shorter than was declared, and one that is longer.
#[test]
fn padded() {
    let program = load(READ, 4, 0).expect("it is accepted");
    let mut machine = Machine::new(1).expect("there is memory");
    let mut worker = Shared::new(1, 1).and_then(|mut shared| shared.open()).expect("there is memory");
    for (length, exit) in [0, 1, 0x201, 0x3_0201, 0x403_0201].into_iter().enumerate() {
        let context = &[1, 2, 3, 4, 5][..length];
        assert_eq!(machine.run_padded(&program, context).map(|report| report.exit), Ok(exit));
        assert_eq!(worker.run_padded(&program, context).map(|report| report.exit), Ok(exit));
    }
    assert_eq!(machine.run_padded(&program, &[0; 5]).map(|report| report.exit), Err(Error::Context));
    assert_eq!(machine.run_padded(&program, &[0; 5000]).map(|report| report.exit), Err(Error::Context));
}

/// Each error is in words as the C header has it.
#[test]
fn words() {
    let header = include_str!("../../../include/ebpf_host.h");
    let errors = [
        (Error::Declaration, "DECLARATION"),
        (Error::Pages, "PAGES"),
        (Error::Context, "CONTEXT"),
        (Error::NoMemory, "NO_MEMORY"),
        (Error::Length, "LENGTH"),
        (Error::NoObject, "NO_OBJECT"),
        (Error::Workers, "WORKERS"),
        (Error::Busy, "BUSY"),
    ];
    for (error, name) in errors {
        assert!(header.contains(&format!("case EBPF_{name}: return \"{error}\";")), "{error}");
    }
    assert_eq!(Error::Other(12).to_string(), "unknown status 12");
}

/// A slot without a number.
fn slot(code: u8, registers: u8, offset: i16) -> [u8; 8] {
    let [low, high] = offset.to_le_bytes();
    [code, registers, low, high, 0, 0, 0, 0]
}

/// A loop that can't be unrolled, with many branches that lead out of it: each is a line of a text that is longer than the first buffer.
#[test]
fn a_long_text() {
    const BRANCHES: i16 = 40;
    let mut slots = slot(0xb7, 0, 0).to_vec(); // r0 = 0
    for i in 0..BRANCHES {
        slots.extend(slot(0x71, 0x12, 0)); // r2 = *(u8 *)r1
        slots.extend(slot(0x15, 2, 2 * (BRANCHES - i) - 1)); // if r2 == 0 goto exit
    }
    slots.extend([slot(0x05, 0, -2 * BRANCHES - 1), slot(0x95, 0, 0)].concat()); // goto 1; exit
    let why = refusal_of(Program::load_unrolled(&slots, declared(1, 0)));
    assert_eq!((why.code(), why.slot()), ("F3", 81));
    assert!(why.lines().len() > 1024 && why.lines().ends_with('\n') && why.lines().lines().count() == 40);
}

#[test]
fn functions_of_object_files() {
    let words: Vec<u8> = [1u32, 5, 3, 4].iter().flat_map(|word| word.to_le_bytes()).collect();
    let mut machine = Machine::new(1).unwrap();
    for load in [Program::load_elf, Program::load_elf_unrolled] {
        assert_eq!(machine.run(&load(TWO, Some("checksum"), declared(16, 0)).unwrap(), &words).unwrap().exit, 13);
        assert_eq!(machine.run(&load(TWO, Some("largest"), declared(16, 64)).unwrap(), &words).unwrap().exit, 5);
        assert_eq!(load(TWO, Some("largest"), declared(4097, 0)).unwrap_err(), Error::Declaration);
    }
    let bits = Program::load_elf_unrolled(LOOP_OBJECT, Some("bits"), declared(1, 0)).unwrap();
    assert_eq!(machine.run(&bits, &[0xb5]).unwrap().exit, 5);
    assert_eq!(refusal_of(Program::load_elf(LOOP_OBJECT, None, declared(1, 0))).code(), "F3");
}

#[test]
fn slots() {
    let mut machine = Machine::new(1).unwrap();
    for load in [Program::load, Program::load_unrolled] {
        assert_eq!(machine.run(&load(&slots_of(CELL), declared(0, 1)).unwrap(), &[]).unwrap().exit, 5);
        assert_eq!(load(&slots_of(READ), declared(4097, 0)).unwrap_err(), Error::Declaration);
        assert_eq!(load(&slots_of(READ), declared(4, 65)).unwrap_err(), Error::Declaration);
    }
    assert_eq!(machine.run(&Program::load_unrolled(&slots_of(LOOP), declared(0, 0)).unwrap(), &[]).unwrap().exit, 6);
    let shared = loaded(SEVEN, 0, 0).try_clone().unwrap(); // the first handle is dropped
    assert_eq!(machine.run(&shared, &[]).unwrap().exit, 7);
}

#[test]
fn ranges() {
    for (pages, workers) in [(0, 0), (257, 65), (u32::MAX, u32::MAX)] {
        assert_eq!(Machine::new(pages).unwrap_err(), Error::Pages);
        assert_eq!(Shared::new(pages, 1).unwrap_err(), Error::Pages);
        assert_eq!(Shared::new(1, workers).unwrap_err(), Error::Workers);
    }
}

/// The same tests of a machine and of a worker.
macro_rules! tests_of {
    ($runner:ident, $runs:ident, $batches:ident, $shelves:ident) => {
        fn $runs(runner: &mut $runner) {
            let (emit, cell) = (loaded(EMIT, 1, 0), loaded(CELL, 0, 1));
            let mut output = [0, 9];
            let report = runner.run_within(&emit, b"*", NO_LIMIT, &mut output).unwrap();
            assert_eq!(report, Report { exit: 7, executed: 4, outputs: 1, exited: true, ..Report::default() });
            assert_eq!((report.returned(), output), (Some(7), [42, 9]));
            assert_eq!(runner.run(&emit, b"*").unwrap(), report);
            let report = runner.run_within(&emit, b"*", 3, &mut output).unwrap();
            assert_eq!((report.exited, report.exit, report.executed, report.returned()), (false, 0, 3, None));
            for context in [&b""[..], b"ab"] {
                assert_eq!(runner.run(&emit, context).unwrap_err(), Error::Context);
            }
            assert_eq!(runner.run(&cell, b"a").unwrap_err(), Error::Context);
            let report = runner.run(&cell, &[]).unwrap();
            assert_eq!(report, Report { exit: 5, executed: 9, peak: 1, granted: 1, exited: true, ..Report::default() });
        }

        fn $batches(runner: &mut $runner) {
            let (read, cell) = (loaded(READ, 4, 0), loaded(CELL, 0, 1));
            let mut reports = [Report::default(); 3];
            runner.run_batch(&read, b"\x01\0\0\0\x02\0\0\0\x03\0\0\0", NO_LIMIT, &mut reports).unwrap();
            assert_eq!(reports.map(|report| report.returned()), [Some(1), Some(2), Some(3)]);
            runner.run_batch(&read, &[0; 12], 1, &mut reports).unwrap();
            assert_eq!(reports.map(|report| (report.returned(), report.executed)), [(None, 1); 3]);
            runner.run_batch(&cell, &[], NO_LIMIT, &mut reports).unwrap();
            assert_eq!(reports.map(|report| (report.returned(), report.granted)), [(Some(5), 1); 3]);
            runner.run_batch(&read, &[], NO_LIMIT, &mut []).unwrap();
            for contexts in [&[0; 8][..], &[]] {
                let error = runner.run_batch(&read, contexts, NO_LIMIT, &mut reports).unwrap_err();
                assert_eq!((error.done(), error.error()), (0, &Error::Context));
                assert_eq!(error.source().unwrap().to_string(), Error::from(error).to_string());
            }
            assert_eq!(reports[2].exit, 5);
        }

        /// Of one with a single page.
        fn $shelves(runner: &mut $runner) {
            let (fetch, leave) = (loaded(FETCH, 0, 1), loaded(LEAVE, 1, 1));
            let mut bytes = [b'x'; 65];
            assert!(!runner.take(Kind::Record, &mut bytes) && bytes == [b'x'; 65]);
            assert!(!runner.put(Kind::Record, b"one").unwrap() && runner.put(Kind::Record, b"other").unwrap());
            assert!(runner.take(Kind::Record, &mut bytes) && bytes.starts_with(b"other\xff") && bytes.ends_with(b"\xffx"));
            assert!(!runner.put(Kind::Record, &[]).unwrap() && runner.take(Kind::Record, &mut []));
            assert_eq!(runner.run(&leave, b"a").unwrap().missed, 1);
            assert_eq!(runner.run(&fetch, &[]).unwrap().fetched, 1);
            assert_eq!(runner.run(&fetch, &[]).unwrap().missed, 1);
            for kind in [Kind::Cell, Kind::Record, Kind::Block] {
                assert_eq!(runner.put(kind, &vec![0; kind.size() + 1]).unwrap_err(), Error::Length);
            }
            assert!(!runner.put(Kind::Record, &[0; Kind::Record.size()]).unwrap());
            assert_eq!(runner.put(Kind::Cell, &[]).unwrap_err(), Error::NoObject); // the page has records
        }
    };
}
tests_of!(Machine, machine_runs, machine_batches, machine_shelves);
tests_of!(Worker, worker_runs, worker_batches, worker_shelves);

#[test]
fn machines() {
    let mut machine = Machine::new(2).unwrap();
    machine_runs(&mut machine);
    machine_batches(&mut machine);
    let mut small = Machine::new(1).unwrap();
    machine_shelves(&mut small);
    assert!(small.take(Kind::Record, &mut []));
    small.reap();
    assert!(!small.put(Kind::Cell, &[]).unwrap());
}

#[test]
fn workers() {
    let mut shared = Shared::new(2, 2).unwrap();
    let (mut one, mut other) = (shared.open().unwrap(), shared.open().unwrap());
    assert_eq!(shared.open().unwrap_err(), Error::Busy);
    worker_runs(&mut one);
    worker_batches(&mut other);
    drop(other);
    let other = shared.open().unwrap();
    assert!(shared.reap() <= 2);
    let error = shared.close().unwrap_err();
    assert_eq!((error.error(), error.source().unwrap().to_string()), (&Error::Busy, Error::Busy.to_string()));
    let shared = error.into_shared();
    drop((one, other));
    let totals = shared.close().unwrap();
    assert_eq!((totals.of(Kind::Cell).allocs, totals.of(Kind::Cell).frees, totals.of(Kind::Record).allocs), (4, 4, 0));
}

/// A worker goes on after what it was opened from is dropped.
#[test]
fn a_worker_outlives_what_is_shared() {
    let mut shared = Shared::new(1, 1).unwrap();
    let mut worker = shared.open().unwrap();
    worker_shelves(&mut worker);
    drop(shared);
    assert_eq!(worker.run(&loaded(SEVEN, 0, 0), &[]).unwrap().exit, 7);
    let mut shared = Shared::new(1, 1).unwrap();
    worker = shared.open().unwrap();
    assert_eq!(worker.run(&loaded(SEVEN, 0, 0), &[]).unwrap().exit, 7);
    assert_eq!(Error::from(shared.close().unwrap_err()), Error::Busy);
}
