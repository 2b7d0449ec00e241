//! What a job reports, compared with its program run alone.

use crate::store::{Given, Store, Sums};
use ebpf_machine::report::{Reply, Report};
use ebpf_machine::whole::run_in_place;
use ebpf_machine::workspace::Workspace;
use ebpf_verify::verified::Verified;
use std::alloc::{AllocError, Global};
use std::marker::Brand;
use std::sync::ledger::{Blank, Ledger};
use worker_pool::{FEW_ANSWERS, JobReport};

// Runs a program alone, with what its calls are given: its report, and what it was granted and refused of each kind, and put on
// shelves and got from there.
pub(crate) fn alone(
    alloc: Global,
    verified: &Verified,
    context: Vec<u8>,
    given: Given,
) -> Result<(Report, Sums), AllocError> {
    alone_in::<Brand>(alloc, verified, context, given, Blank::new(4))
}

// The same with a new ledger.
fn alone_in<L: Ledger>(
    alloc: Global,
    verified: &Verified,
    context: Vec<u8>,
    given: Given,
    blank: Blank,
) -> Result<(Report, Sums), AllocError> {
    let mut store = Store::<L>::new(alloc, given, blank);
    let workspace = Workspace::new(alloc)?;
    let Ok(ended) = run_in_place(workspace, verified, &context, &mut store) else {
        return Err(AllocError);
    };
    let (report, workspace) = ended.report();
    workspace.free();
    let sums = store.sums().ok_or(AllocError)?;
    Ok((report, sums))
}

// A report in words.
pub(crate) fn words_of(alloc: Global, report: &Report) -> Result<String, AllocError> {
    let numbers = (report.exit, report.executed, report.peak);
    in_words(alloc, numbers, &report.output.numbers, &report.answers.replies)
}

// A packed report in words.
pub(crate) fn packed_words(alloc: Global, report: &JobReport) -> Result<String, AllocError> {
    let numbers = (report.exit(), report.executed(), report.peak());
    let mut room = [Reply::Null; FEW_ANSWERS];
    in_words(alloc, numbers, report.output(), report.answers(&mut room))
}

// What is reported in words: the exit, the instructions and the most objects, the output, and the answers, a letter each.
fn in_words(
    alloc: Global,
    numbers: (Option<u64>, u64, u64),
    output: &[u64],
    answers: &[Reply],
) -> Result<String, AllocError> {
    let (exit, executed, peak) = numbers;
    let exit = exit.unwrap_or(0);
    let mut text = format!(in alloc;
        "exit {exit} executed {executed} peak {peak} output {output:?} answers "
    )?;
    for reply in answers {
        text.push(match reply {
            Reply::Granted => 'g',
            Reply::Null => 'n',
            Reply::Empty => 'e',
            Reply::Shelf => 's',
        })?;
    }
    Ok(text)
}
