//! Jobs, and what they are done with, from a row of a text.

use ebpf_machine::context::Context;
use ebpf_verify::verified::Verified;
use std::alloc::{AllocError, Global};
use worker_pool::{Job, Jobs};

// What jobs are done with: how many workers, pages and passes of the reaper, and how many of the first slots another seat has
// claimed; then how many jobs, and of which programs, over and over.
#[derive(Clone, Copy)]
pub(crate) struct Setting<'a> {
    pub(crate) workers: u32,
    pub(crate) pages: u32,
    pub(crate) reaps: u32,
    pub(crate) claimed: u32,
    pub(crate) count: u32,
    pub(crate) letters: &'a str,
}

// The setting of a row: its numbers, in this order, and its letters.
pub(crate) fn setting_of(row: &str) -> Setting<'_> {
    let mut words = row.split_whitespace();
    let mut number = || words.next().unwrap_or("").parse().unwrap_or(0);
    let workers = number();
    let pages = number();
    let reaps = number();
    let claimed = number();
    let count = number();
    Setting {
        workers,
        pages,
        reaps,
        claimed,
        count,
        letters: words.next().unwrap_or(""),
    }
}

// The program of a letter and the context of its job: a small one is the name of its program, and a capital one too, but then its
// context is a byte too long. There is no program of another letter. The context has the job's number.
fn job_of(
    alloc: Global,
    programs: &[Verified],
    letter: u8,
    number: u32,
) -> Result<Job, AllocError> {
    let program = usize::from(letter.to_ascii_lowercase().wrapping_sub(b'a'));
    let declared = match programs.get(program) {
        Some(verified) => verified.decl().context,
        None => 0,
    };
    let excess = u32::from(letter.is_ascii_uppercase());
    let mut bytes = Vec::new(alloc);
    for place in 0..declared.saturating_add(excess) {
        bytes.push(
            number
                .to_le_bytes()
                .get(place as usize)
                .copied()
                .unwrap_or(0),
        )?;
    }
    Ok(Job {
        program,
        context: Context { bytes },
    })
}

// The jobs of a setting.
pub(crate) fn jobs_of(
    alloc: Global,
    programs: &[Verified],
    setting: &Setting<'_>,
) -> Result<Vec<Job>, AllocError> {
    let mut jobs = Vec::new(alloc);
    let letters = setting.letters.as_bytes();
    for (letter, number) in letters.iter().cycle().zip(0..setting.count) {
        jobs.push(job_of(alloc, programs, *letter, number)?)?;
    }
    Ok(jobs)
}

// The same jobs, one after another in one list.
pub(crate) fn list_of(alloc: Global, jobs: &[Job]) -> Result<Jobs, AllocError> {
    let mut list = Jobs::new(alloc);
    for job in jobs {
        list.push(job.program, &job.context.bytes)?;
    }
    Ok(list)
}
