//! The functions and types of `ebpf_host.h`, as C has them.

#![allow(non_camel_case_types)]

use std::ffi::c_void;
use std::mem::size_of;
use std::os::raw::c_char;

use crate::report::{Report, Totals};

pub(crate) type ebpf_status = u32;

pub(crate) const EBPF_DONE: ebpf_status = 0;
pub(crate) const EBPF_REFUSED: ebpf_status = 1;
pub(crate) const EBPF_DECLARATION: ebpf_status = 2;
pub(crate) const EBPF_PAGES: ebpf_status = 3;
pub(crate) const EBPF_CONTEXT: ebpf_status = 4;
pub(crate) const EBPF_NO_MEMORY: ebpf_status = 6;
pub(crate) const EBPF_LENGTH: ebpf_status = 8;
pub(crate) const EBPF_NO_OBJECT: ebpf_status = 9;
pub(crate) const EBPF_WORKERS: ebpf_status = 10;
pub(crate) const EBPF_BUSY: ebpf_status = 11;

/// A handle: one word, which is null if it holds nothing. It is passed by its address, and has one owner.
macro_rules! handle {
    ($name:ident) => {
        #[repr(C)]
        pub(crate) struct $name {
            pub(crate) word: *mut c_void,
        }
    };
}
handle!(ebpf_program);
handle!(ebpf_machine);
handle!(ebpf_shared);
handle!(ebpf_worker);

#[repr(C)]
#[derive(Default)]
pub(crate) struct ebpf_refusal {
    pub(crate) code: [u8; 4],
    pub(crate) slot: u32,
    pub(crate) length: u64,
}

/// The structs have the sizes of C, which are the same in each version of the library with the same first number.
const _: () = assert!(size_of::<ebpf_program>() == 8 && size_of::<ebpf_refusal>() == 16 && size_of::<ebpf_function>() == 520);
const _: () = assert!(size_of::<Report>() == 72 && size_of::<Totals>() == 232);

#[repr(C)]
#[derive(Clone, Copy)]
pub(crate) struct ebpf_function {
    pub(crate) name: [u8; 256],
    pub(crate) section: [u8; 256],
    pub(crate) slots: u64,
}

/// The loads, some of which take more after the bytes.
macro_rules! loads {
    ($($load:ident($($name:ident: $type:ty),*);)*) => {
        extern "C" {
            $(pub(crate) fn $load(
                program: *mut ebpf_program,
                bytes: *const u8,
                length: usize,
                $($name: $type,)*
                context: u32,
                held: u32,
                text: *mut c_char,
                text_length: usize,
                refusal: *mut ebpf_refusal,
            ) -> ebpf_status;)*
        }
    };
}
loads! {
    ebpf_program_load();
    ebpf_program_load_unrolled();
    ebpf_program_load_elf(name: *const c_char, name_length: usize);
    ebpf_program_load_elf_unrolled(name: *const c_char, name_length: usize);
}

extern "C" {
    pub(crate) fn ebpf_host_version() -> *const c_char;
    pub(crate) fn ebpf_elf_functions(
        bytes: *const u8,
        length: usize,
        functions: *mut ebpf_function,
        functions_length: usize,
        count: *mut usize,
        text: *mut c_char,
        text_length: usize,
        refusal: *mut ebpf_refusal,
    ) -> ebpf_status;
    pub(crate) fn ebpf_program_context(program: *const ebpf_program) -> u32;
    pub(crate) fn ebpf_program_held(program: *const ebpf_program) -> u32;
    pub(crate) fn ebpf_program_slots(program: *const ebpf_program) -> u32;
    pub(crate) fn ebpf_program_share(other: *mut ebpf_program, program: *const ebpf_program) -> ebpf_status;
    pub(crate) fn ebpf_program_free(program: *mut ebpf_program);

    pub(crate) fn ebpf_machine_new(machine: *mut ebpf_machine, pages: u32) -> ebpf_status;
    pub(crate) fn ebpf_machine_free(machine: *mut ebpf_machine);
    pub(crate) fn ebpf_machine_reap(machine: *mut ebpf_machine) -> ebpf_status;

    pub(crate) fn ebpf_shared_new(shared: *mut ebpf_shared, pages: u32, workers: u32) -> ebpf_status;
    pub(crate) fn ebpf_shared_reap(shared: *mut ebpf_shared, pages: *mut u32) -> ebpf_status;
    pub(crate) fn ebpf_shared_close(shared: *mut ebpf_shared, totals: *mut Totals) -> ebpf_status;
    pub(crate) fn ebpf_shared_free(shared: *mut ebpf_shared);
    pub(crate) fn ebpf_worker_open(worker: *mut ebpf_worker, shared: *mut ebpf_shared) -> ebpf_status;
    pub(crate) fn ebpf_worker_close(worker: *mut ebpf_worker);
}

/// The functions of what runs programs: those of a machine and of a worker differ only in their names.
macro_rules! runner {
    ($runner:ident, $run:ident, $run_batch:ident, $put:ident, $take:ident) => {
        extern "C" {
            pub(crate) fn $run(
                runner: *mut $runner,
                program: *const ebpf_program,
                context: *const u8,
                context_length: usize,
                limit: u64,
                output: *mut u64,
                output_length: usize,
                report: *mut Report,
            ) -> ebpf_status;
            pub(crate) fn $run_batch(
                runner: *mut $runner,
                program: *const ebpf_program,
                contexts: *const u8,
                contexts_length: usize,
                limit: u64,
                reports: *mut Report,
                count: usize,
                done: *mut usize,
            ) -> ebpf_status;
            pub(crate) fn $put(runner: *mut $runner, kind: u32, bytes: *const u8, length: usize, replaced: *mut bool) -> ebpf_status;
            pub(crate) fn $take(runner: *mut $runner, kind: u32, bytes: *mut u8, length: usize, found: *mut bool) -> ebpf_status;
        }
    };
}
runner!(ebpf_machine, ebpf_machine_run, ebpf_machine_run_batch, ebpf_machine_put, ebpf_machine_take);
runner!(ebpf_worker, ebpf_worker_run, ebpf_worker_run_batch, ebpf_worker_put, ebpf_worker_take);
