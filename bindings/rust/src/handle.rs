//! Handles that are freed when they are dropped, and the calls of C on them: the only unsafe code of this crate.
//!
//! A call of C may read and write what its pointers point to, as many items as it is told, and none of them may be null. Here each comes
//! from a reference or from a slice with its length, so these hold, and no two overlap unless both are only read. No call keeps a pointer.

#![allow(unsafe_code)]

use std::ffi::CStr;
use std::mem::MaybeUninit;
use std::ptr::null_mut;

use crate::report::{Report, Totals};
use crate::sys::{self, ebpf_function, ebpf_machine, ebpf_program, ebpf_refusal, ebpf_shared, ebpf_status, ebpf_worker, EBPF_DONE};

/// The text of the library's version.
pub(crate) fn version() -> &'static str {
    // SAFETY: the library keeps the text as long as it is loaded, which is until the end of this process, and a zero ends it.
    unsafe { CStr::from_ptr(sys::ebpf_host_version()) }.to_str().unwrap_or_default()
}

/// Writes the functions of an object file, as far as there is room, and how many there are.
pub(crate) fn elf_functions(
    file: &[u8],
    functions: &mut [ebpf_function],
    count: &mut usize,
    text: &mut [u8],
    refusal: &mut ebpf_refusal,
) -> ebpf_status {
    let (first, room) = (functions.as_mut_ptr(), functions.len());
    // SAFETY: each pointer is of a reference, or of a slice with its length.
    unsafe { sys::ebpf_elf_functions(file.as_ptr(), file.len(), first, room, count, text.as_mut_ptr().cast(), text.len(), refusal) }
}

/// A handle of C.
pub(crate) trait Raw {
    /// The handle that holds nothing.
    const EMPTY: Self;
    /// Frees what a handle holds, if anything, and leaves it empty.
    const FREE: unsafe extern "C" fn(*mut Self);
}

/// A handle of C that holds something, and has one owner. It may be moved: its word points to what it holds, and nothing points to the word.
pub(crate) struct Handle<R: Raw>(R);

impl<R: Raw> Handle<R> {
    /// The handle that a call fills, if its status is done.
    fn filled(fill: impl FnOnce(&mut R) -> ebpf_status) -> Result<Handle<R>, ebpf_status> {
        let mut handle = Handle(R::EMPTY);
        match fill(&mut handle.0) {
            EBPF_DONE => Ok(handle),
            status => Err(status),
        }
    }
}

impl<R: Raw> Drop for Handle<R> {
    fn drop(&mut self) {
        // SAFETY: the handle has been made by this library, or is empty, and no call is at it, since it is borrowed mutably.
        unsafe { R::FREE(&mut self.0) }
    }
}

// SAFETY: the library keeps nothing by thread: calls on a handle may come from any thread, one after another.
unsafe impl<R: Raw> Send for Handle<R> {}

/// A handle that each call by a shared reference takes by const.
trait ByConst: Raw {}

impl ByConst for ebpf_program {}

// SAFETY: any number of calls may use a handle at once that all take by const.
unsafe impl<R: ByConst> Sync for Handle<R> {}

macro_rules! raw {
    ($raw:ident, $free:ident) => {
        impl Raw for $raw {
            const EMPTY: $raw = $raw { word: null_mut() };
            const FREE: unsafe extern "C" fn(*mut $raw) = sys::$free;
        }
    };
}
raw!(ebpf_program, ebpf_program_free);
raw!(ebpf_machine, ebpf_machine_free);
raw!(ebpf_shared, ebpf_shared_free);
raw!(ebpf_worker, ebpf_worker_close);

/// What a load is asked, and where it says why it refuses.
pub(crate) struct Ask<'a> {
    pub(crate) bytes: &'a [u8],
    pub(crate) is_unrolled: bool,
    pub(crate) context: u32,
    pub(crate) held: u32,
    pub(crate) text: &'a mut [u8],
    pub(crate) refusal: &'a mut ebpf_refusal,
}

impl Handle<ebpf_program> {
    /// Loads raw slots.
    pub(crate) fn load(ask: Ask<'_>) -> Result<Self, ebpf_status> {
        let Ask { bytes, is_unrolled, context, held, text, refusal } = ask;
        let call: unsafe extern "C" fn(_, _, _, _, _, _, _, _) -> _ =
            if is_unrolled { sys::ebpf_program_load_unrolled } else { sys::ebpf_program_load };
        Handle::filled(|raw| {
            // SAFETY: each pointer is of a reference, or of a slice with its length.
            unsafe { call(raw, bytes.as_ptr(), bytes.len(), context, held, text.as_mut_ptr().cast(), text.len(), refusal) }
        })
    }

    /// Loads the function of an object file that has this name, or its only one if the name is empty.
    pub(crate) fn load_elf(ask: Ask<'_>, name: &str) -> Result<Self, ebpf_status> {
        let Ask { bytes, is_unrolled, context, held, text, refusal } = ask;
        let call: unsafe extern "C" fn(_, _, _, _, _, _, _, _, _, _) -> _ =
            if is_unrolled { sys::ebpf_program_load_elf_unrolled } else { sys::ebpf_program_load_elf };
        let (name, name_length) = (name.as_ptr().cast(), name.len());
        Handle::filled(|raw| {
            // SAFETY: each pointer is of a reference, or of a slice with its length.
            unsafe { call(raw, bytes.as_ptr(), bytes.len(), name, name_length, context, held, text.as_mut_ptr().cast(), text.len(), refusal) }
        })
    }

    pub(crate) fn context(&self) -> u32 {
        // SAFETY: the pointer is of a reference, and so in the next two.
        unsafe { sys::ebpf_program_context(&self.0) }
    }

    pub(crate) fn held(&self) -> u32 {
        // SAFETY: as above.
        unsafe { sys::ebpf_program_held(&self.0) }
    }

    pub(crate) fn slots(&self) -> u32 {
        // SAFETY: as above.
        unsafe { sys::ebpf_program_slots(&self.0) }
    }

    /// A second handle of the same program.
    pub(crate) fn share(&self) -> Result<Self, ebpf_status> {
        // SAFETY: the two handles differ, and this one is taken by const.
        Handle::filled(|raw| unsafe { sys::ebpf_program_share(raw, &self.0) })
    }
}

impl Handle<ebpf_machine> {
    pub(crate) fn new(pages: u32) -> Result<Self, ebpf_status> {
        // SAFETY: the pointer is of a reference.
        Handle::filled(|raw| unsafe { sys::ebpf_machine_new(raw, pages) })
    }

    pub(crate) fn reap(&mut self) -> ebpf_status {
        // SAFETY: the pointer is of a reference.
        unsafe { sys::ebpf_machine_reap(&mut self.0) }
    }
}

impl Handle<ebpf_shared> {
    pub(crate) fn new(pages: u32, workers: u32) -> Result<Self, ebpf_status> {
        // SAFETY: the pointer is of a reference.
        Handle::filled(|raw| unsafe { sys::ebpf_shared_new(raw, pages, workers) })
    }

    pub(crate) fn open(&mut self) -> Result<Handle<ebpf_worker>, ebpf_status> {
        // SAFETY: the pointers are of references. The worker may outlive this handle: what it needs is freed with the last that holds it.
        Handle::filled(|raw| unsafe { sys::ebpf_worker_open(raw, &mut self.0) })
    }

    pub(crate) fn reap(&mut self, pages: &mut u32) -> ebpf_status {
        // SAFETY: the pointers are of references.
        unsafe { sys::ebpf_shared_reap(&mut self.0, pages) }
    }

    /// Closes it, and leaves this handle empty if the status is done.
    pub(crate) fn close(&mut self, totals: &mut Totals) -> ebpf_status {
        // SAFETY: the pointers are of references.
        unsafe { sys::ebpf_shared_close(&mut self.0, totals) }
    }
}

macro_rules! runs {
    ($raw:ident, $run:ident, $run_batch:ident, $put:ident, $take:ident) => {
        impl Handle<$raw> {
            #[inline]
            pub(crate) fn run(
                &mut self,
                program: &Handle<ebpf_program>,
                context: &[u8],
                limit: u64,
                output: &mut [u64],
            ) -> Result<Report, ebpf_status> {
                let mut report = MaybeUninit::uninit();
                let (numbers, room) = (output.as_mut_ptr(), output.len());
                // SAFETY: each pointer is of a reference, or of a slice with its length, and the report is only written.
                let status =
                    unsafe { sys::$run(&mut self.0, &program.0, context.as_ptr(), context.len(), limit, numbers, room, report.as_mut_ptr()) };
                if status != EBPF_DONE {
                    return Err(status);
                }
                // SAFETY: a call that is done has written each field of the report.
                Ok(unsafe { report.assume_init() })
            }

            #[inline]
            pub(crate) fn run_batch(
                &mut self,
                program: &Handle<ebpf_program>,
                contexts: &[u8],
                limit: u64,
                reports: &mut [Report],
                done: &mut usize,
            ) -> ebpf_status {
                let (first, count) = (reports.as_mut_ptr(), reports.len());
                // SAFETY: each pointer is of a reference, or of a slice with its length.
                unsafe { sys::$run_batch(&mut self.0, &program.0, contexts.as_ptr(), contexts.len(), limit, first, count, done) }
            }

            pub(crate) fn put(&mut self, kind: u32, bytes: &[u8], replaced: &mut bool) -> ebpf_status {
                // SAFETY: each pointer is of a reference, or of a slice with its length, and C writes true or false.
                unsafe { sys::$put(&mut self.0, kind, bytes.as_ptr(), bytes.len(), replaced) }
            }

            pub(crate) fn take(&mut self, kind: u32, bytes: &mut [u8], found: &mut bool) -> ebpf_status {
                // SAFETY: each pointer is of a reference, or of a slice with its length, and C writes true or false.
                unsafe { sys::$take(&mut self.0, kind, bytes.as_mut_ptr(), bytes.len(), found) }
            }
        }
    };
}
runs!(ebpf_machine, ebpf_machine_run, ebpf_machine_run_batch, ebpf_machine_put, ebpf_machine_take);
runs!(ebpf_worker, ebpf_worker_run, ebpf_worker_run_batch, ebpf_worker_put, ebpf_worker_take);
