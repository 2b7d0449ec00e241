//! Why calls fail.

use std::error;
use std::fmt;

use crate::{sys, Shared};

/// Why a call failed. Unless its documentation says otherwise, a call that fails has changed nothing.
///
/// Two statuses of C have no variant, since types rule them out: an empty handle, and a kind that doesn't exist.
#[derive(Clone, Debug, PartialEq, Eq)]
#[non_exhaustive]
pub enum Error {
    /// The bytes are no program that can be run, or have none.
    Refused(Refused),
    /// More than 4,096 bytes of context are declared, or more than 64 objects.
    Declaration,
    /// A machine has 1 to 256 pages, and so has what workers share.
    Pages,
    /// The context doesn't have the length for which the program was loaded, or those of a batch together haven't.
    Context,
    /// An allocation of the library failed. One of this crate itself ends the process, as everywhere in Rust.
    NoMemory,
    /// An object of the kind has fewer bytes.
    Length,
    /// There is no page, or no memory, for one more object.
    NoObject,
    /// 1 to 64 workers share caches and shelves.
    Workers,
    /// As many workers are open as may be; or, of [`Shared::close`], one is.
    Busy,
    /// A status that this crate doesn't know, of a newer library.
    Other(u32),
}

impl Error {
    /// The error of a status that is neither done nor refused.
    #[cold]
    pub(crate) fn of(status: u32) -> Error {
        match status {
            sys::EBPF_DECLARATION => Error::Declaration,
            sys::EBPF_PAGES => Error::Pages,
            sys::EBPF_CONTEXT => Error::Context,
            sys::EBPF_NO_MEMORY => Error::NoMemory,
            sys::EBPF_LENGTH => Error::Length,
            sys::EBPF_NO_OBJECT => Error::NoObject,
            sys::EBPF_WORKERS => Error::Workers,
            sys::EBPF_BUSY => Error::Busy,
            other => Error::Other(other),
        }
    }
}

impl fmt::Display for Error {
    fn fmt(&self, f: &mut fmt::Formatter<'_>) -> fmt::Result {
        match self {
            Error::Refused(refused) => refused.fmt(f),
            Error::Declaration => f.write_str("declaration out of range"),
            Error::Pages => f.write_str("number of pages out of range"),
            Error::Context => f.write_str("context of another length"),
            Error::NoMemory => f.write_str("out of memory"),
            Error::Length => f.write_str("more bytes than an object of the kind has"),
            Error::NoObject => f.write_str("no page or memory for an object"),
            Error::Workers => f.write_str("number of workers out of range"),
            Error::Busy => f.write_str("workers are open"),
            Error::Other(status) => write!(f, "unknown status {status}"),
        }
    }
}

impl error::Error for Error {}

/// Why bytes are refused.
#[derive(Clone, Debug, PartialEq, Eq)]
pub struct Refused {
    code: String,
    slot: u32,
    sentence: String,
    lines: String,
}

impl Refused {
    /// Reads the text that a load wrote: a sentence that is indented by two blanks, and further lines.
    pub(crate) fn of(refusal: &sys::ebpf_refusal, text: &[u8]) -> Refused {
        let text = String::from_utf8_lossy(text);
        let (sentence, lines) = text.split_once('\n').unwrap_or((&text, ""));
        let code = refusal.code.iter().take_while(|&&byte| byte != 0).map(|&byte| char::from(byte));
        Refused { code: code.collect(), slot: refusal.slot, sentence: sentence.trim_start().to_owned(), lines: lines.to_owned() }
    }

    /// The code, as `V8` or `O1`.
    pub fn code(&self) -> &str {
        &self.code
    }

    /// The first slot at fault, or 0 if the sentence names none.
    pub fn slot(&self) -> u32 {
        self.slot
    }

    /// The reason, in one line.
    pub fn sentence(&self) -> &str {
        &self.sentence
    }

    /// The lines after the sentence, as `ebpf_run explain` indents them: what branches of a loop compare, and the line of C. Often empty.
    pub fn lines(&self) -> &str {
        &self.lines
    }
}

impl fmt::Display for Refused {
    fn fmt(&self, f: &mut fmt::Formatter<'_>) -> fmt::Result {
        write!(f, "{} at slot {}: {}", self.code, self.slot, self.sentence)
    }
}

impl error::Error for Refused {}

/// Why a batch of runs ended early: its [source](error::Error::source) is the [`Error`].
///
/// It turns into that by `?`, where the number of runs that were done isn't needed.
#[derive(Clone, Debug, PartialEq, Eq)]
pub struct BatchError {
    pub(crate) done: usize,
    pub(crate) error: Error,
}

impl BatchError {
    /// How many runs were done, of which the reports are written: 0, unless a run found no memory. A batch of the rest goes on from there.
    pub fn done(&self) -> usize {
        self.done
    }

    /// Why the batch ended.
    pub fn error(&self) -> &Error {
        &self.error
    }
}

impl fmt::Display for BatchError {
    fn fmt(&self, f: &mut fmt::Formatter<'_>) -> fmt::Result {
        write!(f, "a batch ended after {} runs", self.done)
    }
}

impl error::Error for BatchError {
    fn source(&self) -> Option<&(dyn error::Error + 'static)> {
        Some(&self.error)
    }
}

impl From<BatchError> for Error {
    fn from(error: BatchError) -> Error {
        error.error
    }
}

/// Why what is shared was not closed: its [source](error::Error::source) is the [`Error`]. It has the [`Shared`], which is as it was.
#[derive(Debug)]
pub struct CloseError {
    pub(crate) shared: Shared,
    pub(crate) error: Error,
}

impl CloseError {
    /// Why it was not closed.
    pub fn error(&self) -> &Error {
        &self.error
    }

    /// Gives back what was to be closed. If this error is dropped instead, workers that are open go on, and there are no totals.
    pub fn into_shared(self) -> Shared {
        self.shared
    }
}

impl fmt::Display for CloseError {
    fn fmt(&self, f: &mut fmt::Formatter<'_>) -> fmt::Result {
        f.write_str("what workers share was not closed")
    }
}

impl error::Error for CloseError {
    fn source(&self) -> Option<&(dyn error::Error + 'static)> {
        Some(&self.error)
    }
}

impl From<CloseError> for Error {
    fn from(error: CloseError) -> Error {
        error.error
    }
}
