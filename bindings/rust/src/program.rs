//! Programs that were accepted.

use std::fmt;

use crate::error::{Error, Refused};
use crate::handle::{Ask, Handle};
use crate::sys::{ebpf_program, ebpf_refusal, EBPF_REFUSED};

/// What a program is loaded for. By default it has no context and holds no object.
#[derive(Clone, Copy, Debug, Default, PartialEq, Eq, Hash)]
pub struct Declaration {
    /// The bytes that the host gives to each run, 0 to 4096.
    pub context: u32,
    /// The most objects that a run may hold at one time, 0 to 64.
    pub held: u32,
}

/// A program that was verified once, and runs any number of times.
///
/// Any number of threads may run it at the same time by one `&Program`, each on a [`Machine`](crate::Machine) or by a
/// [`Worker`](crate::Worker) of its own. So it may be in a `static`, in an `Arc`, or be lent to scoped threads:
///
/// ```
/// # use ebpf_host::{Declaration, Error, Machine, Program};
/// # fn main() -> Result<(), Error> {
/// let slots = [0xb7, 0, 0, 0, 7, 0, 0, 0, 0x95, 0, 0, 0, 0, 0, 0, 0]; // r0 = 7; exit
/// let program = Program::load(&slots, Declaration::default())?;
/// std::thread::scope(|scope| {
///     for _ in 0..4 {
///         scope.spawn(|| {
///             let mut machine = Machine::new(1).expect("there is memory");
///             assert_eq!(machine.run(&program, &[]).expect("there is memory").exit, 7);
///         });
///     }
/// });
/// # Ok(())
/// # }
/// ```
pub struct Program(pub(crate) Handle<ebpf_program>);

impl Program {
    /// Verifies raw instruction slots, eight bytes each, as the text section of an object file has them.
    ///
    /// # Errors
    ///
    /// As every load: [`Error::Refused`], [`Error::Declaration`] or [`Error::NoMemory`]. The text of a refusal is whole, however long it
    /// is: if the first buffer is too short, the bytes are judged once more.
    ///
    /// ```
    /// # use ebpf_host::{Declaration, Error, Program};
    /// let slots = [0x61, 0x10, 0, 0, 0, 0, 0, 0, 0x95, 0, 0, 0, 0, 0, 0, 0]; // reads four bytes of the context
    /// match Program::load(&slots, Declaration { context: 3, held: 0 }) {
    ///     Err(Error::Refused(why)) => assert_eq!((why.code(), why.slot()), ("V8", 0)),
    ///     other => panic!("{other:?}"),
    /// }
    /// ```
    #[doc(alias = "ebpf_program_load")]
    pub fn load(slots: &[u8], declaration: Declaration) -> Result<Program, Error> {
        judged(slots, declaration, false, Handle::load)
    }

    /// The same after its loops are unrolled, which may take milliseconds.
    ///
    /// # Errors
    ///
    /// As [`load`](Program::load).
    #[doc(alias = "ebpf_program_load_unrolled")]
    pub fn load_unrolled(slots: &[u8], declaration: Declaration) -> Result<Program, Error> {
        judged(slots, declaration, true, Handle::load)
    }

    /// Verifies a function of an object file that clang made, with the constant data that it reads. The file may have several functions;
    /// with `None` it has to have only one.
    ///
    /// # Errors
    ///
    /// As [`load`](Program::load).
    #[doc(alias = "ebpf_program_load_elf")]
    pub fn load_elf(file: &[u8], function: Option<&str>, declaration: Declaration) -> Result<Program, Error> {
        judged(file, declaration, false, |ask| Handle::load_elf(ask, function.unwrap_or_default()))
    }

    /// The same after its loops are unrolled, which may take milliseconds.
    ///
    /// # Errors
    ///
    /// As [`load`](Program::load).
    #[doc(alias = "ebpf_program_load_elf_unrolled")]
    pub fn load_elf_unrolled(file: &[u8], function: Option<&str>, declaration: Declaration) -> Result<Program, Error> {
        judged(file, declaration, true, |ask| Handle::load_elf(ask, function.unwrap_or_default()))
    }

    /// How many bytes of context a run takes, as was declared.
    #[doc(alias = "ebpf_program_context")]
    pub fn context(&self) -> u32 {
        self.0.context()
    }

    /// How many objects a run may hold at one time, as was declared.
    #[doc(alias = "ebpf_program_held")]
    pub fn held(&self) -> u32 {
        self.0.held()
    }

    /// How many slots of eight bytes the program has as it is run, with its loops unrolled: 1 to 4096.
    #[doc(alias = "ebpf_program_slots")]
    pub fn slots(&self) -> u32 {
        self.0.slots()
    }

    /// A second handle of the same program, which is not verified again. The program lives as long as either handle.
    ///
    /// # Errors
    ///
    /// [`Error::NoMemory`].
    #[doc(alias = "ebpf_program_share")]
    pub fn try_clone(&self) -> Result<Program, Error> {
        self.0.share().map(Program).map_err(Error::of)
    }
}

impl fmt::Debug for Program {
    fn fmt(&self, f: &mut fmt::Formatter<'_>) -> fmt::Result {
        f.write_str("Program")
    }
}

/// A program by one of the loads; if the text of its refusal is longer than the buffer, by a second call with one that is long enough.
fn judged(
    bytes: &[u8],
    declaration: Declaration,
    is_unrolled: bool,
    load: impl Fn(Ask<'_>) -> Result<Handle<ebpf_program>, u32>,
) -> Result<Program, Error> {
    let Declaration { context, held } = declaration;
    let judge = |text: &mut [u8], refusal: &mut ebpf_refusal| load(Ask { bytes, is_unrolled, context, held, text, refusal });
    let mut refusal = ebpf_refusal::default();
    let mut text = vec![0; 1024];
    let mut loaded = judge(&mut text, &mut refusal);
    let length = refusal.length as usize;
    if matches!(loaded, Err(EBPF_REFUSED)) && length > text.len() {
        text.resize(length, 0);
        loaded = judge(&mut text, &mut refusal);
    }
    match loaded {
        Ok(handle) => Ok(Program(handle)),
        Err(EBPF_REFUSED) => Err(Error::Refused(Refused::of(&refusal, &text[..length]))),
        Err(status) => Err(Error::of(status)),
    }
}
