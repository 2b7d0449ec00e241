//! The functions of an object file, as a list.

use crate::error::{Error, Refused};
use crate::handle;
use crate::sys::{ebpf_function, ebpf_refusal, EBPF_DONE, EBPF_REFUSED};

/// A function of an object file.
#[derive(Clone, Debug, PartialEq, Eq, Hash)]
pub struct Function {
    /// Its name, at most 255 bytes of it. [`Program::load_elf`](crate::Program::load_elf) takes it.
    pub name: String,
    /// The name of its section, likewise.
    pub section: String,
    /// How many slots of eight bytes it has.
    pub slots: u64,
}

impl Function {
    fn of(raw: &ebpf_function) -> Function {
        Function { name: text_of(&raw.name), section: text_of(&raw.section), slots: raw.slots }
    }
}

/// The functions of an object file, in the order of its symbol table. Whether one can be loaded, its load says.
///
/// # Errors
///
/// [`Error::Refused`] if the file can't be read, and [`Error::NoMemory`].
///
/// ```
/// # use ebpf_host::Error;
/// # fn main() -> Result<(), Error> {
/// let file = include_bytes!(concat!(env!("CARGO_MANIFEST_DIR"), "/../loop.o"));
/// let functions = ebpf_host::elf_functions(file)?;
/// assert_eq!((functions.len(), functions[0].name.as_str()), (1, "bits"));
/// # Ok(())
/// # }
/// ```
#[doc(alias = "ebpf_elf_functions")]
pub fn elf_functions(file: &[u8]) -> Result<Vec<Function>, Error> {
    const NONE: ebpf_function = ebpf_function { name: [0; 256], section: [0; 256], slots: 0 };
    let mut count = 0;
    listed(file, &mut [], &mut count)?;
    let mut functions = vec![NONE; count];
    listed(file, &mut functions, &mut count)?;
    Ok(functions.iter().map(Function::of).collect())
}

/// Writes the functions, as far as there is room, and how many there are.
fn listed(file: &[u8], functions: &mut [ebpf_function], count: &mut usize) -> Result<(), Error> {
    let mut refusal = ebpf_refusal::default();
    let mut text = [0; 1024]; // the sentence of a file that can't be read is shorter
    match handle::elf_functions(file, functions, count, &mut text, &mut refusal) {
        EBPF_DONE => Ok(()),
        EBPF_REFUSED => Err(Error::Refused(Refused::of(&refusal, &text[..refusal.length as usize]))),
        status => Err(Error::of(status)),
    }
}

/// The bytes before the zeros.
fn text_of(field: &[u8]) -> String {
    let end = field.iter().position(|&byte| byte == 0).unwrap_or(field.len());
    String::from_utf8_lossy(&field[..end]).into_owned()
}
