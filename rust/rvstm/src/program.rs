//! Programs: loaded once, called from any number of blocks.

use std::error::Error;
use std::fmt;

use crate::handles::Image;

/// A program, which calls of any number of blocks may run. It may be dropped before they do.
///
/// It may move to another thread, but two threads can't share it:
///
/// ```compile_fail
/// fn shared<T: Sync>() {}
/// shared::<rvstm::Program>();
/// ```
pub struct Program(pub(crate) Image);

impl Program {
    /// Loads a program of the bytes of its file.
    ///
    /// ```
    /// use rvstm::Program;
    ///
    /// assert_eq!(Program::load(b"text").unwrap_err().to_string(), "elf Truncated 1");
    /// ```
    pub fn load(file: &[u8]) -> Result<Program, LoadError> {
        Image::open(file).map(Program)
    }
}

impl fmt::Debug for Program {
    fn fmt(&self, to: &mut fmt::Formatter<'_>) -> fmt::Result {
        to.debug_struct("Program").finish_non_exhaustive()
    }
}

/// Why a program was not loaded. Its text is the message that `docs/messages.md` explains, such as `elf NotExec 5`.
#[derive(Clone, Debug, PartialEq, Eq)]
pub enum LoadError {
    /// The file is no program, or it is too long. It is refused on each machine.
    Refused {
        /// The area of the message: `elf` or `file`.
        area: String,
        /// The name of the message.
        name: String,
        /// Its number within the area.
        number: u32,
    },
    /// Memory ran out.
    NoMemory,
}

impl fmt::Display for LoadError {
    fn fmt(&self, to: &mut fmt::Formatter<'_>) -> fmt::Result {
        match self {
            LoadError::Refused { area, name, number } => write!(to, "{area} {name} {number}"),
            LoadError::NoMemory => write!(to, "elf Memory 16"),
        }
    }
}

impl Error for LoadError {}
