//! Why a text has no tree.

use std::fmt;

/// Why a call failed.
#[derive(Clone, Copy, Debug, PartialEq, Eq, Hash)]
#[non_exhaustive]
pub enum Error {
    /// A request for memory was refused.
    OutOfMemory,
    /// The text has 4 GiB or more, or a number of a node takes more than 32 bits.
    TooLong,
}

impl fmt::Display for Error {
    fn fmt(&self, f: &mut fmt::Formatter<'_>) -> fmt::Result {
        f.write_str(match self {
            Error::OutOfMemory => "out of memory",
            Error::TooLong => "too long",
        })
    }
}

impl std::error::Error for Error {}
