//! The errors that the sources give. Their own file isn't published with them, so these are ours.

use std::io;

#[derive(Debug)]
pub enum Error {
    InvalidParams(String),
    Unsupported(String),
    OutOfBounds { offset: u64, len: u64, size: u64 },
    Io { offset: u64, source: io::Error },
}

pub type Result<T> = std::result::Result<T, Error>;

impl Error {
    pub fn io(offset: u64, source: io::Error) -> Self {
        Error::Io { offset, source }
    }
}
