//! `std::env` of Rattle: the words of the command line and the environment, which are text.

use crate::HostRuntime;
use crate::runtime::spare_memory;
use std::io::{Error, ErrorKind};

/// Why a variable can't be told.
#[derive(Clone, Copy, Debug, PartialEq, Eq)]
pub enum VarError {
    /// It is not there.
    NotPresent,
    /// It is not text.
    NotUnicode,
    /// Memory ran out. It is never told here: Rust's own call ends the process instead.
    OutOfMemory,
}

/// The words of the command line; an error if one of them is not text.
pub fn args(_rt: &HostRuntime) -> Result<std::vec::IntoIter<String>, Error> {
    spare_memory()?;
    let words: Result<Vec<String>, _> = std::env::args_os().map(|word| word.into_string()).collect();
    match words {
        Ok(words) => Ok(words.into_iter()),
        Err(_) => Err(ErrorKind::InvalidData.into()),
    }
}

/// A variable; an error if it is not there, or not text.
pub fn var(_rt: &HostRuntime, name: &str) -> Result<String, VarError> {
    std::env::var(name).map_err(|why| match why {
        std::env::VarError::NotPresent => VarError::NotPresent,
        std::env::VarError::NotUnicode(_) => VarError::NotUnicode,
    })
}
