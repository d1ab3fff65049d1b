//! `std::process` of Rattle: the status with which the program ends, which can also be read.

/// The status of a process.
#[derive(Clone, Copy)]
pub struct ExitCode {
    code: u8,
}

impl From<u8> for ExitCode {
    fn from(code: u8) -> ExitCode {
        ExitCode { code }
    }
}

impl ExitCode {
    /// Its number.
    pub fn code(self) -> u8 {
        self.code
    }
}
