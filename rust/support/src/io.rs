//! Streams as `std::io` has them, of which std has none without an operating system, and whose errors allocate.

use crate::AllocError;
use crate::growth::Grow;
use alloc::vec::Vec;
use core::fmt;

pub type Result<T> = core::result::Result<T, Error>;

/// Why a stream failed.
#[derive(Clone, Copy, Debug, PartialEq, Eq)]
pub enum ErrorKind {
    Interrupted,
    InvalidData,
    Other,
    OutOfMemory,
    Unsupported,
    WriteZero,
}

/// An error of a stream: its kind, and the system's number if it is the system's.
#[derive(Clone, Copy, Debug, PartialEq, Eq)]
pub struct Error {
    kind: ErrorKind,
    number: Option<i32>,
}

impl Error {
    /// An error of the system.
    pub fn of_system(kind: ErrorKind, number: i32) -> Error {
        Error {
            kind,
            number: Some(number),
        }
    }

    pub fn kind(&self) -> ErrorKind {
        self.kind
    }

    pub fn raw_os_error(&self) -> Option<i32> {
        self.number
    }
}

impl From<ErrorKind> for Error {
    fn from(kind: ErrorKind) -> Error {
        Error { kind, number: None }
    }
}

impl From<AllocError> for Error {
    fn from(_: AllocError) -> Error {
        ErrorKind::OutOfMemory.into()
    }
}

/// An input.
pub trait Read {
    /// Reads at most as many bytes as there is room for, and returns how many: 0 at the end.
    fn read(&mut self, bytes: &mut [u8]) -> Result<usize>;
}

impl Read for &[u8] {
    fn read(&mut self, bytes: &mut [u8]) -> Result<usize> {
        let (now, rest) = self.split_at(self.len().min(bytes.len()));
        bytes[..now.len()].copy_from_slice(now);
        *self = rest;
        Ok(now.len())
    }
}

/// An output.
pub trait Write {
    /// Writes a beginning of these bytes, and returns its length.
    fn write(&mut self, bytes: &[u8]) -> Result<usize>;

    fn flush(&mut self) -> Result<()>;

    /// Writes all of these bytes. An interrupted write is repeated.
    fn write_all(&mut self, bytes: &[u8]) -> Result<()> {
        let mut rest = bytes;
        while !rest.is_empty() {
            match self.write(rest) {
                Ok(0) => return Err(ErrorKind::WriteZero.into()),
                Ok(count) => rest = &rest[count..],
                Err(error) if error.kind == ErrorKind::Interrupted => {}
                Err(error) => return Err(error),
            }
        }
        Ok(())
    }

    /// Writes a text, as `write!` calls it.
    fn write_fmt(&mut self, text: fmt::Arguments<'_>) -> Result<()>
    where
        Self: Sized,
    {
        let mut writer = Writer(self, Ok(()));
        match fmt::write(&mut writer, text) {
            Ok(()) => Ok(()),
            Err(_) => writer.1,
        }
    }
}

impl Write for Vec<u8> {
    fn write(&mut self, bytes: &[u8]) -> Result<usize> {
        self.checked_extend_from_slice(bytes)?;
        Ok(bytes.len())
    }

    fn flush(&mut self) -> Result<()> {
        Ok(())
    }
}

// An output of texts, and the error of its last write.
struct Writer<'a, W>(&'a mut W, Result<()>);

impl<W: Write> fmt::Write for Writer<'_, W> {
    fn write_str(&mut self, text: &str) -> fmt::Result {
        self.1 = self.0.write_all(text.as_bytes());
        self.1.map_err(|_| fmt::Error)
    }
}
