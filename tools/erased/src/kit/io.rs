//! Reading and writing, and the errors of the system.

use crate::kit::host::HostRuntime;
use crate::kit::memory::AllocError;
use crate::kit::prelude::{TryVec, Vec};
use core::fmt;
#[cfg(not(target_os = "wasi"))]
use std::os::fd::AsFd;

pub type Result<T> = core::result::Result<T, Error>;

/// The kinds of errors that the sources distinguish.
#[derive(Clone, Copy, Debug, PartialEq, Eq)]
pub enum ErrorKind {
    BrokenPipe,
    InvalidData,
    IsADirectory,
    OutOfMemory,
    Other,
}

/// An error of the system, with its number of errno(3), or one without a number.
#[derive(Clone, Copy, Debug)]
pub enum Error {
    Os(i32),
    Kind(ErrorKind),
}

impl Error {
    pub fn raw_os_error(&self) -> Option<i32> {
        match self {
            Error::Os(code) => Some(*code),
            Error::Kind(_) => None,
        }
    }

    /// Returns the kind of the error, by the numbers that errno(3) has on all machines of Linux.
    pub fn kind(&self) -> ErrorKind {
        match self {
            Error::Os(12) => ErrorKind::OutOfMemory,
            Error::Os(21) => ErrorKind::IsADirectory,
            Error::Os(32) => ErrorKind::BrokenPipe,
            Error::Os(_) => ErrorKind::Other,
            Error::Kind(kind) => *kind,
        }
    }
}

impl fmt::Display for Error {
    fn fmt(&self, f: &mut fmt::Formatter<'_>) -> fmt::Result {
        match self {
            Error::Os(code) => std::io::Error::from_raw_os_error(*code).fmt(f),
            Error::Kind(kind) => write!(f, "{kind:?}"),
        }
    }
}

impl core::error::Error for Error {}

impl From<std::io::Error> for Error {
    fn from(error: std::io::Error) -> Self {
        error.raw_os_error().map_or(Error::Kind(ErrorKind::Other), Error::Os)
    }
}

impl From<AllocError> for Error {
    fn from(_: AllocError) -> Self {
        Error::Kind(ErrorKind::OutOfMemory)
    }
}

/// A reader. Each call of `read` is one call of the system.
pub trait Read {
    fn read(&mut self, bytes: &mut [u8]) -> Result<usize>;
}

/// A writer. Each call of `write` is one call of the system.
pub trait Write {
    fn write(&mut self, bytes: &[u8]) -> Result<usize>;

    fn flush(&mut self) -> Result<()> {
        Ok(())
    }

    /// Writes all bytes. An interrupted call is repeated.
    fn write_all(&mut self, bytes: &[u8]) -> Result<()>;

    /// Writes formatted text, for `write!`. Returns the first error of a write.
    fn write_fmt(&mut self, arguments: fmt::Arguments<'_>) -> Result<()> {
        let mut text = Text { to: self, failed: Ok(()) };
        let written = fmt::Write::write_fmt(&mut text, arguments);
        text.failed?;
        written.map_err(|_| Error::Kind(ErrorKind::Other))
    }
}

/// A writer of text, and the first write that failed.
struct Text<'a, W: ?Sized> {
    to: &'a mut W,
    failed: Result<()>,
}

impl<W: Write + ?Sized> fmt::Write for Text<'_, W> {
    fn write_str(&mut self, text: &str) -> fmt::Result {
        self.failed = self.to.write_all(text.as_bytes());
        self.failed.map_err(|_| fmt::Error)
    }
}

impl Write for Vec<u8> {
    fn write(&mut self, bytes: &[u8]) -> Result<usize> {
        self.write_all(bytes)?;
        Ok(bytes.len())
    }

    fn write_all(&mut self, bytes: &[u8]) -> Result<()> {
        Ok(self.try_extend_from_slice(bytes)?)
    }
}

/// A file or a stream of the process, without a buffer: the file, or the error of what it is
/// instead. A stream is a duplicate of its descriptor, since the streams of Rust's library have
/// buffers, and accept writes to a descriptor that is closed.
pub struct File(Result<std::fs::File>);

impl File {
    /// Opens a file for reading.
    pub fn open(_: &HostRuntime, name: &str) -> Result<Self> {
        Ok(File(Ok(std::fs::File::open(name)?)))
    }

    #[cfg(not(target_os = "wasi"))]
    pub fn of_stream(stream: impl AsFd) -> Self {
        let owned = stream.as_fd().try_clone_to_owned();
        File(owned.map(std::fs::File::from).map_err(Error::from))
    }

    /// Opens a stream by its name, which the page for browsers has: WASI duplicates no descriptor.
    #[cfg(target_os = "wasi")]
    pub fn of_stream(stream: impl std::os::fd::AsRawFd) -> Self {
        let number = stream.as_raw_fd() as usize;
        let name = ["/dev/stdin", "/dev/stdout", "/dev/stderr"][number];
        let opened = std::fs::File::options().read(number == 0).write(number != 0).open(name);
        File(opened.map_err(Error::from))
    }

    fn file(&mut self) -> Result<&mut std::fs::File> {
        self.0.as_mut().map_err(|error| *error)
    }
}

impl Read for File {
    fn read(&mut self, bytes: &mut [u8]) -> Result<usize> {
        Ok(std::io::Read::read(self.file()?, bytes)?)
    }
}

impl Write for File {
    fn write(&mut self, bytes: &[u8]) -> Result<usize> {
        Ok(std::io::Write::write(self.file()?, bytes)?)
    }

    fn write_all(&mut self, bytes: &[u8]) -> Result<()> {
        Ok(std::io::Write::write_all(self.file()?, bytes)?)
    }
}

/// A stream that may be a terminal.
pub trait IsTerminal {
    fn is_terminal(&self) -> bool;
}

impl IsTerminal for File {
    fn is_terminal(&self) -> bool {
        self.0.as_ref().is_ok_and(std::io::IsTerminal::is_terminal)
    }
}

/// A reader with a buffer, whose unread bytes are those from `start` to `end`.
pub struct BufReader<R> {
    reader: R,
    buffer: Vec<u8>,
    start: usize,
    end: usize,
}

impl<R: Read> BufReader<R> {
    /// Returns a reader with a buffer of 8 KiB.
    pub fn new(reader: R) -> Result<Self> {
        Ok(BufReader { reader, buffer: Vec::filled(0, 8192)?, start: 0, end: 0 })
    }
}

impl<R: Read> Read for BufReader<R> {
    fn read(&mut self, bytes: &mut [u8]) -> Result<usize> {
        if self.start == self.end {
            if bytes.len() >= self.buffer.len() {
                return self.reader.read(bytes);
            }
            (self.start, self.end) = (0, 0);
            self.end = self.reader.read(&mut self.buffer)?;
        }
        let count = bytes.len().min(self.end - self.start);
        bytes[..count].copy_from_slice(&self.buffer[self.start..][..count]);
        self.start += count;
        Ok(count)
    }
}
