//! What a program gets of the machine that runs it.

/// The system, as `main` and tests get it.
pub struct HostRuntime;

#[cfg(feature = "std")]
pub(crate) use system::{eprintln, println, CollectIn, Eprint};

#[cfg(feature = "std")]
mod system {
    use super::HostRuntime;
    use crate::kit::memory::AllocError;
    use crate::kit::prelude::{TryVec, Vec};
    use crate::kit::std::io::{File, Result, Write};
    use core::fmt::{self, Display};

    /// Writes formatted text and a line feed to standard output: `println!(rt; "..")`.
    macro_rules! println {
        ($rt:expr; $($arguments:tt)+) => {
            $rt.println(format_args!($($arguments)+))
        };
    }

    /// Writes formatted text and a line feed to standard error: `eprintln!(rt; "..")`.
    macro_rules! eprintln {
        ($rt:expr; $($arguments:tt)+) => {
            $rt.eprintln(format_args!($($arguments)+))
        };
    }
    pub(crate) use {eprintln, println};

    /// Lines on standard error.
    pub trait Eprint {
        /// Writes the text of a value and a line feed to standard error.
        fn eprintln<D: Display>(&self, value: D) -> Result<()>;
    }

    impl Eprint for HostRuntime {
        fn eprintln<D: Display>(&self, value: D) -> Result<()> {
            print_line(self.stderr(), value)
        }
    }

    impl HostRuntime {
        /// Writes the text of a value and a line feed to standard output.
        pub fn println<D: Display>(&self, value: D) -> Result<()> {
            print_line(self.stdout(), value)
        }

        pub fn stdin(&self) -> File {
            File::of_stream(::std::io::stdin())
        }

        pub fn stdout(&self) -> File {
            File::of_stream(::std::io::stdout())
        }

        pub fn stderr(&self) -> File {
            File::of_stream(::std::io::stderr())
        }
    }

    /// Writes the text of a value and a line feed. A text of up to 1023 bytes is one write.
    fn print_line<D: Display>(to: File, value: D) -> Result<()> {
        let mut line = Line { to, bytes: [0; 1024], len: 0, failed: Ok(()) };
        // A failed write is in `failed`.
        let _ = fmt::write(&mut line, format_args!("{value}\n"));
        line.send();
        line.failed
    }

    /// A part of a text that is not written yet, and the first write that failed.
    struct Line {
        to: File,
        bytes: [u8; 1024],
        len: usize,
        failed: Result<()>,
    }

    impl Line {
        /// Writes the part, unless a write failed.
        fn send(&mut self) {
            if self.failed.is_ok() {
                self.failed = self.to.write_all(&self.bytes[..self.len]);
                self.len = 0;
            }
        }
    }

    impl fmt::Write for Line {
        fn write_str(&mut self, text: &str) -> fmt::Result {
            for byte in text.bytes() {
                if self.len == self.bytes.len() {
                    self.send();
                    self.failed.map_err(|_| fmt::Error)?;
                }
                self.bytes[self.len] = byte;
                self.len += 1;
            }
            Ok(())
        }
    }

    /// `collect` that may fail.
    pub trait CollectIn: Iterator {
        fn collect_in<C: FromItems<Self::Item>>(self) -> core::result::Result<C, AllocError>;
    }

    impl<I: Iterator> CollectIn for I {
        fn collect_in<C: FromItems<I::Item>>(self) -> core::result::Result<C, AllocError> {
            C::from_items(self)
        }
    }

    /// What `collect_in` returns.
    pub trait FromItems<T>: Sized {
        fn from_items<I: Iterator<Item = T>>(items: I) -> core::result::Result<Self, AllocError>;
    }

    impl<T> FromItems<T> for Vec<T> {
        fn from_items<I: Iterator<Item = T>>(items: I) -> core::result::Result<Self, AllocError> {
            let mut vec = Vec::new();
            for item in items {
                vec.try_push(item)?;
            }
            Ok(vec)
        }
    }
}
