//! `format!` with an allocation that may fail.

use super::memory::AllocError;
use super::prelude::{String, TryString};
use core::fmt;

/// Returns the text of `try_format!(..)`.
pub fn formatted(arguments: fmt::Arguments<'_>) -> Result<String, AllocError> {
    let mut text = Text(String::new());
    fmt::write(&mut text, arguments).map_err(|_| AllocError)?;
    Ok(text.0)
}

/// A text that fails to grow if an allocation fails.
struct Text(String);

impl fmt::Write for Text {
    fn write_str(&mut self, text: &str) -> fmt::Result {
        self.0.try_push_str(text).map_err(|_| fmt::Error)
    }
}

/// Returns formatted text, or an error: `try_format!("..")`.
macro_rules! try_format {
    ($($arguments:tt)*) => {
        $crate::kit::format::formatted(format_args!($($arguments)*))
    };
}
pub(crate) use try_format;
