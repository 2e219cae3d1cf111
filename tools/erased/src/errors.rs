//! `Display` and `Error` of the errors that hold another one.

use crate::any::Rejected;
use crate::{CanonError, DumpError};
use core::error::Error;
use core::fmt::{Display, Formatter, Result};

impl Display for CanonError {
    fn fmt(&self, f: &mut Formatter<'_>) -> Result {
        match self {
            CanonError::Refused(error) => error.fmt(f),
            CanonError::Unwritable => f.write_str("a length of the value does not fit its field"),
            CanonError::Memory => f.write_str("out of memory"),
        }
    }
}

impl Error for CanonError {}

impl Display for DumpError {
    fn fmt(&self, f: &mut Formatter<'_>) -> Result {
        match self {
            DumpError::Fault(error) => error.fmt(f),
            DumpError::Ended => f.write_str("the dump had ended"),
        }
    }
}

impl Error for DumpError {}

impl Display for Rejected<'_> {
    fn fmt(&self, f: &mut Formatter<'_>) -> Result {
        match self {
            Rejected::Attribute(nla, error) => write!(f, "attribute {}: {error}", nla.kind()),
            Rejected::Framing(error) => error.fmt(f),
        }
    }
}

impl Error for Rejected<'_> {}
