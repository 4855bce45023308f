// SPDX-License-Identifier: MIT
//! The bytes of values: the normal form of a spelling that reads back as the value.
use crate::action::{Action, Parser};
use crate::{Error, normal};
use alloc::vec::Vec;
use core::fmt;
use core::str;

/// The terminator of strings.
pub const TERMINATOR: &[u8] = b"\x1b\\";

/// The normal form of these bytes, if the actions that they give are what was spelled.
pub fn checked(bytes: &[u8], are_meant: impl FnOnce(&[Action]) -> bool) -> Result<Vec<u8>, Error> {
    let mut parser = Parser::with_limits(bytes.len(), bytes.len());
    let actions = parser.parse_as_vec(bytes);
    if let Some(error) = parser.failure() {
        return Err(error);
    }
    if !are_meant(&actions) {
        return Err(Error::NotWritable);
    }
    normal(bytes)
}

/// The same of a string that `\x1b\\` ends, which gives one action.
pub fn checked_string(
    bytes: &[u8],
    is_meant: impl FnOnce(&Action) -> bool,
) -> Result<Vec<u8>, Error> {
    checked(bytes, |actions| match actions {
        [first, Action::Esc(end)] => end.is_terminator() && is_meant(first),
        _ => false,
    })
}

/// Shows bytes that were written, all of them UTF-8.
pub fn show(bytes: Result<Vec<u8>, Error>, f: &mut fmt::Formatter<'_>) -> fmt::Result {
    let bytes = bytes.map_err(|_| fmt::Error)?;
    f.write_str(str::from_utf8(&bytes).map_err(|_| fmt::Error)?)
}

/// Numbers with `;` between them.
pub struct Numbers<'a>(pub &'a [i64]);

impl fmt::Display for Numbers<'_> {
    fn fmt(&self, f: &mut fmt::Formatter<'_>) -> fmt::Result {
        for (i, number) in self.0.iter().enumerate() {
            let separator = if i > 0 { ";" } else { "" };
            write!(f, "{separator}{number}")?;
        }
        Ok(())
    }
}

/// Implements `Display` by `to_bytes`.
macro_rules! displayed {
    ($($value:ty),+) => {
        $(
            /// The bytes of `to_bytes`. It fails if these are an error: `to_string` panics then.
            impl core::fmt::Display for $value {
                fn fmt(&self, f: &mut core::fmt::Formatter<'_>) -> core::fmt::Result {
                    $crate::written::show(self.to_bytes(), f)
                }
            }
        )+
    };
}

pub(crate) use displayed;
