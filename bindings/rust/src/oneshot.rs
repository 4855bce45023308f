// SPDX-License-Identifier: MIT
//! The calls that take a stream whole.
use crate::{Error, ffi};
use alloc::vec::Vec;

/// Which actions pass [`filter`]. Each policy admits all that the one before it does.
#[derive(Clone, Copy, Debug, PartialEq, Eq, Hash)]
#[cfg_attr(feature = "serde", derive(serde::Serialize, serde::Deserialize))]
#[non_exhaustive]
pub enum Policy {
    /// Characters but DEL; tab, line feed and carriage return.
    Text,
    /// And graphic renditions (SGR: colours, bold, underline ..) and hyperlinks (OSC 8).
    Color,
    /// And a list of functions that are known to change the screen alone: cursor movement, erasing,
    /// scrolling, modes of the display, and others. Nothing that a terminal answers, no title, no
    /// clipboard, and nothing unknown.
    Screen,
    /// All that can be written by itself, so images, titles and queries too. It keeps broken input
    /// from becoming a sequence, and does not protect from sequences that are there.
    All,
}

/// The normal form of a stream: each of its actions, in order, in its one spelling.
///
/// If the stream ends inside a sequence, only its effect so far is written. If the normal form is
/// longer than the stream, it is made twice: [`normal_into`] leaves the room to the caller.
///
/// Normal form is no protection: for a stream of unknown origin there is [`filter`].
///
/// # Errors
///
/// [`Error::Memory`] if a request for memory was refused.
pub fn normal(bytes: &[u8]) -> Result<Vec<u8>, Error> {
    whole(bytes.len(), |out| normal_into(bytes, out))
}

/// Writes the normal form of a stream to `out`, or as much of its beginning as fits, and returns
/// the length of all of it in bytes. Every other byte of `out` stays as it was.
///
/// # Errors
///
/// [`Error::Memory`] if a request for memory was refused. Then `out` is as it was.
pub fn normal_into(bytes: &[u8], out: &mut [u8]) -> Result<usize, Error> {
    ffi::normal(bytes, out)
}

/// Whether a stream is its own normal form.
///
/// # Errors
///
/// [`Error::Memory`] if a request for memory was refused.
pub fn is_normal(bytes: &[u8]) -> Result<bool, Error> {
    ffi::is_normal(bytes)
}

/// The actions of a stream that the policy admits, and nothing else. The text reads back as the
/// actions that were admitted, whatever bytes follow it: no text of the stream becomes a sequence,
/// however broken the stream is.
///
/// `limit` is the number of bytes that are kept of a string, such as a title or an image; nothing
/// is written of a longer one.
///
/// # Errors
///
/// [`Error::Memory`] if a request for memory was refused.
pub fn filter(policy: Policy, limit: usize, bytes: &[u8]) -> Result<Vec<u8>, Error> {
    whole(bytes.len(), |out| filter_into(policy, limit, bytes, out))
}

/// Writes the actions of a stream that the policy admits to `out`, or as much of its beginning as
/// fits, and returns the length of all of it in bytes. Every other byte of `out` stays as it was.
/// A text that does not fit is cut anywhere, also inside a sequence: send `out` to a terminal only
/// if all of it fits.
///
/// # Errors
///
/// [`Error::Memory`] if a request for memory was refused. Then `out` is as it was.
pub fn filter_into(
    policy: Policy,
    limit: usize,
    bytes: &[u8],
    out: &mut [u8],
) -> Result<usize, Error> {
    ffi::filter(policy, limit, bytes, out)
}

// All that a call writes, if it needs about this many bytes, or once more if it needs more.
fn whole(about: usize, call: impl Fn(&mut [u8]) -> Result<usize, Error>) -> Result<Vec<u8>, Error> {
    let mut text = Vec::new();
    grow(&mut text, about)?;
    let mut needed = call(&mut text)?;
    if needed > text.len() {
        grow(&mut text, needed)?;
        needed = call(&mut text)?;
    }
    text.truncate(needed);
    Ok(text)
}

fn grow(text: &mut Vec<u8>, to: usize) -> Result<(), Error> {
    text.try_reserve_exact(to - text.len())
        .map_err(|_| Error::Memory)?;
    text.resize(to, 0);
    Ok(())
}
