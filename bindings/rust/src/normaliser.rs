// SPDX-License-Identifier: MIT
//! The normal form of a stream that comes in chunks.
use crate::chunks::{DEFAULT_LIMIT, in_parts};
use crate::{Error, ffi};

/// The normal form of a stream that comes in chunks: the text of [`normal`](crate::normal) for all
/// of them, if no string is longer than the limit. It keeps an unfinished sequence or string, at
/// most its limit, and may move between threads. With the feature `std` there are
/// [`NormalReader`](crate::NormalReader) and [`NormalWriter`](crate::NormalWriter).
///
/// ```
/// use escape_stream::Normaliser;
///
/// let mut text = Vec::new();
/// let mut normaliser = Normaliser::new()?;
/// for chunk in [&b"a\x1b]0;a ti"[..], b"tle\x07\x1b[0", b"1m"] {
///     normaliser.feed(chunk)?;
///     normaliser.output(|part| text.extend_from_slice(part));
/// }
/// assert_eq!(text, b"a\x1b]0;a title\x1b\\\x1b[1m");
/// # Ok::<(), escape_stream::Error>(())
/// ```
#[derive(Debug)]
pub struct Normaliser {
    raw: ffi::Normaliser,
}

impl Normaliser {
    /// A normaliser at the beginning of a stream, which keeps at most 1,048,576 bytes of a string.
    ///
    /// # Errors
    ///
    /// [`Error::Memory`] if a request for memory was refused.
    pub fn new() -> Result<Normaliser, Error> {
        Normaliser::with_limit(DEFAULT_LIMIT)
    }

    /// The same with another limit: nothing is written of a string with more bytes.
    ///
    /// # Errors
    ///
    /// [`Error::Memory`] if a request for memory was refused.
    pub fn with_limit(limit: usize) -> Result<Normaliser, Error> {
        let mut raw = ffi::Normaliser::ended();
        raw.begin(limit)?;
        Ok(Normaliser { raw })
    }

    /// Takes the next chunk of the stream. [`output`](Normaliser::output) then gives the text that
    /// it adds to the normal form, and that of the chunk before is gone.
    ///
    /// # Errors
    ///
    /// [`Error::Memory`] if a request for memory was refused, and from then on
    /// [`Error::Failed`]. The texts before are the beginning of what the stream would have given.
    pub fn feed(&mut self, chunk: &[u8]) -> Result<(), Error> {
        self.raw.feed(chunk)
    }

    /// Ends the stream, and begins the next. The end adds no text, and an unfinished sequence is
    /// dropped. It takes no memory.
    ///
    /// # Errors
    ///
    /// [`Error::Failed`] if an earlier call failed.
    pub fn finish(&mut self) -> Result<(), Error> {
        self.raw.finish()
    }

    /// Calls `act` with the text that the last chunk added, in parts.
    pub fn output(&mut self, act: impl FnMut(&[u8])) {
        in_parts(|from, out| self.output_from(from, out), act);
    }

    /// Writes the text that the last call added, from its byte `from` on, to the beginning of
    /// `out`, as much as fits, and returns how many bytes these are: 0 at the end of the text.
    pub fn output_from(&mut self, from: usize, out: &mut [u8]) -> usize {
        self.raw.output(from, out)
    }
}

impl Drop for Normaliser {
    fn drop(&mut self) {
        self.raw.end();
    }
}
