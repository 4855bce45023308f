// SPDX-License-Identifier: MIT
//! A filter of a stream that comes in chunks.
use crate::chunks::{DEFAULT_LIMIT, in_parts};
use crate::{Error, Policy, ffi};

/// A filter of a stream that comes in chunks. It keeps an unfinished sequence or string, at most
/// its limit. It may move between threads. With the feature `std` there is
/// [`Filter`](crate::Filter), a writer.
///
/// ```
/// use escape_stream::{ChunkFilter, Policy};
///
/// let mut text = Vec::new();
/// let mut filter = ChunkFilter::new(Policy::Color)?;
/// for chunk in [&b"a\x1b]0;a ti"[..], b"tle\x07\x1b[3", b"1mred"] {
///     filter.feed(chunk)?;
///     filter.output(|part| text.extend_from_slice(part));
/// }
/// filter.finish()?;
/// filter.output(|part| text.extend_from_slice(part));
/// assert_eq!(text, b"a\x1b[31mred\x1b[0m");
/// # Ok::<(), escape_stream::Error>(())
/// ```
#[derive(Debug)]
pub struct ChunkFilter {
    raw: ffi::Filter,
}

impl ChunkFilter {
    /// A filter at the beginning of a stream, which keeps at most 1,048,576 bytes of a string.
    ///
    /// # Errors
    ///
    /// [`Error::Memory`] if a request for memory was refused.
    pub fn new(policy: Policy) -> Result<ChunkFilter, Error> {
        ChunkFilter::with_limit(policy, DEFAULT_LIMIT)
    }

    /// The same with another limit: nothing is written of a string with more bytes.
    ///
    /// # Errors
    ///
    /// [`Error::Memory`] if a request for memory was refused.
    pub fn with_limit(policy: Policy, limit: usize) -> Result<ChunkFilter, Error> {
        let mut raw = ffi::Filter::ended();
        raw.begin(policy, limit)?;
        Ok(ChunkFilter { raw })
    }

    /// Takes the next chunk of the stream. [`output`](ChunkFilter::output) then gives the text that
    /// it adds, and that of the chunk before is gone.
    ///
    /// # Errors
    ///
    /// [`Error::Memory`] if a request for memory was refused, and from then on
    /// [`Error::Failed`]. The texts before are the beginning of what the stream would have given.
    pub fn feed(&mut self, chunk: &[u8]) -> Result<(), Error> {
        self.raw.feed(chunk)
    }

    /// Ends the stream, and begins the next. [`output`](ChunkFilter::output) then gives the text
    /// that takes back the changes that the stream left at a terminal, as renditions and a link. An
    /// unfinished sequence is dropped.
    ///
    /// # Errors
    ///
    /// [`Error::Memory`] if a request for memory was refused, and from then on
    /// [`Error::Failed`].
    pub fn finish(&mut self) -> Result<(), Error> {
        self.raw.finish()
    }

    /// Calls `act` with the text that the last chunk or the end of the stream added, in parts.
    pub fn output(&mut self, act: impl FnMut(&[u8])) {
        in_parts(|from, out| self.output_from(from, out), act);
    }

    /// Writes the text that the last call added, from its byte `from` on, to the beginning of
    /// `out`, as much as fits, and returns how many bytes these are: 0 at the end of the text.
    pub fn output_from(&mut self, from: usize, out: &mut [u8]) -> usize {
        self.raw.output(from, out)
    }
}

impl Drop for ChunkFilter {
    fn drop(&mut self) {
        self.raw.end();
    }
}
