// SPDX-License-Identifier: MIT
//! A filter of a log that comes in chunks.
use crate::chunks::in_parts;
use crate::{Error, SanitizerOptions, ffi};

/// The fates of the bytes of a stream: how many had each, in UTF-8 if the encoding of the
/// stream is another.
#[repr(C)]
#[derive(Clone, Copy, Debug, Default, PartialEq, Eq, Hash)]
pub struct Account {
    /// They are in the text as they came.
    pub passed: u64,
    /// They are in the text in another spelling.
    pub respelled: u64,
    /// They are in the text as visible characters.
    pub shown: u64,
    /// U+FFFD is in the text for them.
    pub replaced: u64,
    /// They mean something that does not pass.
    pub left_out: u64,
    /// They mean nothing, as those of a string that nobody ended.
    pub swallowed: u64,
    /// Other text took their place.
    pub overwritten: u64,
    /// How many there are: the sum of these.
    pub length: u64,
}

/// The filter of a log, or of another stream of unknown origin, that comes in chunks: the output of
/// the program `escfilter`, by its options, and the account of every byte. If each line is a stream
/// of its own, as by [`Policy::Text`](crate::Policy::Text) and
/// [`Policy::Color`](crate::Policy::Color), a string that nobody ends takes away the rest of its
/// line, and no line after it.
///
/// It may move between threads. With the feature `std` there are
/// [`SanitizerWriter`](crate::SanitizerWriter) and [`SanitizerReader`](crate::SanitizerReader).
///
/// ```
/// use escape_stream::{Policy, Sanitizer, SanitizerOptions};
///
/// let mut text = Vec::new();
/// let mut log = Sanitizer::new(SanitizerOptions::new(Policy::Text))?;
/// for chunk in [&b"one\x1b]0;a ti"[..], b"tle\ntwo\x1b[3", b"1m three\n"] {
///     log.feed(chunk)?;
///     log.output(|part| text.extend_from_slice(part));
/// }
/// log.finish()?;
/// log.output(|part| text.extend_from_slice(part));
/// assert_eq!(text, b"one\ntwo three\n");
///
/// let account = log.account()?;
/// assert_eq!((account.length, account.passed), (30, 13));
/// assert_eq!((account.swallowed, account.left_out), (12, 5));
/// # Ok::<(), escape_stream::Error>(())
/// ```
#[derive(Debug)]
pub struct Sanitizer {
    raw: ffi::Sanitizer,
}

impl Sanitizer {
    /// A sanitizer at the beginning of a stream.
    ///
    /// # Errors
    ///
    /// [`Error::Memory`] if a request for memory was refused, [`Error::TooManyRows`] if the options
    /// let more than 4,096 rows be written again, and [`Error::TooManyColumns`] if they give these
    /// more than 16,384 columns.
    pub fn new(options: SanitizerOptions) -> Result<Sanitizer, Error> {
        let mut raw = ffi::Sanitizer::ended();
        raw.begin(&options.raw)?;
        Ok(Sanitizer { raw })
    }

    /// Takes the next chunk of the stream. [`output`](Sanitizer::output) then gives the text that
    /// it adds, and that of the chunk before is gone.
    ///
    /// # Errors
    ///
    /// [`Error::Memory`] if a request for memory was refused, and from then on, and after the
    /// end of the stream, [`Error::Failed`]. The texts before are the beginning of what the stream
    /// would have given.
    pub fn feed(&mut self, chunk: &[u8]) -> Result<(), Error> {
        self.raw.feed(chunk)
    }

    /// Ends the stream. [`output`](Sanitizer::output) then gives the text that this adds, and the
    /// account is that of the whole stream.
    ///
    /// # Errors
    ///
    /// Those of [`feed`](Sanitizer::feed).
    pub fn finish(&mut self) -> Result<(), Error> {
        self.raw.finish()
    }

    /// Calls `act` with the text that the last chunk or the end of the stream added, in parts.
    pub fn output(&mut self, act: impl FnMut(&[u8])) {
        in_parts(|from, out| self.output_from(from, out), act);
    }

    /// Writes the text that the last call added, from its byte `from` on, to the beginning of
    /// `out`, as much as fits, and returns how many bytes these are: 0 at the end of the text.
    pub fn output_from(&mut self, from: usize, out: &mut [u8]) -> usize {
        self.raw.output(from, out)
    }

    /// The fates of the bytes of the stream: of those of the lines, or of the parts of a stream
    /// that is one, that have ended; and of all, once the stream has ended. The sums then add up to
    /// its length, if that is less than 2^62. Zeros if the options ask for no account.
    ///
    /// # Errors
    ///
    /// [`Error::Failed`] if an earlier call failed.
    pub fn account(&mut self) -> Result<Account, Error> {
        self.raw.account()
    }
}

impl Drop for Sanitizer {
    fn drop(&mut self) {
        self.raw.end();
    }
}
