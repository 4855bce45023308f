// SPDX-License-Identifier: MIT
//! A writer and a reader that filter logs.
use crate::reader::ChunkReader;
use crate::writer::ChunkWriter;
use crate::{Account, Error, Sanitizer, SanitizerOptions};
use std::io::{self, ErrorKind, Read, Write};

/// Writes to another writer the output of a [`Sanitizer`] for the log that is written to it, as it
/// comes.
///
/// When it writes, and which errors it reports, is as of a [`Filter`](crate::Filter). The end of
/// the log, of which a line may be unfinished, is [`finish`](SanitizerWriter::finish).
///
/// ```
/// use escape_stream::{Policy, SanitizerOptions, SanitizerWriter};
/// use std::io::Write;
///
/// let options = SanitizerOptions::new(Policy::Text);
/// let mut log = SanitizerWriter::new(Vec::new(), options)?;
/// writeln!(log, "one\x1b]0;not ended")?;
/// write!(log, "two\x1b[31m")?;
/// log.finish()?;
/// assert_eq!(log.get_ref(), b"one\ntwo");
/// assert_eq!(log.account()?.swallowed, 14);
/// # Ok::<(), std::io::Error>(())
/// ```
#[derive(Debug)]
pub struct SanitizerWriter<W: Write> {
    writer: ChunkWriter<W, Sanitizer>,
    has_ended: bool,
}

impl<W: Write> SanitizerWriter<W> {
    /// A sanitizer at the beginning of a log.
    ///
    /// # Errors
    ///
    /// Those of [`Sanitizer::new`].
    pub fn new(inner: W, options: SanitizerOptions) -> Result<SanitizerWriter<W>, Error> {
        Ok(SanitizerWriter {
            writer: ChunkWriter::new(inner, Sanitizer::new(options)?),
            has_ended: false,
        })
    }

    /// The inner writer.
    pub fn get_ref(&self) -> &W {
        &self.writer.inner
    }

    /// The inner writer. Bytes that are written to it here are not filtered.
    pub fn get_mut(&mut self) -> &mut W {
        &mut self.writer.inner
    }

    /// The inner writer, without an unfinished sequence and the bytes that it did not take.
    pub fn into_inner(self) -> W {
        self.writer.inner
    }

    /// Ends the log: writes the text that this adds, and flushes the inner writer. Nothing can be
    /// written after it. If the inner writer fails, another call goes on.
    ///
    /// # Errors
    ///
    /// The error of the inner writer, and `OutOfMemory` if memory is refused, now or before.
    pub fn finish(&mut self) -> io::Result<()> {
        self.writer.flush()?;
        if !self.has_ended {
            self.writer.close()?;
            self.has_ended = true;
        }
        self.writer.flush()
    }

    /// The fates of the bytes of the log, as [`Sanitizer::account`] says.
    ///
    /// # Errors
    ///
    /// Those of [`Sanitizer::account`].
    pub fn account(&mut self) -> Result<Account, Error> {
        self.writer.chunks.account()
    }
}

impl<W: Write> Write for SanitizerWriter<W> {
    /// Takes all of `bytes`, once what was left before is written. If memory is refused, now or
    /// before, the error is of kind `OutOfMemory`, and after the end of the log of kind
    /// `InvalidInput`.
    fn write(&mut self, bytes: &[u8]) -> io::Result<usize> {
        if self.has_ended {
            return Err(io::Error::new(ErrorKind::InvalidInput, "the log has ended"));
        }
        self.writer.write(bytes)
    }

    fn flush(&mut self) -> io::Result<()> {
        self.writer.flush()
    }
}

/// Reads from another reader the output of a [`Sanitizer`] for its log, as it comes.
///
/// An error of the inner reader is handed on, and reading goes on after it, as when it gives bytes
/// at the next call.
///
/// ```
/// use escape_stream::{Policy, SanitizerOptions, SanitizerReader};
/// use std::io::Read;
///
/// let mut text = String::new();
/// let log = &b"one\x1b]0;not ended\n\x1b[31mtwo"[..];
/// let mut reader = SanitizerReader::new(log, SanitizerOptions::new(Policy::Color))?;
/// reader.read_to_string(&mut text)?;
/// assert_eq!(text, "one\n\x1b[31mtwo\x1b[0m");
/// assert_eq!(reader.account()?.length, 25);
/// # Ok::<(), std::io::Error>(())
/// ```
#[derive(Debug)]
pub struct SanitizerReader<R> {
    reader: ChunkReader<R, Sanitizer>,
}

impl<R: Read> SanitizerReader<R> {
    /// A sanitizer at the beginning of a log.
    ///
    /// # Errors
    ///
    /// Those of [`Sanitizer::new`].
    pub fn new(inner: R, options: SanitizerOptions) -> Result<SanitizerReader<R>, Error> {
        Ok(SanitizerReader {
            reader: ChunkReader::new(inner, Sanitizer::new(options)?),
        })
    }

    /// The inner reader.
    pub fn get_ref(&self) -> &R {
        &self.reader.inner
    }

    /// The inner reader. Bytes that are read from it here are not filtered.
    pub fn get_mut(&mut self) -> &mut R {
        &mut self.reader.inner
    }

    /// The inner reader, without an unfinished sequence and the bytes that were not read yet.
    pub fn into_inner(self) -> R {
        self.reader.inner
    }

    /// The fates of the bytes of the log, as [`Sanitizer::account`] says.
    ///
    /// # Errors
    ///
    /// Those of [`Sanitizer::account`].
    pub fn account(&mut self) -> Result<Account, Error> {
        self.reader.chunks.account()
    }
}

impl<R: Read> Read for SanitizerReader<R> {
    /// Reads from the inner reader until it has something to give, or the log has ended. If
    /// memory is refused, now or before, the error is of kind `OutOfMemory`.
    fn read(&mut self, out: &mut [u8]) -> io::Result<usize> {
        self.reader.read(out)
    }
}
