// SPDX-License-Identifier: MIT
//! Writers that filter, and that normalise.
use crate::chunks::InChunks;
use crate::{ChunkFilter, Error, Normaliser, Policy};
use std::io::{self, ErrorKind, Write};
use std::vec;
use std::vec::Vec;

// How many bytes of a text are written at once.
const ROOM: usize = 4096;

/// Writes to another writer the actions that a policy admits of the stream that is written to it,
/// and nothing else, as it comes.
///
/// The inner writer is given the text of [`filter`](crate::filter) for all bytes that were taken,
/// in whatever chunks they came, or, if it reported an error, the beginning of that. A sequence
/// that is unfinished waits for its end. Each write tries to write at once all that it adds. The
/// inner writer is given the bytes that it did not take then at the next write or flush, which
/// reports the error if it still does not take them; so a last [`flush`](Write::flush) shows
/// whether all was written.
///
/// ```
/// use escape_stream::{Filter, Policy};
/// use std::io::Write;
///
/// let mut log = Filter::new(Vec::new(), Policy::Text)?;
/// write!(log, "a\x1b]0;a ti")?;
/// write!(log, "tle\x07b")?;
/// assert_eq!(log.get_ref(), b"ab");
/// # Ok::<(), std::io::Error>(())
/// ```
#[derive(Debug)]
pub struct Filter<W: Write> {
    writer: ChunkWriter<W, ChunkFilter>,
}

/// [`Filter`], by the name that goes with [`FilterReader`](crate::FilterReader).
pub type FilterWriter<W> = Filter<W>;

impl<W: Write> Filter<W> {
    /// A filter at the beginning of a stream, which keeps at most 1,048,576 bytes of a string.
    ///
    /// # Errors
    ///
    /// [`Error::Memory`] if a request for memory was refused.
    pub fn new(inner: W, policy: Policy) -> Result<Filter<W>, Error> {
        Ok(Filter::over(inner, ChunkFilter::new(policy)?))
    }

    /// The same with another limit: nothing is written of a string with more bytes.
    ///
    /// # Errors
    ///
    /// [`Error::Memory`] if a request for memory was refused.
    pub fn with_limit(inner: W, policy: Policy, limit: usize) -> Result<Filter<W>, Error> {
        Ok(Filter::over(inner, ChunkFilter::with_limit(policy, limit)?))
    }

    fn over(inner: W, filter: ChunkFilter) -> Filter<W> {
        Filter {
            writer: ChunkWriter::new(inner, filter),
        }
    }

    /// The inner writer.
    pub fn get_ref(&self) -> &W {
        &self.writer.inner
    }

    /// The inner writer. Bytes that are written to it here are not filtered.
    pub fn get_mut(&mut self) -> &mut W {
        &mut self.writer.inner
    }

    /// The inner writer, without an unfinished sequence and the bytes that it did not take.
    pub fn into_inner(self) -> W {
        self.writer.inner
    }

    /// Ends the stream, and begins the next: writes the text that takes back the changes that the
    /// stream left at a terminal, as renditions and a link, and flushes the inner writer.
    ///
    /// # Errors
    ///
    /// The error of the inner writer, and `OutOfMemory` if memory is refused, now or before.
    pub fn finish(&mut self) -> io::Result<()> {
        self.writer.finish()
    }
}

impl<W: Write> Write for Filter<W> {
    /// Takes all of `bytes`, once what was left before is written. If memory is refused, now or
    /// before, the error is of kind `OutOfMemory`.
    fn write(&mut self, bytes: &[u8]) -> io::Result<usize> {
        self.writer.write(bytes)
    }

    fn flush(&mut self) -> io::Result<()> {
        self.writer.flush()
    }
}

/// Writes to another writer the normal form of the stream that is written to it, as it comes.
///
/// The inner writer is given the text of [`normal`](crate::normal) for all bytes that were taken,
/// if no string is longer than the limit, or, if it reported an error, the beginning of that. A
/// sequence that is unfinished waits for its end. It writes and reports errors as a [`Filter`]
/// does.
///
/// ```
/// use escape_stream::NormalWriter;
/// use std::io::Write;
///
/// let mut log = NormalWriter::new(Vec::new())?;
/// write!(log, "a\x1b]0;a ti")?;
/// write!(log, "tle\x07b")?;
/// assert_eq!(log.get_ref(), b"a\x1b]0;a title\x1b\\b");
/// # Ok::<(), std::io::Error>(())
/// ```
#[derive(Debug)]
pub struct NormalWriter<W: Write> {
    writer: ChunkWriter<W, Normaliser>,
}

impl<W: Write> NormalWriter<W> {
    /// A normaliser at the beginning of a stream, which keeps at most 1,048,576 bytes of a string.
    ///
    /// # Errors
    ///
    /// [`Error::Memory`] if a request for memory was refused.
    pub fn new(inner: W) -> Result<NormalWriter<W>, Error> {
        Ok(NormalWriter::over(inner, Normaliser::new()?))
    }

    /// The same with another limit: nothing is written of a string with more bytes.
    ///
    /// # Errors
    ///
    /// [`Error::Memory`] if a request for memory was refused.
    pub fn with_limit(inner: W, limit: usize) -> Result<NormalWriter<W>, Error> {
        Ok(NormalWriter::over(inner, Normaliser::with_limit(limit)?))
    }

    fn over(inner: W, normaliser: Normaliser) -> NormalWriter<W> {
        NormalWriter {
            writer: ChunkWriter::new(inner, normaliser),
        }
    }

    /// The inner writer.
    pub fn get_ref(&self) -> &W {
        &self.writer.inner
    }

    /// The inner writer. Bytes that are written to it here are not normalised.
    pub fn get_mut(&mut self) -> &mut W {
        &mut self.writer.inner
    }

    /// The inner writer, without an unfinished sequence and the bytes that it did not take.
    pub fn into_inner(self) -> W {
        self.writer.inner
    }

    /// Ends the stream, and begins the next: drops an unfinished sequence, and flushes the inner
    /// writer.
    ///
    /// # Errors
    ///
    /// The error of the inner writer, and `OutOfMemory` if memory was refused before.
    pub fn finish(&mut self) -> io::Result<()> {
        self.writer.finish()
    }
}

impl<W: Write> Write for NormalWriter<W> {
    /// Takes all of `bytes`, once what was left before is written. If memory is refused, now or
    /// before, the error is of kind `OutOfMemory`.
    fn write(&mut self, bytes: &[u8]) -> io::Result<usize> {
        self.writer.write(bytes)
    }

    fn flush(&mut self) -> io::Result<()> {
        self.writer.flush()
    }
}

// Writes to another writer what a filter or a normaliser has of what is written to it.
#[derive(Debug)]
pub(crate) struct ChunkWriter<W, P> {
    pub(crate) inner: W,
    pub(crate) chunks: P,
    // How much of the text that the last chunk added was written.
    written: usize,
    // Room for a part of the text.
    room: Vec<u8>,
}

impl<W: Write, P: InChunks> ChunkWriter<W, P> {
    pub(crate) fn new(inner: W, chunks: P) -> ChunkWriter<W, P> {
        ChunkWriter {
            inner,
            chunks,
            written: 0,
            room: vec![0; ROOM],
        }
    }

    pub(crate) fn write(&mut self, bytes: &[u8]) -> io::Result<usize> {
        self.write_text()?;
        self.written = 0;
        self.chunks.feed(bytes)?;
        // (what is not taken now is tried again at the next call, since `bytes` were taken)
        let _ = self.write_text();
        Ok(bytes.len())
    }

    pub(crate) fn flush(&mut self) -> io::Result<()> {
        self.write_text()?;
        self.inner.flush()
    }

    fn finish(&mut self) -> io::Result<()> {
        self.write_text()?;
        self.close()?;
        self.flush()
    }

    // Ends the stream, once the text is written.
    pub(crate) fn close(&mut self) -> Result<(), Error> {
        self.written = 0;
        self.chunks.finish()
    }

    // Writes what is left of the text.
    fn write_text(&mut self) -> io::Result<()> {
        loop {
            let count = self.chunks.output_from(self.written, &mut self.room);
            if count == 0 {
                return Ok(());
            }
            match self.inner.write(&self.room[..count]) {
                Ok(0) => return Err(ErrorKind::WriteZero.into()),
                Ok(taken) => self.written += taken,
                Err(error) if error.kind() == ErrorKind::Interrupted => {}
                Err(error) => return Err(error),
            }
        }
    }
}

impl From<Error> for io::Error {
    fn from(error: Error) -> io::Error {
        let kind = match error {
            Error::Memory => ErrorKind::OutOfMemory,
            Error::NotWritable | Error::TooManyRows | Error::TooManyColumns => {
                ErrorKind::InvalidInput
            }
            Error::Failed => ErrorKind::Other,
        };
        io::Error::new(kind, error)
    }
}
