// SPDX-License-Identifier: MIT
//! Readers that filter, and that normalise.
use crate::chunks::InChunks;
use crate::{ChunkFilter, Error, Normaliser, Policy};
use std::io::{self, Read};
use std::vec;
use std::vec::Vec;

const CHUNK: usize = 8192;

/// Reads from another reader the actions of its stream that a policy admits, and nothing else, as
/// it comes.
///
/// It gives the text of [`filter`](crate::filter) for all bytes of the inner reader, and at the end
/// the text that takes back the changes that the stream left at a terminal, as renditions and a
/// link. A sequence that is unfinished waits for its end, and is dropped at the end of the stream.
/// An error of the inner reader is handed on, and reading goes on after it, as when it gives bytes
/// at the next call.
///
/// ```
/// use escape_stream::{FilterReader, Policy};
/// use std::io::Read;
///
/// let mut text = String::new();
/// let log = &b"a\x1b]0;a title\x07\x1b[31mred"[..];
/// FilterReader::new(log, Policy::Color)?.read_to_string(&mut text)?;
/// assert_eq!(text, "a\x1b[31mred\x1b[0m");
/// # Ok::<(), std::io::Error>(())
/// ```
#[derive(Debug)]
pub struct FilterReader<R> {
    reader: ChunkReader<R, ChunkFilter>,
}

impl<R: Read> FilterReader<R> {
    /// A filter at the beginning of a stream, which keeps at most 1,048,576 bytes of a string.
    ///
    /// # Errors
    ///
    /// [`Error::Memory`] if a request for memory was refused.
    pub fn new(inner: R, policy: Policy) -> Result<FilterReader<R>, Error> {
        Ok(FilterReader::over(inner, ChunkFilter::new(policy)?))
    }

    /// The same with another limit: nothing is read of a string with more bytes.
    ///
    /// # Errors
    ///
    /// [`Error::Memory`] if a request for memory was refused.
    pub fn with_limit(inner: R, policy: Policy, limit: usize) -> Result<FilterReader<R>, Error> {
        Ok(FilterReader::over(
            inner,
            ChunkFilter::with_limit(policy, limit)?,
        ))
    }

    fn over(inner: R, filter: ChunkFilter) -> FilterReader<R> {
        FilterReader {
            reader: ChunkReader::new(inner, filter),
        }
    }

    /// The inner reader.
    pub fn get_ref(&self) -> &R {
        &self.reader.inner
    }

    /// The inner reader. Bytes that are read from it here are not filtered.
    pub fn get_mut(&mut self) -> &mut R {
        &mut self.reader.inner
    }

    /// The inner reader, without an unfinished sequence and the bytes that were not read yet.
    pub fn into_inner(self) -> R {
        self.reader.inner
    }
}

impl<R: Read> Read for FilterReader<R> {
    /// Reads from the inner reader until it has something to give, or the stream has ended. If
    /// memory is refused, now or before, the error is of kind `OutOfMemory`.
    fn read(&mut self, out: &mut [u8]) -> io::Result<usize> {
        self.reader.read(out)
    }
}

/// Reads from another reader the normal form of its stream, as it comes.
///
/// It gives the text of [`normal`](crate::normal) for all bytes of the inner reader, if no string
/// is longer than the limit. A sequence that is unfinished waits for its end, and is dropped at the
/// end of the stream. An error of the inner reader is handed on, and reading goes on after it, as
/// when it gives bytes at the next call.
///
/// ```
/// use escape_stream::NormalReader;
/// use std::io::Read;
///
/// let mut text = String::new();
/// let log = &b"a\x1b]0;a title\x07\x1b[01mb"[..];
/// NormalReader::new(log)?.read_to_string(&mut text)?;
/// assert_eq!(text, "a\x1b]0;a title\x1b\\\x1b[1mb");
/// # Ok::<(), std::io::Error>(())
/// ```
#[derive(Debug)]
pub struct NormalReader<R> {
    reader: ChunkReader<R, Normaliser>,
}

impl<R: Read> NormalReader<R> {
    /// A normaliser at the beginning of a stream, which keeps at most 1,048,576 bytes of a string.
    ///
    /// # Errors
    ///
    /// [`Error::Memory`] if a request for memory was refused.
    pub fn new(inner: R) -> Result<NormalReader<R>, Error> {
        Ok(NormalReader::over(inner, Normaliser::new()?))
    }

    /// The same with another limit: nothing is read of a string with more bytes.
    ///
    /// # Errors
    ///
    /// [`Error::Memory`] if a request for memory was refused.
    pub fn with_limit(inner: R, limit: usize) -> Result<NormalReader<R>, Error> {
        Ok(NormalReader::over(inner, Normaliser::with_limit(limit)?))
    }

    fn over(inner: R, normaliser: Normaliser) -> NormalReader<R> {
        NormalReader {
            reader: ChunkReader::new(inner, normaliser),
        }
    }

    /// The inner reader.
    pub fn get_ref(&self) -> &R {
        &self.reader.inner
    }

    /// The inner reader. Bytes that are read from it here are not normalised.
    pub fn get_mut(&mut self) -> &mut R {
        &mut self.reader.inner
    }

    /// The inner reader, without an unfinished sequence and the bytes that were not read yet.
    pub fn into_inner(self) -> R {
        self.reader.inner
    }
}

impl<R: Read> Read for NormalReader<R> {
    /// Reads from the inner reader until it has something to give, or the stream has ended. If
    /// memory is refused, now or before, the error is of kind `OutOfMemory`.
    fn read(&mut self, out: &mut [u8]) -> io::Result<usize> {
        self.reader.read(out)
    }
}

// Reads what a filter or a normaliser has of what another reader gives.
#[derive(Debug)]
pub(crate) struct ChunkReader<R, P> {
    pub(crate) inner: R,
    pub(crate) chunks: P,
    chunk: Vec<u8>,
    // How much of the text that the last chunk added was read.
    read: usize,
    has_ended: bool,
}

impl<R: Read, P: InChunks> ChunkReader<R, P> {
    pub(crate) fn new(inner: R, chunks: P) -> ChunkReader<R, P> {
        ChunkReader {
            inner,
            chunks,
            chunk: vec![0; CHUNK],
            read: 0,
            has_ended: false,
        }
    }

    pub(crate) fn read(&mut self, out: &mut [u8]) -> io::Result<usize> {
        loop {
            let count = self.chunks.output_from(self.read, out);
            self.read += count;
            if count > 0 || out.is_empty() || self.has_ended {
                return Ok(count);
            }
            self.take()?;
        }
    }

    // Takes the next chunk, or the end of the stream.
    fn take(&mut self) -> io::Result<()> {
        let count = self.inner.read(&mut self.chunk)?;
        self.read = 0;
        if count == 0 {
            self.chunks.finish()?;
            self.has_ended = true;
        } else {
            self.chunks.feed(&self.chunk[..count])?;
        }
        Ok(())
    }
}
