// SPDX-License-Identifier: MIT
//! Objects that take a stream in chunks, and have the text of each: a filter, a sanitizer, a page
//! and a normaliser.
#[cfg(feature = "std")]
use crate::Error;

/// The number of bytes that are kept of a string, if no limit is given.
pub(crate) const DEFAULT_LIMIT: usize = 1_048_576;

/// Calls `act` with a text in parts; `output_from` writes it from a byte on, as much as fits. Most
/// texts are those of a line, so the room for the first part is small: all of it is cleared.
pub(crate) fn in_parts(
    mut output_from: impl FnMut(usize, &mut [u8]) -> usize,
    mut act: impl FnMut(&[u8]),
) {
    let mut room = [0; 256];
    let count = output_from(0, &mut room);
    if count > 0 {
        act(&room[..count]);
    }
    if count == room.len() {
        more_parts(count, output_from, act);
    }
}

#[inline(never)]
fn more_parts(
    mut from: usize,
    mut output_from: impl FnMut(usize, &mut [u8]) -> usize,
    mut act: impl FnMut(&[u8]),
) {
    let mut room = [0; 4096];
    loop {
        let count = output_from(from, &mut room);
        if count == 0 {
            return;
        }
        act(&room[..count]);
        from += count;
    }
}

/// A filter, a sanitizer or a normaliser, for readers and writers.
#[cfg(feature = "std")]
pub(crate) trait InChunks {
    /// Takes the next chunk.
    fn feed(&mut self, chunk: &[u8]) -> Result<(), Error>;

    /// Ends the stream, and begins the next, if there is one.
    fn finish(&mut self) -> Result<(), Error>;

    /// Writes the text that the last call added, from a byte of it on, and says how much.
    fn output_from(&mut self, from: usize, out: &mut [u8]) -> usize;
}

#[cfg(feature = "std")]
impl InChunks for crate::ChunkFilter {
    fn feed(&mut self, chunk: &[u8]) -> Result<(), Error> {
        self.feed(chunk)
    }

    fn finish(&mut self) -> Result<(), Error> {
        self.finish()
    }

    fn output_from(&mut self, from: usize, out: &mut [u8]) -> usize {
        self.output_from(from, out)
    }
}

#[cfg(feature = "std")]
impl InChunks for crate::Normaliser {
    fn feed(&mut self, chunk: &[u8]) -> Result<(), Error> {
        self.feed(chunk)
    }

    fn finish(&mut self) -> Result<(), Error> {
        self.finish()
    }

    fn output_from(&mut self, from: usize, out: &mut [u8]) -> usize {
        self.output_from(from, out)
    }
}

#[cfg(feature = "std")]
impl InChunks for crate::Sanitizer {
    fn feed(&mut self, chunk: &[u8]) -> Result<(), Error> {
        self.feed(chunk)
    }

    fn finish(&mut self) -> Result<(), Error> {
        self.finish()
    }

    fn output_from(&mut self, from: usize, out: &mut [u8]) -> usize {
        self.output_from(from, out)
    }
}
