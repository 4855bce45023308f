// SPDX-License-Identifier: MIT
//! Streams as HTML that cannot come alive in a page.
use crate::chunks::{DEFAULT_LIMIT, in_parts};
use crate::{Error, ffi};

/// How a page is laid out.
#[derive(Clone, Copy, Debug, Default, PartialEq, Eq, Hash)]
#[cfg_attr(feature = "serde", derive(serde::Serialize, serde::Deserialize))]
pub struct Layout {
    /// Whether the tags that are open are closed before each line feed, and opened again after it:
    /// so each line is HTML by itself.
    pub per_line: bool,
    /// Whether looks are styles alone, so that the page needs no style sheet. If they are not,
    /// they are the classes of `eschtml --style`.
    pub inline: bool,
}

/// A stream that comes in chunks, as HTML: its characters, tabs and lines, with colours and
/// renditions as spans and links to `http`, `https` and `mailto`. A browser reads from it, inside
/// the body of a page in UTF-8, these spans and links and nothing else, whatever the stream is. It
/// may move between threads.
///
/// ```
/// use escape_stream::html::{Layout, ChunkPage};
///
/// let mut html = Vec::new();
/// let mut page = ChunkPage::new(Layout::default())?;
/// for chunk in [&b"a <b>\x1b[1"[..], b";31mred"] {
///     page.feed(chunk)?;
///     page.output(|part| html.extend_from_slice(part));
/// }
/// page.finish()?;
/// page.output(|part| html.extend_from_slice(part));
/// assert_eq!(html, b"a &lt;b&gt;<span class=\"es-bold es-fg-red\">red</span>");
/// # Ok::<(), escape_stream::Error>(())
/// ```
#[derive(Debug)]
pub struct ChunkPage {
    raw: ffi::Page,
}

impl ChunkPage {
    /// The page of a stream, at its beginning, which keeps at most 1,048,576 bytes of a string.
    ///
    /// # Errors
    ///
    /// [`Error::Memory`] if a request for memory was refused.
    pub fn new(layout: Layout) -> Result<ChunkPage, Error> {
        ChunkPage::with_limit(layout, DEFAULT_LIMIT)
    }

    /// The same with another limit: a string with more bytes, such as a link, shows nothing.
    ///
    /// # Errors
    ///
    /// [`Error::Memory`] if a request for memory was refused.
    pub fn with_limit(layout: Layout, limit: usize) -> Result<ChunkPage, Error> {
        let mut raw = ffi::Page::ended();
        raw.begin(layout.per_line, layout.inline, limit)?;
        Ok(ChunkPage { raw })
    }

    /// Takes the next chunk of the stream. [`output`](ChunkPage::output) then gives the text that
    /// it adds to the page, and that of the chunk before is gone.
    ///
    /// # Errors
    ///
    /// [`Error::Memory`] if a request for memory was refused, and from then on, and after the
    /// end of the stream, [`Error::Failed`]. The texts before are the beginning of the page.
    pub fn feed(&mut self, chunk: &[u8]) -> Result<(), Error> {
        self.raw.feed(chunk)
    }

    /// Ends the stream. [`output`](ChunkPage::output) then gives the text that closes the open
    /// tags: with it the texts of all chunks, one after another, are a page. It takes no memory.
    ///
    /// # Errors
    ///
    /// [`Error::Failed`] if an earlier call failed.
    pub fn finish(&mut self) -> Result<(), Error> {
        self.raw.finish()
    }

    /// Calls `act` with the text that the last chunk or the end of the stream added, in parts.
    pub fn output(&mut self, act: impl FnMut(&[u8])) {
        in_parts(|from, out| self.output_from(from, out), act);
    }

    /// Writes the text that the last call added, from its byte `from` on, to the beginning of
    /// `out`, as much as fits, and returns how many bytes these are: 0 at the end of the text.
    pub fn output_from(&mut self, from: usize, out: &mut [u8]) -> usize {
        self.raw.output(from, out)
    }
}

impl Drop for ChunkPage {
    fn drop(&mut self) {
        self.raw.end();
    }
}
