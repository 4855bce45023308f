# SPDX-License-Identifier: MIT
"""HTML of a stream, in which nothing comes alive."""

from ctypes import byref

from escape_stream import _library
from escape_stream._in_chunks import InChunks
from escape_stream._whole import DEFAULT_LIMIT


class Page(InChunks):
    """A stream that comes in chunks, as HTML: its characters, tabs and lines, with colours and
    renditions as spans and links to `http`, `https` and `mailto`. A browser reads from it, inside
    the body of a page in UTF-8, these spans and links and nothing else, whatever the stream is.

    >>> from escape_stream import Page
    >>> with Page() as page:
    ...     [page.feed(chunk) for chunk in (b"a <b>\\x1b[", b"1mbold")] + [page.finish()]
    [b'a &lt;b&gt;', b'<span style="font-weight:bold;">bold', b'</span>']

    Any thread may use it, and one at a time. Its memory is given back by `close`,
    by the end of a `with`, or when nothing names it any more.
    """

    _name = "page"
    _feed = _library.html_feed
    _finish = _library.html_finish
    _output_from = _library.html_output
    _end = _library.html_end

    def __init__(
        self, *, classes: bool = False, per_line: bool = False, limit: int = DEFAULT_LIMIT
    ) -> None:
        """Begins a stream.

        Looks are styles, so that the page needs no style sheet; with `classes` they are the classes
        of `eschtml --style`. With `per_line` the tags that are open are closed before each line
        feed, and opened again after it, so that each line is HTML by itself. `limit` is how many
        bytes are kept of a string; one with more, such as a link, shows nothing.

        Raises MemoryError if a request for memory was refused.
        """
        super().__init__(_library.RawPage())
        begun = _library.html_begin(
            byref(self._raw), per_line, not classes, _library.limit_of(limit)
        )
        _library.done(begun)


def html(
    stream: _library.Bytes,
    *,
    classes: bool = False,
    per_line: bool = False,
    limit: int = DEFAULT_LIMIT,
) -> str:
    """Returns the HTML of a stream, as a `Page` writes it.

    >>> from escape_stream import html
    >>> html(b"<script>\\x1b]0;a title\\x07")
    '&lt;script&gt;'

    Raises MemoryError if a request for memory was refused.
    """
    with Page(classes=classes, per_line=per_line, limit=limit) as page:
        return (page.feed(stream) + page.finish()).decode()
