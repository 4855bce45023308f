// SPDX-License-Identifier: MIT

package escapestream

// #include "escape_stream.h"
import "C"

import (
	"io"
	"runtime"
)

// HTMLOptions say how a stream is written as HTML. The zero value is one page of classes.
type HTMLOptions struct {
	// PerLine closes the tags that are open before each line feed, and opens them again after it.
	PerLine bool
	// Inline writes looks as styles, and not as the classes of `eschtml --style`.
	Inline bool
	// Limit is the number of bytes that are kept of a string, such as a link; DefaultLimit if it is 0.
	Limit int
}

// ToHTML returns a stream as HTML: its characters, tabs and lines, with colours and renditions
// as spans, and links to http, https and mailto. A browser reads these spans and links from it,
// inside the body of a page in UTF-8, and nothing else, whatever the stream is.
func ToHTML(stream []byte, options HTMLOptions) ([]byte, error) {
	h, err := newPage(options)
	if err != nil {
		return nil, err
	}
	defer h.end()
	out := make([]byte, 0, 2*len(stream))
	gather := func(p []byte) error { out = append(out, p...); return nil }
	for len(stream) > 0 {
		n := room
		if len(stream) < n {
			n = len(stream)
		}
		if err := h.feed(stream[:n]); err != nil {
			return nil, err
		}
		_ = h.output(gather)
		stream = stream[n:]
	}
	if err := errorOf(C.escape_stream_html_finish(&h.raw)); err != nil {
		return nil, err
	}
	_ = h.output(gather)
	return out, nil
}

// An HTMLWriter writes the stream that is written to it as HTML to another writer.
type HTMLWriter struct {
	to  io.Writer
	h   *page
	err error
}

// NewHTMLWriter returns a writer over w.
func NewHTMLWriter(w io.Writer, options HTMLOptions) (*HTMLWriter, error) {
	h, err := newPage(options)
	if err != nil {
		return nil, err
	}
	return &HTMLWriter{to: w, h: h}, nil
}

// Write takes all of p, and writes its HTML. After an error each call returns it.
func (w *HTMLWriter) Write(p []byte) (int, error) {
	if w.err != nil {
		return 0, w.err
	}
	if w.err = w.h.feed(p); w.err != nil {
		return 0, w.err
	}
	if w.err = w.h.output(w.pass); w.err != nil {
		return 0, w.err
	}
	return len(p), nil
}

// Close ends the stream: it closes the tags that are open. It does not close the writer below.
func (w *HTMLWriter) Close() error {
	if w.err == ErrClosed {
		return nil
	}
	err := w.err
	if err == nil {
		err = errorOf(C.escape_stream_html_finish(&w.h.raw))
	}
	if err == nil {
		err = w.h.output(w.pass)
	}
	w.h.end()
	w.err = ErrClosed
	return err
}

func (w *HTMLWriter) pass(p []byte) error {
	n, err := w.to.Write(p)
	if err == nil && n < len(p) {
		err = io.ErrShortWrite
	}
	return err
}

// A page of a stream in chunks. The library took its block.
type page struct {
	raw  C.struct_escape_stream_html
	room []byte
}

func newPage(options HTMLOptions) (*page, error) {
	if options.Limit == 0 {
		options.Limit = DefaultLimit
	}
	limit, err := limitOf(options.Limit)
	if err != nil {
		return nil, err
	}
	h := &page{room: make([]byte, room)}
	status := C.escape_stream_html_begin(
		&h.raw, C.bool(options.PerLine), C.bool(options.Inline), limit)
	if err := errorOf(status); err != nil {
		return nil, err
	}
	runtime.SetFinalizer(h, (*page).end)
	return h, nil
}

func (h *page) feed(p []byte) error {
	return errorOf(C.escape_stream_html_feed(&h.raw, first(p), C.size_t(len(p))))
}

func (h *page) output(to func([]byte) error) error {
	for from := C.size_t(0); ; {
		count := C.escape_stream_html_output(&h.raw, from, first(h.room), C.size_t(len(h.room)))
		if count == 0 {
			return nil
		}
		if err := to(h.room[:count]); err != nil {
			return err
		}
		from += count
	}
}

func (h *page) end() {
	C.escape_stream_html_end(&h.raw)
	runtime.SetFinalizer(h, nil)
}
