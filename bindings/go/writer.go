// SPDX-License-Identifier: MIT

package escapestream

import "io"

// A Writer passes on to another writer the actions that a policy admits of the stream that is
// written to it.
type Writer struct {
	to  io.Writer
	f   inChunks
	err error
}

// NewWriter returns a writer over w.
func NewWriter(w io.Writer, policy Policy, options ...Option) (*Writer, error) {
	f, err := newFilter(policy, options)
	if err != nil {
		return nil, err
	}
	return &Writer{to: w, f: f}, nil
}

// Write takes all of p, and writes its admitted actions. A sequence that is unfinished at the end
// of p waits for the next bytes. After an error each call returns it.
func (w *Writer) Write(p []byte) (int, error) {
	if w.err != nil {
		return 0, w.err
	}
	if w.err = w.f.feed(p); w.err != nil {
		return 0, w.err
	}
	if w.err = w.f.output(w.pass); w.err != nil {
		return 0, w.err
	}
	return len(p), nil
}

// Close ends the stream: it writes the text that takes back the changes that the stream left at a
// terminal, as a colour. It does not close the writer below.
func (w *Writer) Close() error {
	if w.err == ErrClosed {
		return nil
	}
	err := w.err
	if err == nil {
		err = w.f.finish()
	}
	if err == nil {
		err = w.f.output(w.pass)
	}
	w.f.end()
	w.err = ErrClosed
	return err
}

func (w *Writer) pass(p []byte) error {
	n, err := w.to.Write(p)
	if err == nil && n < len(p) {
		err = io.ErrShortWrite
	}
	return err
}
