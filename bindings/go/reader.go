// SPDX-License-Identifier: MIT

package escapestream

import "io"

// A Reader reads the actions that a policy admits of the stream of another reader.
type Reader struct {
	from  io.Reader
	f     inChunks
	chunk []byte
	text  []byte // what the last chunks added
	due   []byte // the end of it, which is not read yet
	err   error
}

// NewReader returns a reader over r. At its end it gives the text that takes back the changes that
// the stream left at a terminal, as a colour.
func NewReader(r io.Reader, policy Policy, options ...Option) (*Reader, error) {
	f, err := newFilter(policy, options)
	if err != nil {
		return nil, err
	}
	return &Reader{from: r, f: f, chunk: make([]byte, room)}, nil
}

// Read reads admitted text, as soon as there is some.
func (r *Reader) Read(p []byte) (int, error) {
	if len(p) == 0 {
		return 0, nil
	}
	for len(r.due) == 0 {
		if r.err != nil {
			return 0, r.err
		}
		r.fill()
	}
	n := copy(p, r.due)
	r.due = r.due[n:]
	return n, nil
}

// Close gives back the reader's memory, also before the end of the stream. It does not close the
// reader below.
func (r *Reader) Close() error {
	r.f.end()
	r.due, r.err = nil, ErrClosed
	return nil
}

// fill reads a chunk. The text that it adds is due before its error.
func (r *Reader) fill() {
	n, err := r.from.Read(r.chunk)
	r.text = r.text[:0]
	if n > 0 {
		if refused := r.f.feed(r.chunk[:n]); refused != nil {
			err = refused
		} else {
			_ = r.f.output(r.keep)
		}
	}
	if err == io.EOF {
		if refused := r.f.finish(); refused != nil {
			err = refused
		} else {
			_ = r.f.output(r.keep)
		}
	}
	if err != nil {
		r.f.end()
	}
	r.due, r.err = r.text, err
}

func (r *Reader) keep(p []byte) error {
	r.text = append(r.text, p...)
	return nil
}
