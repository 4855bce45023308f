// SPDX-License-Identifier: MIT

package escapestream

// #include "escape_stream.h"
import "C"

import "runtime"

// How many bytes of a text are copied at once.
const room = 1 << 16

// A receiver of a stream in chunks, with the text of each: a filter or a sanitizer.
type inChunks interface {
	feed(p []byte) error
	finish() error
	output(to func([]byte) error) error
	end()
}

// A filter of a stream in chunks. The library took its block.
type filter struct {
	raw  C.struct_escape_stream_filter_state
	room []byte
}

func newFilter(policy Policy, options []Option) (*filter, error) {
	limit, err := limitOf(given(options).limit)
	if err != nil {
		return nil, err
	}
	f := &filter{room: make([]byte, room)}
	if err := errorOf(C.escape_stream_filter_begin(&f.raw, C.uint32_t(policy), limit)); err != nil {
		return nil, err
	}
	runtime.SetFinalizer(f, (*filter).end)
	return f, nil
}

// feed takes a chunk of the stream.
func (f *filter) feed(p []byte) error {
	return errorOf(C.escape_stream_filter_feed(&f.raw, first(p), C.size_t(len(p))))
}

// finish ends the stream.
func (f *filter) finish() error {
	return errorOf(C.escape_stream_filter_finish(&f.raw))
}

// output hands on what the last call added, a room at a time.
func (f *filter) output(to func([]byte) error) error {
	for from := C.size_t(0); ; {
		count := C.escape_stream_filter_output(&f.raw, from, first(f.room), C.size_t(len(f.room)))
		if count == 0 {
			return nil
		}
		if err := to(f.room[:count]); err != nil {
			return err
		}
		from += count
	}
}

// end gives back what the filter took. It may be called twice.
func (f *filter) end() {
	C.escape_stream_filter_end(&f.raw)
	runtime.SetFinalizer(f, nil)
}

// An Option changes how a stream is read.
type Option func(*settings)

type settings struct{ limit int }

// WithLimit sets how many bytes are kept of a string, such as a title; one with more is passed
// over.
func WithLimit(bytes int) Option {
	return func(s *settings) { s.limit = bytes }
}

func given(options []Option) settings {
	s := settings{DefaultLimit}
	for _, set := range options {
		set(&s)
	}
	return s
}
