// SPDX-License-Identifier: MIT

package escapestream

// #include "escape_stream.h"
import "C"

import "runtime"

// An Account has the fates of the bytes of a log: how many had each, in UTF-8 if its encoding is
// another.
type Account struct {
	// Passed are in the text as they came.
	Passed uint64
	// Respelled are in the text in another spelling.
	Respelled uint64
	// Shown are in the text as visible characters.
	Shown uint64
	// Replaced have U+FFFD in the text for them.
	Replaced uint64
	// LeftOut mean something that does not pass.
	LeftOut uint64
	// Swallowed mean nothing, as those of a string that nobody ended.
	Swallowed uint64
	// Overwritten have other text in their place.
	Overwritten uint64
	// Length is how many there are: the sum of these.
	Length uint64
}

// Sanitize returns the output of the program escfilter for a log, and the account of its bytes. If
// each line is a stream of its own, as by Text and Color, a string that nobody ends takes away the
// rest of its line, and no line after it.
func Sanitize(log []byte, policy Policy, options SanitizerOptions) ([]byte, Account, error) {
	s, err := newSanitizer(policy, options)
	if err != nil {
		return nil, Account{}, err
	}
	defer s.end()
	out := make([]byte, 0, len(log)+len(log)/8)
	gather := func(p []byte) error { out = append(out, p...); return nil }
	for len(log) > 0 {
		n := room
		if len(log) < n {
			n = len(log)
		}
		if err := s.feed(log[:n]); err != nil {
			return nil, Account{}, err
		}
		_ = s.output(gather)
		log = log[n:]
	}
	if err := s.finish(); err != nil {
		return nil, Account{}, err
	}
	_ = s.output(gather)
	return out, s.account(), nil
}

// A sanitizer of a log in chunks. The library took its block.
type sanitizer struct {
	raw  C.struct_escape_stream_sanitizer
	room []byte
	last Account // the account of one that has ended
}

func newSanitizer(policy Policy, options SanitizerOptions) (*sanitizer, error) {
	raw, err := options.raw(policy)
	if err != nil {
		return nil, err
	}
	s := &sanitizer{room: make([]byte, room)}
	if err := errorOf(C.escape_stream_sanitizer_begin(&s.raw, &raw)); err != nil {
		return nil, err
	}
	runtime.SetFinalizer(s, (*sanitizer).end)
	return s, nil
}

func (s *sanitizer) feed(p []byte) error {
	return errorOf(C.escape_stream_sanitizer_feed(&s.raw, first(p), C.size_t(len(p))))
}

func (s *sanitizer) finish() error {
	return errorOf(C.escape_stream_sanitizer_finish(&s.raw))
}

func (s *sanitizer) output(to func([]byte) error) error {
	for from := C.size_t(0); ; {
		count := C.escape_stream_sanitizer_output(&s.raw, from, first(s.room), C.size_t(len(s.room)))
		if count == 0 {
			return nil
		}
		if err := to(s.room[:count]); err != nil {
			return err
		}
		from += count
	}
}

// account returns the fates of the bytes of what has ended of the log.
func (s *sanitizer) account() Account {
	var raw C.struct_escape_stream_account
	if C.escape_stream_sanitizer_account(&s.raw, &raw) != C.ESCAPE_STREAM_DONE {
		return s.last
	}
	return Account{
		Passed:      uint64(raw.passed),
		Respelled:   uint64(raw.respelled),
		Shown:       uint64(raw.shown),
		Replaced:    uint64(raw.replaced),
		LeftOut:     uint64(raw.left_out),
		Swallowed:   uint64(raw.swallowed),
		Overwritten: uint64(raw.overwritten),
		Length:      uint64(raw.length),
	}
}

// end gives back what the sanitizer took, and keeps its account. It may be called twice.
func (s *sanitizer) end() {
	s.last = s.account()
	C.escape_stream_sanitizer_end(&s.raw)
	runtime.SetFinalizer(s, nil)
}
