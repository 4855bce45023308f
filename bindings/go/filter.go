// SPDX-License-Identifier: MIT

package escapestream

// #include "escape_stream.h"
import "C"

// A Policy says which actions pass a filter. Each admits all that the one before it does.
type Policy uint32

const (
	// Text admits characters but DEL, tabs, line feeds and carriage returns.
	Text Policy = iota
	// Color admits renditions, as colours and bold, and hyperlinks too.
	Color
	// Screen also admits a list of functions that are known to change the screen alone.
	Screen
	// All admits all that can be written by itself: it protects from broken input alone.
	All
)

// Filter returns the actions of a stream that a policy admits, and nothing else. It keeps at most
// DefaultLimit bytes of a string of the stream; nothing is written of a longer one.
//
// The text reads back as the admitted actions, whatever bytes follow it: no text of the stream
// becomes a sequence, however broken the stream is.
func Filter(policy Policy, stream []byte) ([]byte, error) {
	return whole(len(stream), func(out []byte, needed *C.size_t) C.uint32_t {
		return C.escape_stream_filter(C.uint32_t(policy), DefaultLimit,
			first(stream), C.size_t(len(stream)), first(out), C.size_t(len(out)), needed)
	})
}

// Strip returns the characters, tabs and line ends of a string.
func Strip(s string) (string, error) {
	text, err := Filter(Text, []byte(s))
	return string(text), err
}

// Normal returns the normal form of a stream: each of its actions, in order, in its one spelling.
// It is no protection: for a stream of unknown origin there is Filter.
func Normal(stream []byte) ([]byte, error) {
	return whole(len(stream), func(out []byte, needed *C.size_t) C.uint32_t {
		return C.escape_stream_normal(first(stream), C.size_t(len(stream)), first(out),
			C.size_t(len(out)), needed)
	})
}

// IsNormal says whether a stream is its own normal form.
func IsNormal(stream []byte) (bool, error) {
	var answer C.bool
	err := errorOf(C.escape_stream_is_normal(first(stream), C.size_t(len(stream)), &answer))
	return bool(answer), err
}

// whole returns all that a call writes, which needs about so many bytes: else it is called again.
func whole(about int, call func(out []byte, needed *C.size_t) C.uint32_t) ([]byte, error) {
	out := make([]byte, about)
	for {
		var needed C.size_t
		if err := errorOf(call(out, &needed)); err != nil {
			return nil, err
		}
		if uint64(needed) <= uint64(len(out)) {
			return out[:needed:needed], nil
		}
		out = make([]byte, needed)
	}
}
