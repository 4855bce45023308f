// SPDX-License-Identifier: MIT

package escapestream

// #include "escape_stream.h"
import "C"

import (
	"errors"
	"fmt"
	"unsafe"
)

// DefaultLimit is the number of bytes that are kept of a string, such as a title, if no limit is
// given.
const DefaultLimit = 1 << 20

// The errors of this package.
var (
	// ErrMemory says that a request for memory was refused.
	ErrMemory = errors.New("escapestream: a request for memory was refused")
	// ErrPolicy says that there is no such policy.
	ErrPolicy = errors.New("escapestream: no such policy")
	// ErrClosed says that a reader or a writer was closed, or ended by ErrMemory.
	ErrClosed = errors.New("escapestream: closed")
	// ErrCommand says that no command has these fields.
	ErrCommand = errors.New("escapestream: no command has this kind and these fields")
	// ErrNotWritable says that a command would not read back as it is, as a title with a control.
	ErrNotWritable = errors.New("escapestream: the text of the command would not read back as it")
	// ErrOption says that an option of a sanitizer is none, as a group that is not there.
	ErrOption = errors.New("escapestream: no such option")
	// ErrLimit says that a limit is less than 0, or too large.
	ErrLimit = errors.New("escapestream: no such limit")
)

func errorOf(status C.uint32_t) error {
	switch status {
	case C.ESCAPE_STREAM_DONE:
		return nil
	case C.ESCAPE_STREAM_NO_MEMORY:
		return ErrMemory
	case C.ESCAPE_STREAM_UNKNOWN_POLICY:
		return ErrPolicy
	case C.ESCAPE_STREAM_NOT_BEGUN:
		return ErrClosed
	case C.ESCAPE_STREAM_NO_COMMAND:
		return ErrCommand
	case C.ESCAPE_STREAM_NOT_WRITABLE:
		return ErrNotWritable
	}
	if status >= C.ESCAPE_STREAM_UNKNOWN_SIZE && status <= C.ESCAPE_STREAM_TOO_MANY_COLUMNS {
		return ErrOption
	}
	return fmt.Errorf("escapestream: status %d", status)
}

var none [8]byte

// first returns the place of the first byte. No place that the library is given is nil, also if
// its length is 0.
func first(b []byte) *C.uint8_t {
	if len(b) == 0 {
		return (*C.uint8_t)(unsafe.Pointer(&none[0]))
	}
	return (*C.uint8_t)(unsafe.Pointer(&b[0]))
}

func limitOf(limit int) (C.size_t, error) {
	if limit < 0 || uint64(limit) >= 1<<40 {
		return 0, ErrLimit
	}
	return C.size_t(limit), nil
}
