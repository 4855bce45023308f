// SPDX-License-Identifier: MIT

//go:build escapestream_flags

package escapestream

// #cgo LDFLAGS: -l:libescape_stream.a
import "C"
