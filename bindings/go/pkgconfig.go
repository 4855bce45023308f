// SPDX-License-Identifier: MIT

//go:build !escapestream_flags

package escapestream

// #cgo pkg-config: escape_stream escape_stream_parser
import "C"
