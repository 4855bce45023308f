// SPDX-License-Identifier: MIT

// Package escapestream filters, normalises and parses streams of terminal escape sequences of
// unknown origin, and writes them as HTML, over the proved library escape_stream by cgo.
//
// A stream is bytes as a program writes them to a terminal: UTF-8 text, control characters, and the
// control functions of ECMA-48 and xterm, such as colours, cursor movements and titles. Any bytes
// are a stream.
//
//	text, err := escapestream.Filter(escapestream.Color, stream)
//
// returns colours, bold and links of a stream, its characters, tabs and line ends, and nothing
// else. [NewReader] and [NewWriter] do so as a stream comes. [Sanitize] is the same for logs, line
// by line, with the options of the program escfilter and an account of every byte. [ToHTML] returns
// a stream as HTML in which nothing comes alive, [Normal] returns its normal form, [Parser] gives
// its events, [Function] names the function of a sequence and [ControlString] a string, and
// [ReadCommand] reads the text of an operating system command.
//
// The output of each call of the library is proved, for every stream. This package is not proved:
// it is tested.
//
// # Building
//
// The headers and the library are found by pkg-config, under the names escape_stream and
// escape_stream_parser, which the installation of escape_stream has. With the build tag
// escapestream_flags they are found by the environment alone, and the archive is linked:
//
//	CGO_CFLAGS=-I.../include CGO_LDFLAGS=-L.../lib go build -tags escapestream_flags
//
// # Goroutines
//
// A value of this package is used by one goroutine at a time. The calls keep nothing of a thread,
// so the goroutine may change its thread between two of them.
package escapestream
