// SPDX-License-Identifier: MIT

package escapestream

import "io"

// A SanitizerReader reads the log of another reader, sanitized.
type SanitizerReader struct {
	r Reader
	s *sanitizer
}

// NewSanitizerReader returns a reader over r: it reads what [Sanitize] returns.
func NewSanitizerReader(
	r io.Reader, policy Policy, options SanitizerOptions,
) (*SanitizerReader, error) {
	s, err := newSanitizer(policy, options)
	if err != nil {
		return nil, err
	}
	return &SanitizerReader{Reader{from: r, f: s, chunk: make([]byte, room)}, s}, nil
}

// Read reads sanitized text, as soon as there is some.
func (r *SanitizerReader) Read(p []byte) (int, error) { return r.r.Read(p) }

// Close gives back the reader's memory, also before the end of the log. It does not close the
// reader below.
func (r *SanitizerReader) Close() error { return r.r.Close() }

// Account returns the fates of the bytes of the lines that have ended, or of the parts of a stream
// that is one; and of all, after io.EOF. The sums then add up to the length.
func (r *SanitizerReader) Account() Account { return r.s.account() }

// A SanitizerWriter writes the log that is written to it, sanitized, to another writer.
type SanitizerWriter struct {
	w Writer
	s *sanitizer
}

// NewSanitizerWriter returns a writer over w: it writes what [Sanitize] returns.
func NewSanitizerWriter(
	w io.Writer, policy Policy, options SanitizerOptions,
) (*SanitizerWriter, error) {
	s, err := newSanitizer(policy, options)
	if err != nil {
		return nil, err
	}
	return &SanitizerWriter{Writer{to: w, f: s}, s}, nil
}

// Write takes all of p, and writes its text. A sequence that is unfinished at the end of p waits
// for the next bytes. After an error each call returns it.
func (w *SanitizerWriter) Write(p []byte) (int, error) { return w.w.Write(p) }

// Close ends the log, and writes the text that its end adds. It does not close the writer below.
func (w *SanitizerWriter) Close() error { return w.w.Close() }

// Account returns the fates of the bytes of the lines that have ended, or of the parts of a stream
// that is one; and of all, after Close. The sums then add up to the length.
func (w *SanitizerWriter) Account() Account { return w.s.account() }
