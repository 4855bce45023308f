// SPDX-License-Identifier: MIT

package escapestream

// #include "escape_stream_parser.h"
import "C"

import (
	"unicode/utf8"
	"unsafe"
)

// The library's entry is read as an Entry: whether both have the same places.
func entriesAreAlike() bool {
	var one Entry
	var other C.struct_escape_stream_entry
	return unsafe.Sizeof(one) == unsafe.Sizeof(other) &&
		unsafe.Offsetof(one.Number) == unsafe.Offsetof(other.number) &&
		unsafe.Offsetof(one.Byte) == unsafe.Offsetof(other.byte) &&
		unsafe.Offsetof(one.IsByte) == unsafe.Offsetof(other.is_byte)
}

// A Parser gives the events of a stream that comes in chunks. It takes no memory but when it is
// made: two bytes for each of its limit.
//
//	p.Feed(chunk)
//	for p.Next() {
//		event := p.Event()
//	}
type Parser struct {
	raw    C.struct_escape_stream_parser
	event  C.struct_escape_stream_event
	buffer []byte
	chunk  []byte
	noted  Event
	short  [utf8.UTFMax]byte
	marks  [2]byte
}

// NewParser begins a stream.
func NewParser(options ...Option) (*Parser, error) {
	limit, err := limitOf(given(options).limit)
	if err != nil {
		return nil, err
	}
	p := &Parser{buffer: make([]byte, 2*int(limit))}
	C.escape_stream_begin(&p.raw)
	return p, nil
}

// Feed gives the parser the next chunk of the stream. Events of the chunk before that were not
// taken are taken first, and are lost. The chunk is not to be written while its events are taken.
//
// However a stream is cut, its events are the same, but that a run of text or of data may come in
// several.
func (p *Parser) Feed(chunk []byte) {
	for len(p.chunk) > 0 && p.Next() {
	}
	p.chunk = chunk
}

// Next notes the next event of the chunk, and says whether there is one.
func (p *Parser) Next() bool {
	bytes := p.chunk
	taken := C.escape_stream_next(&p.raw, first(p.buffer), C.size_t(len(p.buffer)), first(bytes),
		C.size_t(len(bytes)), &p.event)
	p.chunk = bytes[taken:]
	if p.event.kind == C.ESCAPE_STREAM_NONE {
		return false
	}
	p.note(bytes)
	return true
}

// Event returns the event that Next noted. It is good until the next call.
func (p *Parser) Event() *Event { return &p.noted }

// IsGround says whether no character, sequence or string of the stream so far is unfinished.
func (p *Parser) IsGround() bool { return bool(C.escape_stream_is_ground(&p.raw)) }

// note notes the event of a call that was given these bytes.
func (p *Parser) note(bytes []byte) {
	c, e := &p.event, &p.noted
	*e = Event{Kind: Kind(c.kind), Byte: byte(c.byte), HasMore: bool(c.has_more)}
	switch c.kind {
	case C.ESCAPE_STREAM_TEXT, C.ESCAPE_STREAM_DATA:
		e.Text = bytes[c.start : c.start+c.length]
	case C.ESCAPE_STREAM_CHARACTER:
		n := utf8.EncodeRune(p.short[:], rune(c.byte))
		e.Kind, e.Text = KindText, p.short[:n]
	case C.ESCAPE_STREAM_DATA_BYTE:
		p.short[0] = byte(c.byte)
		e.Kind, e.Text = KindData, p.short[:1]
	case C.ESCAPE_STREAM_OSC, C.ESCAPE_STREAM_APC:
		e.Text = p.string()
	case C.ESCAPE_STREAM_DCS:
		e.Text, e.Marks = p.string(), p.marked()
	case C.ESCAPE_STREAM_ESCAPE:
		e.Marks = p.marked()
	case C.ESCAPE_STREAM_CSI:
		if c.count > 0 {
			e.Entries = unsafe.Slice((*Entry)(unsafe.Pointer(&c.entries[0])), int(c.count))
		}
	case C.ESCAPE_STREAM_FAILED:
		panic("escapestream: something else wrote the memory of the parser")
	}
}

// string returns a text in the upper half of the buffer.
func (p *Parser) string() []byte {
	half := len(p.buffer) / 2
	return p.buffer[half : half+int(p.event.length)]
}

func (p *Parser) marked() []byte {
	for i := range p.marks {
		p.marks[i] = byte(p.event.intermediates[i])
	}
	return p.marks[:p.event.kept]
}
