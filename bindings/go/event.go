// SPDX-License-Identifier: MIT

package escapestream

// A Kind is the kind of an event.
type Kind uint32

const (
	// KindText is a run of characters, none of them a control: Text.
	KindText Kind = iota + 1
	_
	// KindControl is a control character of C0 or C1: Byte.
	KindControl
	// KindEscape is an escape sequence: its Marks, and its final Byte.
	KindEscape
	// KindCSI is a control sequence: its Entries, and its final Byte.
	KindCSI
	// KindOSC is an operating system command: Text, all that was between its opener and its end.
	KindOSC
	// KindDCS says that a device control string begins: its parameter bytes Text, its Marks, and its
	// final Byte.
	KindDCS
	// KindData is a run of its data: Text.
	KindData
	_
	// KindDCSEnd says that it ends.
	KindDCSEnd
	// KindAPC is an application program command: Text.
	KindAPC
	_
	// KindLimit says that a string ended that was longer than the limit.
	KindLimit
)

var kinds = [...]string{
	"", "Text", "", "Control", "Escape", "CSI", "OSC", "DCS", "Data", "", "DCSEnd", "APC", "", "Limit",
}

// String returns the name of the kind.
func (k Kind) String() string {
	if int(k) < len(kinds) {
		return kinds[k]
	}
	return ""
}

// An Entry of a control sequence is a number, or a byte that is none: a separator, a private prefix
// or an intermediate. A number is at most 1<<63 - 1.
type Entry struct {
	Number int64
	Byte   byte
	IsByte bool
}

// An Event of a stream. A field that its kind does not name has no meaning.
type Event struct {
	Kind Kind
	// Byte is a control, or the final byte of a sequence.
	Byte byte
	// Text is good until the next event.
	Text []byte
	// Marks are the first two intermediates, of a device control string a private prefix among them.
	Marks []byte
	// Entries are good until the next event.
	Entries []Entry
	// HasMore says that there are more intermediates, or more than 256 entries.
	HasMore bool
}

// Prefix returns the private prefix of a control sequence, one of < = > ?, or 0.
func (e *Event) Prefix() byte {
	for _, it := range e.Entries {
		if it.IsByte && it.Byte >= '<' {
			return it.Byte
		}
	}
	return 0
}

// Intermediates returns the intermediates of a sequence, each a space up to /.
func (e *Event) Intermediates() []byte {
	var found []byte
	for _, b := range e.Marks {
		if b < '0' {
			found = append(found, b)
		}
	}
	for _, it := range e.Entries {
		if it.IsByte && it.Byte < '0' {
			found = append(found, it.Byte)
		}
	}
	return found
}

// Number returns the parameter of a control sequence of this index, counted from 0, or other if
// it is left out; of one with colons the first number.
func (e *Event) Number(index int, other int64) int64 {
	isFirst := true
	for _, it := range e.Entries {
		switch {
		case !it.IsByte && index == 0 && isFirst:
			return it.Number
		case it.IsByte && it.Byte == ';':
			index--
			isFirst = true
		case it.IsByte && it.Byte == ':':
			isFirst = false
		}
	}
	return other
}

// Params returns the parameters of a control sequence, which ; separates: of each the numbers that
// : separates, -1 if one is left out. A sequence with nothing in their place has none.
func (e *Event) Params() [][]int64 {
	var params [][]int64
	var group []int64
	hasSome, last := false, int64(-1)
	for _, it := range e.Entries {
		switch {
		case !it.IsByte:
			hasSome, last = true, it.Number
		case it.Byte == ';' || it.Byte == ':':
			hasSome, group, last = true, append(group, last), -1
			if it.Byte == ';' {
				params, group = append(params, group), nil
			}
		}
	}
	if !hasSome {
		return nil
	}
	return append(params, append(group, last))
}
