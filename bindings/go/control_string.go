// SPDX-License-Identifier: MIT

package escapestream

import (
	"bytes"
	"strconv"
)

// A ControlString is a control string that has a name: a row of the tables of strings in
// docs/FUNCTIONS.md.
type ControlString struct {
	// Name is no other row's, such as OSC 52, OSC 133;A or DECRQSS.
	Name string
	// Phrase is its effect in words, such as "clipboard".
	Phrase string
}

type stringKind uint8

// The kind of a string.
const (
	stringOsc stringKind = iota
	stringLetter
	stringDcs
	stringApc
)

type beginning uint8

// The text of a string after its key.
const (
	anything beginning = iota
	beginsPart
	beginsBytes
	beginsParameter
	beginsKey
)

type stringRow struct {
	kind         stringKind
	key          uint64
	begin        beginning
	start        string
	name, phrase string
}

// ControlStrings returns each string that has a name, in the order of docs/FUNCTIONS.md.
func ControlStrings() []ControlString {
	all := make([]ControlString, len(stringRows))
	for i := range stringRows {
		all[i] = ControlString{stringRows[i].name, stringRows[i].phrase}
	}
	return all
}

// ControlString returns the row of an operating system command, a device control string or an
// application program command, and whether it has a name. The data of a device control string come
// in later events; a few are told apart by their first 9 bytes, data, and have no name without
// these.
func (e *Event) ControlString(data []byte) (ControlString, bool) {
	switch {
	case e.Kind == KindOSC && len(e.Text) > 0:
		first, rest, _ := bytes.Cut(e.Text, []byte{';'})
		if !isNumber(first) {
			return foundString(stringLetter, uint64(e.Text[0]), nil, e.Text[1:])
		}
		if number, err := strconv.ParseUint(string(first), 10, 64); err == nil {
			return foundString(stringOsc, number, nil, rest)
		}
	case e.Kind == KindAPC && len(e.Text) > 0:
		return foundString(stringApc, uint64(e.Text[0]), nil, e.Text[1:])
	case e.Kind == KindDCS && !e.HasMore:
		key := uint64(1)
		for _, mark := range e.Marks {
			key = key<<8 | uint64(mark)
		}
		return foundString(stringDcs, key<<8|uint64(e.Byte), e.Text, data)
	}
	return ControlString{}, false
}

func isNumber(text []byte) bool {
	for _, it := range text {
		if it < '0' || it > '9' {
			return false
		}
	}
	return len(text) > 0
}

// foundString returns the first row that a string of this kind and this key has, with these
// parameter bytes and this text after its key.
func foundString(kind stringKind, key uint64, params, text []byte) (ControlString, bool) {
	for i := range stringRows {
		row := &stringRows[i]
		if row.kind == kind && row.key == key && row.fits(params, text) {
			return ControlString{row.name, row.phrase}, true
		}
	}
	return ControlString{}, false
}

func (row *stringRow) fits(params, text []byte) bool {
	start := []byte(row.start)
	switch row.begin {
	case beginsPart:
		rest := bytes.TrimPrefix(text, start)
		isThere := bytes.HasPrefix(text, start)
		return isThere && (len(rest) == 0 || rest[0] == ';' || rest[0] == '=')
	case beginsBytes:
		return bytes.HasPrefix(text, start)
	case beginsParameter:
		// (zeros before a number do not matter)
		only, err := strconv.ParseUint(string(params), 10, 63)
		return err == nil && strconv.FormatUint(only, 10) == row.start
	case beginsKey:
		keys, _, _ := bytes.Cut(text, []byte{';'})
		for _, key := range bytes.Split(keys, []byte{','}) {
			if bytes.Equal(key, start) {
				return true
			}
		}
		return false
	}
	return true
}
