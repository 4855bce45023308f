// SPDX-License-Identifier: MIT

package escapestream

// #include "escape_stream.h"
import "C"

// A Function is the function of a sequence: a row of docs/FUNCTIONS.md.
type Function struct {
	// Name is as the standards abbreviate it, such as CUP.
	Name string
	// Phrase is its effect in words, such as "cursor position".
	Phrase string
	// ChangesScreen says that it changes the screen alone, with whatever parameters.
	ChangesScreen bool
	// IsAnswered says that a terminal answers it, with some of its parameters or with all.
	IsAnswered bool
}

// Function returns the function of a control sequence, an escape sequence or a control, and whether
// it has a name.
func (e *Event) Function() (Function, bool) {
	var row C.struct_escape_stream_function_info
	found := false
	switch e.Kind {
	case KindCSI:
		marks := e.Intermediates()
		if !e.HasMore && len(marks) < 2 {
			found = bool(C.escape_stream_function(C.uint8_t(e.Prefix()), only(marks), C.uint8_t(e.Byte),
				C.size_t(e.separators()), &row))
		}
	case KindEscape:
		if !e.HasMore && len(e.Marks) < 2 {
			found = bool(C.escape_stream_escape_function(only(e.Marks), C.uint8_t(e.Byte), &row))
		}
	case KindControl:
		if e.Byte < 0x80 {
			found = bool(C.escape_stream_control_function(C.uint8_t(e.Byte), &row))
		} else if e.Byte < 0xa0 {
			// ECMA-48, 5.3: a C1 control has the function of ESC and the byte 40 (hexadecimal) less.
			found = bool(C.escape_stream_escape_function(0, C.uint8_t(e.Byte-0x40), &row))
		}
	}
	if !found {
		return Function{}, false
	}
	return Function{C.GoString(&row.name[0]), C.GoString(&row.phrase[0]), bool(row.changes_screen),
		bool(row.is_answered)}, true
}

// separators returns how many parameters there are, and separators between them.
func (e *Event) separators() int {
	count := 0
	for _, it := range e.Entries {
		if !it.IsByte || it.Byte == ';' || it.Byte == ':' {
			count++
		}
	}
	return count
}

// only returns the one byte, or 0.
func only(marks []byte) C.uint8_t {
	if len(marks) == 0 {
		return 0
	}
	return C.uint8_t(marks[0])
}
