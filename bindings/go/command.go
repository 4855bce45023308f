// SPDX-License-Identifier: MIT

package escapestream

// #include "escape_stream.h"
import "C"

// A Field is a part of a command: its name, and its value. A flag is the number 0 or 1.
type Field struct {
	Name FieldID
	// Kind is the kind of its value.
	Kind ValueKind
	// Number is a number, or a size.
	Number int64
	// Text is a text: UTF-8 but for a FieldPart of CommandUnspecified and a FieldContent. It may hold
	// controls, so print none as it is.
	Text []byte
}

// A ValueKind is the kind of a field's value.
type ValueKind uint32

// The kinds of values.
const (
	ValueNumber ValueKind = iota
	ValueText
	ValueSize
)

// A Command is an operating system command: its kind, and its fields in order. escape_stream.h
// lists the fields of each kind.
type Command struct {
	Kind   CommandKind
	Fields []Field
}

// Field returns the first field of this name, or nil.
func (c Command) Field(name FieldID) *Field {
	for i := range c.Fields {
		if c.Fields[i].Name == name {
			return &c.Fields[i]
		}
	}
	return nil
}

// Text returns the text of the first field of this name, or nothing.
func (c Command) Text(name FieldID) string {
	if f := c.Field(name); f != nil {
		return string(f.Text)
	}
	return ""
}

// ReadCommand returns the command of the text of an operating system command, that of an event
// KindOSC. Any bytes are such a text.
func ReadCommand(text []byte) (Command, error) {
	rows, out := make([]C.struct_escape_stream_field, 8), make([]byte, len(text)+8)
	for {
		var raw C.struct_escape_stream_osc
		status := C.escape_stream_read_osc(first(text), C.size_t(len(text)), &raw, &rows[0],
			C.size_t(len(rows)), first(out), C.size_t(len(out)))
		if err := errorOf(status); err != nil {
			return Command{}, err
		}
		fields, length := uint64(raw.field_count), uint64(raw.text_length)
		if fields <= uint64(len(rows)) && length <= uint64(len(out)) {
			return commandOf(CommandKind(raw.kind), rows[:fields], out[:length:length]), nil
		}
		rows, out = make([]C.struct_escape_stream_field, fields+8), make([]byte, length+8)
	}
}

func commandOf(kind CommandKind, rows []C.struct_escape_stream_field, texts []byte) Command {
	found := Command{Kind: kind, Fields: make([]Field, len(rows))}
	for i, row := range rows {
		f := Field{Name: FieldID(row.name), Kind: ValueKind(row.kind)}
		switch f.Kind {
		case ValueNumber:
			f.Number = int64(row.number)
		case ValueSize:
			f.Number = int64(row.length)
		default:
			end := row.offset + row.length
			f.Text = texts[row.offset:end:end]
		}
		found.Fields[i] = f
	}
	return found
}

// Bytes returns the command, from ESC ] to ESC \: ReadCommand reads the text between these as this
// command. ErrCommand says that no command has this kind and these fields, and ErrNotWritable that
// its text would not read back as it, as that of a title with a control.
func (c Command) Bytes() ([]byte, error) {
	rows, texts := make([]C.struct_escape_stream_field, len(c.Fields)+1), []byte(nil)
	for i, f := range c.Fields {
		row := &rows[i]
		row.name, row.kind = C.uint32_t(f.Name), C.uint32_t(f.Kind)
		switch f.Kind {
		case ValueNumber:
			row.number = C.int64_t(f.Number)
		case ValueSize:
			row.length = C.size_t(f.Number)
		default:
			row.offset, row.length = C.size_t(len(texts)), C.size_t(len(f.Text))
			texts = append(texts, f.Text...)
		}
	}
	return whole(len(texts)+64, func(out []byte, needed *C.size_t) C.uint32_t {
		return C.escape_stream_write_osc(C.uint32_t(c.Kind), &rows[0], C.size_t(len(c.Fields)),
			first(texts), C.size_t(len(texts)), first(out), C.size_t(len(out)), needed)
	})
}
