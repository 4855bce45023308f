// SPDX-License-Identifier: MIT

package escapestream

import (
	"bytes"
	"os"
	"reflect"
	"regexp"
	"strings"
	"testing"
)

func TestReadCommand(t *testing.T) {
	c, err := ReadCommand([]byte("8;id=1;http://e.com/"))
	if err != nil || c.Kind != CommandSetHyperlink || c.Text(FieldURI) != "http://e.com/" {
		t.Error(c, err)
	}
	if c.Text(FieldKey) != "id" || c.Text(FieldValue) != "1" || c.Text(FieldName) != "" {
		t.Error(c)
	}
	c, err = ReadCommand([]byte("133;D;1"))
	if err != nil || c.Kind != CommandPromptCommandStatus || c.Field(FieldStatus).Number != 1 {
		t.Error(c, err)
	}
	if c, err = ReadCommand(nil); err != nil || c.Kind != CommandUnspecified || len(c.Fields) != 0 {
		t.Error(c, err)
	}
	long := []byte("777;" + strings.Repeat("a;", 1000))
	if c, err = ReadCommand(long); err != nil || len(c.Fields) < 1000 {
		t.Error(len(c.Fields), err)
	}
}

func TestWriteCommand(t *testing.T) {
	title := func(text string) Command {
		field := Field{Name: FieldText, Kind: ValueText, Text: []byte(text)}
		return Command{CommandSetWindowTitle, []Field{field}}
	}
	got, err := title("hello").Bytes()
	if err != nil || string(got) != "\x1b]2;hello\x1b\\" {
		t.Errorf("%q, %v", got, err)
	}
	long := strings.Repeat("x", 10000)
	if got, err = title(long).Bytes(); err != nil || string(got) != "\x1b]2;"+long+"\x1b\\" {
		t.Error(len(got), err)
	}
	if _, err := title("\x1b[2J").Bytes(); err != ErrNotWritable {
		t.Error(err)
	}
	if _, err := (Command{Kind: CommandSetWindowTitle}).Bytes(); err != ErrCommand {
		t.Error(err)
	}
}

func TestCommandsOfTheTablesAreReadBack(t *testing.T) {
	count := 0
	for _, r := range rows(t) {
		stream := r.words["stream"]
		if len(stream) > 10000 {
			continue
		}
		p, _ := NewParser(WithLimit(len(stream)))
		p.Feed(stream)
		for p.Next() {
			if p.Event().Kind != KindOSC {
				continue
			}
			c, err := ReadCommand(p.Event().Text)
			if err != nil {
				t.Fatal(err)
			}
			text, err := c.Bytes()
			if err != nil {
				continue
			}
			again, err := ReadCommand(bytes.TrimSuffix(text[2:], []byte("\x1b\\")))
			if err != nil || !reflect.DeepEqual(again, c) {
				t.Errorf("%s: %v, not %v", r.name, again, c)
			}
			count++
		}
	}
	if count < 100 {
		t.Error(count, "commands")
	}
}

// The kinds and the names of fields are those of the header.
func TestNamesAreThoseOfTheHeader(t *testing.T) {
	header, err := os.ReadFile("../../crates/escape_c/include/escape_stream.h")
	if err != nil {
		t.Skip("the header is not here")
	}
	plain := func(name string) string { return strings.ToLower(strings.ReplaceAll(name, "_", "")) }
	line := regexp.MustCompile(`(?m)^#define ESCAPE_STREAM_(OSC|FIELD)_(\w+) +(\d+)\b`)
	count := 0
	for _, it := range line.FindAllStringSubmatch(string(header), -1) {
		names := commandNames[:]
		if it[1] == "FIELD" {
			names = fieldNames[:]
		}
		number := 0
		for _, digit := range it[3] {
			number = 10*number + int(digit-'0')
		}
		if number >= len(names) {
			continue
		}
		if plain(names[number]) != plain(it[2]) {
			t.Errorf("%d is %s, and not %s", number, it[2], names[number])
		}
		count++
	}
	if count != len(commandNames)+len(fieldNames) {
		t.Error(count)
	}
}
