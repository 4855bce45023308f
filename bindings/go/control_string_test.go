// SPDX-License-Identifier: MIT

package escapestream

import (
	"os"
	"strings"
	"testing"
)

// pageRows returns the cells of each row of docs/FUNCTIONS.md whose sequence begins with this word,
// of the first its words after that.
func pageRows(t *testing.T, opener string) (found [][]string) {
	page, err := os.ReadFile("../../docs/FUNCTIONS.md")
	if err != nil {
		t.Skip("the page of the repository is not here")
	}
	for _, line := range strings.Split(string(page), "\n") {
		if rest := strings.TrimPrefix(line, "| `"+opener+" "); rest != line {
			cells := strings.Split(rest, " | ")
			for i := range cells {
				cells[i] = strings.ReplaceAll(cells[i], `\|`, "|")
			}
			cells[0] = strings.ReplaceAll(strings.ReplaceAll(cells[0], " ..", ""), "`", "")
			found = append(found, cells)
		}
	}
	return found
}

// checkString finds the string that begins this stream, and compares it with its row.
func checkString(t *testing.T, stream, data string, row []string) {
	t.Helper()
	p, _ := NewParser()
	p.Feed([]byte(stream))
	if !p.Next() {
		t.Fatalf("%q has no event", stream)
	}
	found, ok := p.Event().ControlString([]byte(data))
	phrase, _, _ := strings.Cut(row[2], "; alone:")
	if !ok || found.Name != row[1] || found.Phrase != phrase {
		t.Errorf("%q: found %+v of %q", stream, found, row[1:3])
	}
}

func TestStringsOfThePage(t *testing.T) {
	count := 0
	for opener, start := range map[string]string{"OSC": "\x1b]", "APC": "\x1b_"} {
		for _, row := range pageRows(t, opener) {
			text := start + strings.ReplaceAll(row[0], " ", "")
			checkString(t, text+"\x1b\\", "", row)
			checkString(t, text+";x\x1b\\", "", row)
			count++
		}
	}
	for _, row := range pageRows(t, "DCS") {
		header, data := "", ""
		for _, word := range strings.Fields(row[0]) {
			if len(word) > 1 && !isNumber([]byte(word)) {
				data += word
			} else {
				header += word
			}
		}
		checkString(t, "\x1bP"+header+data+"\x1b\\", data, row)
		count++
	}
	names := map[string]bool{}
	for _, it := range ControlStrings() {
		names[it.Name] = true
	}
	if count != len(names) || count != len(stringRows) {
		t.Errorf("%d rows of the page, %d names and %d rows", count, len(names), len(stringRows))
	}
}

func TestStringsWithoutAName(t *testing.T) {
	for _, e := range []Event{
		{Kind: KindOSC}, {Kind: KindOSC, Text: []byte("99999999999999999999;x")},
		{Kind: KindOSC, Text: []byte("12345")}, {Kind: KindAPC}, {Kind: KindText, Text: []byte("52")},
		{Kind: KindDCS, Byte: 'q', HasMore: true},
	} {
		if found, ok := e.ControlString(nil); ok {
			t.Errorf("%v %q is called %q", e.Kind, e.Text, found.Name)
		}
	}
}
