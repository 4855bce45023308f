// SPDX-License-Identifier: MIT

package escapestream

import (
	"os"
	"path/filepath"
	"regexp"
	"strconv"
	"strings"
	"testing"
)

// A row of the tables of streams that the proved programs are checked against.
// docs/DEVELOPING.md has their form.
type row struct {
	name  string
	words map[string][]byte
	lines [][2]string
}

var head = regexp.MustCompile(`^(\S+?)(?:\*(\d+))?(?: +(.*))?$`)
var escaped = regexp.MustCompile(`\\(?:x([0-9a-f]{2})|\\)`)

// unescaped returns the bytes that a text writes: \xNN is a byte, \\ is \, any other is itself.
func unescaped(text string) []byte {
	return escaped.ReplaceAllFunc([]byte(text), func(found []byte) []byte {
		if len(found) == 2 {
			return []byte{'\\'}
		}
		b, _ := strconv.ParseUint(string(found[2:]), 16, 8)
		return []byte{byte(b)}
	})
}

// rows returns each row of each table, or skips the test if this package lies alone.
func rows(t testing.TB) []row {
	tables, _ := filepath.Glob("../../crates/stream_tables/data/*.txt")
	if len(tables) == 0 {
		t.Skip("the tables of the repository are not here")
	}
	var found []row
	for _, table := range tables {
		text, err := os.ReadFile(table)
		if err != nil {
			t.Fatal(err)
		}
		for _, block := range strings.Split(string(text), "\n\n") {
			found = append(found, rowOf(block))
		}
	}
	return found
}

func rowOf(block string) row {
	r := row{words: map[string][]byte{}}
	for _, line := range strings.Split(block, "\n") {
		parts := head.FindStringSubmatch(line)
		if parts == nil || strings.HasPrefix(line, "#") {
			continue
		}
		times := 1
		if parts[2] != "" {
			times, _ = strconv.Atoi(parts[2])
		}
		text := strings.Repeat(parts[3], times)
		// A word of no text is there all the same.
		r.words[parts[1]] = append(append([]byte{}, r.words[parts[1]]...), unescaped(text)...)
		r.lines = append(r.lines, [2]string{parts[1], text})
		if parts[1] == "row" {
			r.name = text
		}
	}
	return r
}

// chunks calls f with each chunk of a stream, so many bytes each.
func chunks(stream []byte, size int, f func(chunk []byte)) {
	for len(stream) > size {
		f(stream[:size])
		stream = stream[size:]
	}
	f(stream)
}

// sizes returns the lengths of chunks that are tried.
func sizes(stream []byte) []int {
	if len(stream) > 2000 {
		return []int{4096}
	}
	return []int{1, 2, 3, 5, 7, 11, 40}
}
