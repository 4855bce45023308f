// SPDX-License-Identifier: MIT

package escapestream

import (
	"bytes"
	"io"
	"os"
	"os/exec"
	"strings"
	"testing"
	"testing/iotest"
	"unicode/utf8"
)

const hostile = "a\x1b]0;t\x07 \x1b[1;31mred\x1b[2J\r\nb\rc\u202ed\xff\n\x1b]0;cut\nlast\x1b[7m"

// sanitized returns what a writer passes on of a log in chunks, and the account.
func sanitized(
	t testing.TB, log []byte, size int, policy Policy, options SanitizerOptions,
) (string, Account) {
	var out bytes.Buffer
	w, err := NewSanitizerWriter(&out, policy, options)
	if err != nil {
		t.Fatal(err)
	}
	chunks(log, size, func(chunk []byte) {
		if n, err := w.Write(chunk); err != nil || n != len(chunk) {
			t.Fatal(n, err)
		}
	})
	if err := w.Close(); err != nil {
		t.Fatal(err)
	}
	return out.String(), w.Account()
}

func (a Account) sum() uint64 {
	return a.Passed + a.Respelled + a.Shown + a.Replaced + a.LeftOut + a.Swallowed + a.Overwritten
}

func TestAStringThatNobodyEndsTakesOneLine(t *testing.T) {
	log := []byte("one\n\x1b]two\nthree\nfour\n")
	for _, policy := range []Policy{Text, Color} {
		got, _ := sanitized(t, log, 3, policy, SanitizerOptions{})
		whole, _ := sanitized(t, log, 3, policy, SanitizerOptions{Framing: FramingWhole})
		if got != "one\n\nthree\nfour\n" || whole != "one\n" {
			t.Errorf("%q, %q", got, whole)
		}
	}
}

func TestSanitizedInChunks(t *testing.T) {
	log := []byte(hostile)
	for policy := Text; policy <= All; policy++ {
		for _, options := range []SanitizerOptions{
			{}, {Framing: FramingWhole}, {Framing: FramingLinesReset}, {Show: ShowEscaped}, {Rows: 8},
			{Rows: 2, Columns: 5},
		} {
			text, account, err := Sanitize(log, policy, options)
			if err != nil || account.Length != uint64(len(log)) || account.sum() != account.Length {
				t.Error(policy, options, account, err)
			}
			for size := 1; size < 20; size++ {
				got, told := sanitized(t, log, size, policy, options)
				if got != string(text) || told != account {
					t.Errorf("%d, %v, %d: %q, %v, not %q, %v", policy, options, size, got, told, text, account)
				}
			}
		}
	}
	_, account := sanitized(t, log, 7, Text, SanitizerOptions{NoAccount: true})
	if account != (Account{}) {
		t.Error(account)
	}
}

func isPlain(text string) bool {
	return utf8.ValidString(text) && strings.IndexFunc(text, func(c rune) bool {
		return c != '\t' && c != '\n' && c != '\r' && (c < ' ' || c > '~' && c < 0xa0)
	}) < 0
}

func TestSanitizedTextIsPlain(t *testing.T) {
	logs := [][]byte{[]byte(hostile)}
	for _, r := range rows(t) {
		if stream := r.words["stream"]; stream != nil {
			logs = append(logs, stream)
		}
	}
	for _, log := range logs {
		for framing := Framing(0); framing <= FramingLinesReset; framing++ {
			text, account, err := Sanitize(log, Text, SanitizerOptions{Framing: framing})
			if err != nil || !isPlain(string(text)) || account.sum() != uint64(len(log)) {
				t.Errorf("%q: %q, %v, %v", log, text, account, err)
			}
		}
	}
}

const (
	link  = "\x1b]8;;http://a\x1b\\x\x1b]8;;\x1b\\"
	title = "\x1b]2;t\x1b\\x"
)

func TestSanitizerOptions(t *testing.T) {
	for _, it := range []struct {
		log     string
		policy  Policy
		options SanitizerOptions
		want    string
	}{
		{"\x1b[1mb\nc\x1b[0m\nd", Color, SanitizerOptions{}, "\x1b[1mb\x1b[0m\n\x1b[1mc\x1b[0m\nd"},
		{"\x1b[1mb\nc", Color, SanitizerOptions{Framing: FramingLinesReset}, "\x1b[1mb\x1b[0m\nc"},
		{"\x1b[1mb", Color, SanitizerOptions{Deny: GroupSGR | GroupHidden}, "b"},
		{title, Text, SanitizerOptions{Allow: GroupTitles}, title},
		{link, Color, SanitizerOptions{Links: LinksHTTP | LinksHTTPS}, link},
		{link, Color, SanitizerOptions{Links: LinksMailto}, "x\x1b]8;;\x1b\\"},
		{"a\u202eb", Color, SanitizerOptions{}, "a<U+202E>b"},
		{"a\u202eb", Color, SanitizerOptions{Characters: CharactersKeep}, "a\u202eb"},
		{"a\u202eb", Color, SanitizerOptions{Characters: CharactersDrop}, "ab"},
		{"a\rb\r\n", Color, SanitizerOptions{}, "a^Mb\r\n"},
		{"a\rb\r\n", Color, SanitizerOptions{Returns: ReturnsKeep}, "a\rb\r\n"},
		{"a\x9b1mb", Text, SanitizerOptions{Encoding: UTF8C1}, "ab"},
		{"\x80", Color, SanitizerOptions{Encoding: Windows1258}, "\u20ac"},
		{"\xff\xfea\x00=\xd8\x00\xde\n", Text, SanitizerOptions{Encoding: UTF16}, "a\U0001f600\ufffd"},
		{"\xfe\xff\x00a\x00", Text, SanitizerOptions{Encoding: UTF16}, "a\ufffd"},
		{"a\x00=\xd8\x00\xde", Text, SanitizerOptions{Encoding: UTF16LE}, "a\U0001f600"},
		{"\x00a\xd8=\xde\x00", Text, SanitizerOptions{Encoding: UTF16BE}, "a\U0001f600"},
		{"a\x1b]0;t\x07", Color, SanitizerOptions{Show: ShowPlain}, "a^[]0;t^G"},
		{"10%\r20%\n", Color, SanitizerOptions{Rows: 8}, "20%\n"},
		{"abcdef\x1b[Gx\n", Color, SanitizerOptions{Rows: 8}, "xbcdef\n"},
		{"abcdef\x1b[Gx\n", Color, SanitizerOptions{Rows: 8, Columns: 4}, "abcdxf\n"},
		{"a\x1b]0;long\x07b\n", Color, SanitizerOptions{Limit: 4}, "ab\n"},
	} {
		if got, _ := sanitized(t, []byte(it.log), 3, it.policy, it.options); got != it.want {
			t.Errorf("%q, %v: %q, not %q", it.log, it.options, got, it.want)
		}
	}
}

func TestSanitizerReader(t *testing.T) {
	want, account := sanitized(t, []byte(hostile), 7, Color, SanitizerOptions{})
	for _, wrap := range []func(io.Reader) io.Reader{
		func(r io.Reader) io.Reader { return r },
		iotest.OneByteReader, iotest.DataErrReader, iotest.HalfReader,
	} {
		r, err := NewSanitizerReader(wrap(strings.NewReader(hostile)), Color, SanitizerOptions{})
		if err != nil {
			t.Fatal(err)
		}
		if err := iotest.TestReader(r, []byte(want)); err != nil || r.Account() != account {
			t.Error(err, r.Account())
		}
		r.Close()
		if _, err := r.Read(make([]byte, 1)); err != ErrClosed || r.Account() != account {
			t.Error(err, r.Account())
		}
	}
}

func TestSanitizersThatAreNone(t *testing.T) {
	for _, options := range []SanitizerOptions{
		{Allow: 0x10000}, {Deny: 0x10000}, {Links: 8}, {Framing: 4}, {Characters: 5}, {Returns: 4},
		{Encoding: 16}, {Show: 4}, {Rows: MostRows + 1}, {Rows: -1},
		{Columns: MostColumns + 1}, {Columns: -1},
	} {
		if _, err := NewSanitizerWriter(io.Discard, Text, options); err != ErrOption {
			t.Error(options, err)
		}
	}
	if _, _, err := Sanitize(nil, 4, SanitizerOptions{}); err != ErrPolicy {
		t.Error(err)
	}
	if _, _, err := Sanitize(nil, Text, SanitizerOptions{Limit: -1}); err != ErrLimit {
		t.Error(err)
	}
	w, _ := NewSanitizerWriter(io.Discard, Text, SanitizerOptions{})
	w.Close()
	if _, err := w.Write([]byte("a")); err != ErrClosed || w.Close() != nil {
		t.Error(err)
	}
}

// Each choice of options gives the output of the program, if ESCFILTER names it.
func TestAsTheProgram(t *testing.T) {
	program := os.Getenv("ESCFILTER")
	if program == "" {
		t.Skip("ESCFILTER names no program")
	}
	more := "\n\x1b]8;;https://a\x07x\x1b]8;;\x07\xe9\x9b1m\x1b[A\x1b[Ky\n"
	log := []byte(hostile + more + hostile)
	for _, it := range []struct {
		policy  Policy
		options SanitizerOptions
		words   string
	}{
		{Color, SanitizerOptions{}, ""},
		{Text, SanitizerOptions{}, "--allow=text"},
		{Screen, SanitizerOptions{}, "--allow=screen"},
		{All, SanitizerOptions{Framing: FramingLines}, "--allow=all --lines"},
		{Color, SanitizerOptions{Framing: FramingLinesReset}, "--line-reset"},
		{Color, SanitizerOptions{Framing: FramingWhole, Returns: ReturnsShow}, "--whole --returns=show"},
		{Color, SanitizerOptions{Allow: GroupTitles | GroupCursor, Deny: GroupSGR},
			"--allow=titles,cursor --deny=sgr"},
		{Color, SanitizerOptions{Links: LinksHTTPS | LinksMailto}, "--links=https,mailto"},
		{Color, SanitizerOptions{Characters: CharactersShow, Returns: ReturnsDrop},
			"--unicode=show --returns=drop"},
		{Color, SanitizerOptions{Encoding: Latin1C1}, "--encoding=latin1 --c1=obey"},
		{Color, SanitizerOptions{Encoding: UTF16}, "--encoding=utf-16"},
		{Color, SanitizerOptions{Encoding: UTF16BE, Show: ShowPlain}, "--encoding=utf-16be --show"},
		{Color, SanitizerOptions{Show: ShowReversed}, "--show=color"},
		{Color, SanitizerOptions{Show: ShowPlain, Encoding: Latin1}, "--show --encoding=latin1"},
		{Color, SanitizerOptions{Rows: 16}, "--collapse=16"},
		{Color, SanitizerOptions{Rows: 16, Columns: 4}, "--collapse=16 --columns=4"},
		{Text, SanitizerOptions{Rows: 16, Show: ShowEscaped}, "--allow=text --collapse=16 --show=escaped"},
		{Color, SanitizerOptions{Limit: 2}, "--limit=2"},
	} {
		said := exec.Command(program, strings.Fields(it.words)...)
		said.Stdin = bytes.NewReader(log)
		want, err := said.Output()
		if err != nil {
			t.Fatal(it.words, err)
		}
		if got, _, err := Sanitize(log, it.policy, it.options); err != nil || !bytes.Equal(got, want) {
			t.Errorf("%s: %q, %v, not %q", it.words, got, err, want)
		}
	}
}
