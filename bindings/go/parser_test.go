// SPDX-License-Identifier: MIT

package escapestream

import (
	"bytes"
	"fmt"
	"os"
	"reflect"
	"regexp"
	"strings"
	"testing"
)

// events returns the events of a stream in chunks as lines, with each run of text or data as one.
func events(t testing.TB, stream []byte, size int) []string {
	p, err := NewParser(WithLimit(4096))
	if err != nil {
		t.Fatal(err)
	}
	var found []string
	last := Kind(0)
	chunks(stream, size, func(chunk []byte) {
		p.Feed(chunk)
		for p.Next() {
			e := p.Event()
			if e.Kind == last && (last == KindText || last == KindData) {
				found[len(found)-1] += string(e.Text)
				continue
			}
			last = e.Kind
			if last == KindText || last == KindData {
				found = append(found, e.Kind.String()+" "+string(e.Text))
			} else {
				found = append(found, fmt.Sprintf("%v %q %q %q %v %v",
					e.Kind, e.Byte, e.Text, e.Marks, e.Entries, e.HasMore))
			}
		}
	})
	return found
}

func TestEvents(t *testing.T) {
	got := events(t, []byte("a\x1b[?1;31mred\x1b]0;title\x07\x1bP1$qm\x1b\\\x1b_x\x1b\\\r"), 3)
	want := []string{
		"Text a", `CSI 'm' "" "" [{0 63 true} {1 0 false} {0 59 true} {31 0 false}] false`, "Text red",
		`OSC '\x00' "0;title" "" [] false`, `DCS 'q' "1" "$" [] false`, "Data m", `DCSEnd '\x00' "" "" [] false`,
		`Escape '\\' "" "" [] false`, `APC '\x00' "x" "" [] false`, `Escape '\\' "" "" [] false`,
		`Control '\r' "" "" [] false`,
	}
	if !reflect.DeepEqual(got, want) {
		t.Errorf("%s\nnot\n%s", strings.Join(got, "\n"), strings.Join(want, "\n"))
	}
	if !entriesAreAlike() {
		t.Error("an Entry is not as the library's")
	}
}

func TestEventsHoweverAStreamIsCut(t *testing.T) {
	count := 0
	for _, r := range rows(t) {
		stream := r.words["stream"]
		if stream == nil || len(stream) > 2000 {
			continue
		}
		want := events(t, stream, len(stream)+1)
		for _, size := range sizes(stream) {
			if got := events(t, stream, size); !reflect.DeepEqual(got, want) {
				t.Errorf("%s, %d:\n%s\nnot\n%s", r.name, size, strings.Join(got, "\n"), strings.Join(want, "\n"))
			}
		}
		count++
	}
	if count < 300 {
		t.Error(count, "rows")
	}
}

func TestParameters(t *testing.T) {
	p, _ := NewParser()
	p.Feed([]byte("\x1b[?4:3;;7$h"))
	if !p.Next() {
		t.Fatal("no event")
	}
	e := p.Event()
	if e.Prefix() != '?' || string(e.Intermediates()) != "$" {
		t.Errorf("%q %q", e.Prefix(), e.Intermediates())
	}
	if got := e.Params(); !reflect.DeepEqual(got, [][]int64{{4, 3}, {-1}, {7}}) {
		t.Error(got)
	}
	for i, want := range []int64{4, 9, 7, 9} {
		if got := e.Number(i, 9); got != want {
			t.Errorf("%d: %d, not %d", i, got, want)
		}
	}
	p.Feed([]byte("\x1b[m\x1b[;m\x1b[:5m"))
	for _, want := range [][][]int64{nil, {{-1}, {-1}}, {{-1, 5}}} {
		if !p.Next() || !reflect.DeepEqual(p.Event().Params(), want) {
			t.Error(p.Event().Params())
		}
	}
	if p.Event().Number(0, 9) != 9 {
		t.Error("the second number of a group")
	}
}

func TestLimit(t *testing.T) {
	for limit, want := range map[int]Kind{5: KindOSC, 4: KindLimit, 0: KindLimit} {
		p, err := NewParser(WithLimit(limit))
		if err != nil {
			t.Fatal(err)
		}
		if p.Feed([]byte("\x1b]2;abc\x07")); !p.Next() || p.Event().Kind != want {
			t.Error(limit, p.Event().Kind)
		}
	}
	if _, err := NewParser(WithLimit(-1)); err != ErrLimit {
		t.Error(err)
	}
}

func TestGround(t *testing.T) {
	p, _ := NewParser()
	for _, it := range []struct {
		chunk string
		want  bool
	}{{"a", true}, {"\x1b[", false}, {"1", false}, {"m", true}} {
		p.Feed([]byte(it.chunk))
		for p.Next() {
		}
		if p.IsGround() != it.want {
			t.Errorf("%q", it.chunk)
		}
	}
	p.Feed([]byte("ab\x1b[1m"))
	p.Feed([]byte("c"))
	if !p.Next() || string(p.Event().Text) != "c" {
		t.Errorf("%q", p.Event().Text)
	}
}

// How the page spells a sequence: its bytes with spaces between, and SP for a space.
var spelled = strings.NewReplacer(" ", "", "SP", " ", `\|`, "|")

func TestFunctionsByTheNamesOfTheirPage(t *testing.T) {
	page, err := os.ReadFile("../../docs/FUNCTIONS.md")
	if err != nil {
		t.Skip("the page is not here")
	}
	line := regexp.MustCompile("(?m)^\\| `CSI ([^`]+)` \\| (\\S+) \\| ([^|]*) \\| [^|]* \\| (\\w+) \\|")
	found := line.FindAllSubmatch(page, -1)
	for _, it := range found {
		want := Function{Name: string(it[2]), Phrase: string(it[3]), ChangesScreen: string(it[4]) == "screen"}
		isNamed := false
		for _, parameters := range []string{"", "1", "1;1"} {
			p, _ := NewParser(WithLimit(0))
			p.Feed([]byte("\x1b[" + spelled.Replace(strings.Replace(string(it[1]), "..", parameters, 1))))
			if !p.Next() {
				t.Fatalf("%q", it[1])
			}
			f, _ := p.Event().Function()
			f.IsAnswered = false
			isNamed = isNamed || f == want
		}
		if !isNamed {
			t.Errorf("%s is not %s", it[1], it[2])
		}
	}
	if len(found) < 100 {
		t.Error(len(found), "rows")
	}
}

func TestOtherFunctions(t *testing.T) {
	var got []string
	p, _ := NewParser()
	p.Feed([]byte("\x1b(B\x1b7\n\xc2\x85\x1b$(B"))
	for p.Next() {
		f, _ := p.Event().Function()
		got = append(got, f.Name)
	}
	if want := []string{"GZD4", "DECSC", "LF", "NEL", ""}; !reflect.DeepEqual(got, want) {
		t.Error(got)
	}
}

func FuzzStreams(f *testing.F) {
	for _, r := range rows(f) {
		if stream := r.words["stream"]; len(stream) < 500 {
			f.Add(stream, byte(7))
		}
	}
	f.Fuzz(func(t *testing.T, stream []byte, size byte) {
		for policy := Text; policy <= All; policy++ {
			checkFilter(t, stream, int(size)+1, policy)
		}
		checkHTML(t, stream)
		want := events(t, stream, len(stream)+1)
		if got := events(t, stream, int(size)+1); !reflect.DeepEqual(got, want) {
			t.Errorf("%q, not %q", got, want)
		}
	})
}

// checkFilter checks that a text is its own normal form, that a filter leaves it as it is, and that
// it is the same in chunks.
func checkFilter(t *testing.T, stream []byte, size int, policy Policy) {
	text, err := Filter(policy, stream)
	if err != nil {
		t.Fatal(err)
	}
	if is, err := IsNormal(text); err != nil || !is {
		t.Errorf("%d: %q is not normal, %v", policy, text, err)
	}
	if again, err := Filter(policy, text); err != nil || !bytes.Equal(again, text) {
		t.Errorf("%d: %q, not %q, %v", policy, again, text, err)
	}
	if got, _ := written(t, stream, size, policy); !bytes.Equal(got, text) {
		t.Errorf("%d: %q, not %q", policy, got, text)
	}
	if policy == Text && control.Match(text) {
		t.Errorf("%q has a control", text)
	}
}

var (
	control = regexp.MustCompile("[\\x00-\\x08\\x0b\\x0c\\x0e-\\x1f\\x7f-\u009f]")
	tag     = regexp.MustCompile(`</?span>|<span (?:class="[a-z0-9 -]*")?(?: ?style="[-a-z0-9:;#.() ]*")?>|` +
		`</a>|<a href="(?:https?:|mailto:)[^"<>]*"[^<>]*>`)
)

// checkHTML checks that a page has no tags but spans and links to safe addresses.
func checkHTML(t *testing.T, stream []byte) {
	for _, options := range []HTMLOptions{{}, {PerLine: true, Inline: true}} {
		text, err := ToHTML(stream, options)
		if err != nil {
			t.Fatal(err)
		}
		if rest := tag.ReplaceAll(text, nil); bytes.ContainsAny(rest, "<>") {
			t.Errorf("%q", text)
		}
	}
}
