// SPDX-License-Identifier: MIT

package escapestream

import (
	"bytes"
	"errors"
	"io"
	"runtime"
	"strconv"
	"strings"
	"sync"
	"testing"
	"testing/iotest"
)

const stream = "a\x1b]0;a title\x07 \x1b[1;31mred\x1b[2;5Hcaf\xc3\xa9\xff\x1b]8;;https://x.org\x1b\\link"

var policies = map[string]Policy{"as-text": Text, "as-color": Color, "as-screen": Screen, "as-all": All}

func TestFilter(t *testing.T) {
	for policy, want := range map[Policy]string{
		Text:   "a redcaf\u00e9\ufffdlink",
		Color:  "a \x1b[1;31mredcaf\u00e9\ufffd\x1b]8;;https://x.org\x1b\\link",
		Screen: "a \x1b[1;31mred\x1b[2;5Hcaf\u00e9\ufffd\x1b]8;;https://x.org\x1b\\link",
	} {
		got, err := Filter(policy, []byte(stream))
		if err != nil || string(got) != want {
			t.Errorf("%d: %q, %v, not %q", policy, got, err, want)
		}
	}
	if _, err := Filter(9, nil); err != ErrPolicy {
		t.Error(err)
	}
	if got, err := Filter(Text, nil); err != nil || len(got) != 0 {
		t.Errorf("%q, %v", got, err)
	}
	if got, err := Strip(stream); err != nil || got != "a redcaf\u00e9\ufffdlink" {
		t.Errorf("%q, %v", got, err)
	}
}

// written returns what a writer passes on of a stream in chunks, with its end and without.
func written(
	t testing.TB, stream []byte, size int, policy Policy, options ...Option,
) (whole, withEnd []byte) {
	var out bytes.Buffer
	w, err := NewWriter(&out, policy, options...)
	if err != nil {
		t.Fatal(err)
	}
	chunks(stream, size, func(chunk []byte) {
		if n, err := w.Write(chunk); err != nil || n != len(chunk) {
			t.Fatal(n, err)
		}
	})
	whole = append(whole, out.Bytes()...)
	if err := w.Close(); err != nil {
		t.Fatal(err)
	}
	return whole, out.Bytes()
}

func TestWhatPoliciesAdmitOfTheTables(t *testing.T) {
	count := 0
	for _, r := range rows(t) {
		stream, text := r.words["stream"], r.words["as-text"]
		if stream == nil || text == nil {
			continue
		}
		for _, word := range []string{"as-text", "as-color", "as-screen", "as-all"} {
			if said, ok := r.words[word]; ok {
				text = said
			}
			whole, err := Filter(policies[word], stream)
			if err != nil {
				t.Fatal(err)
			}
			for _, size := range sizes(stream) {
				got, withEnd := written(t, stream, size, policies[word])
				if !bytes.Equal(got, whole) || !bytes.Equal(withEnd, text) {
					t.Errorf("%s, %s, %d: %q and %q, not %q", r.name, word, size, got, withEnd, text)
				}
			}
		}
		count++
	}
	if count < 30 {
		t.Error(count, "rows")
	}
}

func TestLimitsOfTheTables(t *testing.T) {
	count := 0
	for _, r := range rows(t) {
		stream, limit, text := r.words["stream"], r.words["limit"], r.words["text"]
		if said, ok := r.words["as-all"]; ok {
			text = said
		}
		if stream == nil || limit == nil || text == nil {
			continue
		}
		most, _ := strconv.Atoi(string(limit))
		for _, size := range sizes(stream) {
			if _, got := written(t, stream, size, All, WithLimit(most)); !bytes.Equal(got, text) {
				t.Errorf("%s: %q, not %q", r.name, got, text)
			}
		}
		count++
	}
	if count < 10 {
		t.Error(count, "rows")
	}
}

func TestNormalFormsOfTheTables(t *testing.T) {
	count := 0
	for _, r := range rows(t) {
		stream, text := r.words["stream"], r.words["text"]
		if stream == nil || r.words["limit"] != nil || r.words["as-text"] != nil {
			continue
		}
		if text == nil {
			text = stream
		}
		got, err := Normal(stream)
		if err != nil || !bytes.Equal(got, text) {
			t.Errorf("%s: %q, %v, not %q", r.name, got, err, text)
		}
		is, err := IsNormal(stream)
		if err != nil || is != bytes.Equal(stream, text) {
			t.Errorf("%s: %v, %v", r.name, is, err)
		}
		count++
	}
	if count < 300 {
		t.Error(count, "rows")
	}
}

func TestReader(t *testing.T) {
	_, want := written(t, []byte(stream), 100, Color)
	for _, wrap := range []func(io.Reader) io.Reader{
		func(r io.Reader) io.Reader { return r },
		iotest.OneByteReader, iotest.DataErrReader, iotest.HalfReader,
	} {
		r, err := NewReader(wrap(strings.NewReader(stream)), Color)
		if err != nil {
			t.Fatal(err)
		}
		if err := iotest.TestReader(r, want); err != nil {
			t.Error(err)
		}
	}
	r, _ := NewReader(iotest.TimeoutReader(iotest.OneByteReader(strings.NewReader(stream))), Text)
	got, err := io.ReadAll(r)
	if string(got) != "a" || err != iotest.ErrTimeout {
		t.Errorf("%q, %v", got, err)
	}
	r, _ = NewReader(strings.NewReader(stream), Text)
	r.Close()
	if _, err := r.Read(make([]byte, 1)); err != ErrClosed {
		t.Error(err)
	}
}

type short struct{}

func (short) Write(p []byte) (int, error) { return len(p) / 2, nil }

var errFull = errors.New("full")

type full struct{}

func (full) Write([]byte) (int, error) { return 0, errFull }

func TestWritersBelowThatFail(t *testing.T) {
	for to, want := range map[io.Writer]error{short{}: io.ErrShortWrite, full{}: errFull} {
		w, _ := NewWriter(to, Text)
		for i := 0; i < 2; i++ {
			if _, err := w.Write([]byte("text")); err != want {
				t.Error(err)
			}
		}
		if err := w.Close(); err != want {
			t.Error(err)
		}
		if _, err := w.Write([]byte("a")); err != ErrClosed {
			t.Error(err)
		}
		if err := w.Close(); err != nil {
			t.Error(err)
		}
	}
	if _, err := NewWriter(io.Discard, 7); err != ErrPolicy {
		t.Error(err)
	}
	if _, err := NewWriter(io.Discard, Text, WithLimit(-1)); err != ErrLimit {
		t.Error(err)
	}
}

func TestGoroutinesThatChangeTheirThread(t *testing.T) {
	long := bytes.Repeat([]byte(stream), 200)
	_, want := written(t, long, 1000, Color)
	var all sync.WaitGroup
	for i := 0; i < 16; i++ {
		all.Add(1)
		go func() {
			defer all.Done()
			var out bytes.Buffer
			w, err := NewWriter(&out, Color)
			if err != nil {
				t.Error(err)
				return
			}
			chunks(long, 100, func(chunk []byte) {
				done := make(chan struct{})
				go func() {
					runtime.LockOSThread()
					defer runtime.UnlockOSThread()
					w.Write(chunk)
					close(done)
				}()
				<-done
			})
			if w.Close(); !bytes.Equal(out.Bytes(), want) {
				t.Error("another text")
			}
		}()
	}
	all.Wait()
}

func TestWhatIsForgottenIsGivenBack(t *testing.T) {
	for i := 0; i < 1000; i++ {
		w, err := NewWriter(io.Discard, All)
		if err != nil {
			t.Fatal(err)
		}
		w.Write([]byte("\x1b]2;" + strings.Repeat("x", 10000)))
	}
	runtime.GC()
}
