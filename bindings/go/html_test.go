// SPDX-License-Identifier: MIT

package escapestream

import (
	"bytes"
	"testing"
)

func TestToHTML(t *testing.T) {
	for _, it := range []struct {
		stream, want string
		options      HTMLOptions
	}{
		{"\x1b[31m<b>&\x1b[0m", `<span class="es-fg-red">&lt;b&gt;&amp;</span>`, HTMLOptions{}},
		{"\x1b]8;;javascript:alert(1)\x1b\\x", "x", HTMLOptions{}},
		{"", "", HTMLOptions{}},
		{"\x1b]2;abc\x07x", "x", HTMLOptions{Limit: 1}},
	} {
		got, err := ToHTML([]byte(it.stream), it.options)
		if err != nil || string(got) != it.want {
			t.Errorf("%q: %q, %v", it.stream, got, err)
		}
	}
	if _, err := ToHTML(nil, HTMLOptions{Limit: -1}); err != ErrLimit {
		t.Error(err)
	}
}

func TestHTMLInChunks(t *testing.T) {
	all := []HTMLOptions{{}, {PerLine: true}, {Inline: true}, {PerLine: true, Inline: true}}
	for _, options := range all {
		long := bytes.Repeat([]byte(stream+"\n"), 2000)
		want, err := ToHTML(long, options)
		if err != nil {
			t.Fatal(err)
		}
		for _, size := range []int{7, 1000, 1 << 20} {
			var out bytes.Buffer
			w, err := NewHTMLWriter(&out, options)
			if err != nil {
				t.Fatal(err)
			}
			chunks(long, size, func(chunk []byte) { w.Write(chunk) })
			if err := w.Close(); err != nil || !bytes.Equal(out.Bytes(), want) {
				t.Error(options, size, err)
			}
			if _, err := w.Write(long); err != ErrClosed {
				t.Error(err)
			}
		}
	}
}
