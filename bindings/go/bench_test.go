// SPDX-License-Identifier: MIT

package escapestream

import (
	"bytes"
	"fmt"
	"io"
	"regexp"
	"testing"
)

// aLog returns a log of a build, with two colours a line.
func aLog() []byte {
	var log bytes.Buffer
	for i := 0; log.Len() < 4<<20; i++ {
		fmt.Fprintf(&log, "\x1b[90m%08d\x1b[0m \x1b[1;3%dmINFO\x1b[0m ", i, 1+i%7)
		log.WriteString("build compile link test café found in src/main.c\n")
	}
	return log.Bytes()
}

func bench(b *testing.B, work func(log []byte)) {
	log := aLog()
	b.SetBytes(int64(len(log)))
	b.ResetTimer()
	for i := 0; i < b.N; i++ {
		work(log)
	}
}

func BenchmarkFilter(b *testing.B) {
	bench(b, func(log []byte) { Filter(Text, log) })
}

func BenchmarkWriter(b *testing.B) {
	bench(b, func(log []byte) {
		w, _ := NewWriter(io.Discard, Color)
		chunks(log, 32768, func(chunk []byte) { w.Write(chunk) })
		w.Close()
	})
}

func BenchmarkSanitizer(b *testing.B) {
	bench(b, func(log []byte) {
		w, _ := NewSanitizerWriter(io.Discard, Color, SanitizerOptions{NoAccount: true})
		chunks(log, 32768, func(chunk []byte) { w.Write(chunk) })
		w.Close()
	})
}

func BenchmarkToHTML(b *testing.B) {
	bench(b, func(log []byte) { ToHTML(log, HTMLOptions{}) })
}

func BenchmarkParser(b *testing.B) {
	bench(b, func(log []byte) {
		p, _ := NewParser()
		chunks(log, 65536, func(chunk []byte) {
			p.Feed(chunk)
			for p.Next() {
			}
		})
	})
}

// A pattern that Go programs use: that of the npm package ansi-regex 6.2, from memory.
var pattern = regexp.MustCompile("(?:\x1b\\][\\s\\S]*?(?:\x07|\x1b\x5c|\u009c))|" +
	"[\x1b\u009b][[\\]()#;?]*(?:\\d{1,4}(?:[;:]\\d{0,4})*)?[\\dA-PR-TZcf-nq-uy=><~]")

func BenchmarkRegexp(b *testing.B) {
	bench(b, func(log []byte) { pattern.ReplaceAll(log, nil) })
}
