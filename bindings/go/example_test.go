// SPDX-License-Identifier: MIT

package escapestream_test

import (
	"fmt"
	"io"
	"os"
	"strings"

	"escapestream"
)

func ExampleFilter() {
	stream := []byte("a\x1b]0;a title\x07 \x1b[1;31mred")
	text, err := escapestream.Filter(escapestream.Color, stream)
	fmt.Printf("%q %v\n", text, err)
	// Output: "a \x1b[1;31mred" <nil>
}

func ExampleNewReader() {
	log := strings.NewReader("a\x1b]52;c;aGk=\x07b\n")
	r, err := escapestream.NewReader(log, escapestream.Text)
	if err != nil {
		panic(err)
	}
	io.Copy(os.Stdout, r)
	// Output: ab
}

func ExampleSanitize() {
	log := []byte("one\x1b]0;a title\ntwo\x1b[31m three\n")
	options := escapestream.SanitizerOptions{}
	text, account, err := escapestream.Sanitize(log, escapestream.Text, options)
	fmt.Printf("%q %v\n", text, err)
	fmt.Println(account.Length, account.Passed, account.Swallowed, account.LeftOut)
	// Output:
	// "one\ntwo three\n" <nil>
	// 30 13 12 5
}

func ExampleToHTML() {
	page, _ := escapestream.ToHTML([]byte("\x1b[1m<b>\x1b[m"), escapestream.HTMLOptions{})
	fmt.Println(string(page))
	// Output: <span class="es-bold">&lt;b&gt;</span>
}

func ExampleParser() {
	p, err := escapestream.NewParser()
	if err != nil {
		panic(err)
	}
	for _, chunk := range []string{"a\x1b[2;", "5H\x1b]2;tit", "le\x07"} {
		p.Feed([]byte(chunk))
		for p.Next() {
			e := p.Event()
			switch e.Kind {
			case escapestream.KindText:
				fmt.Printf("text %q\n", e.Text)
			case escapestream.KindCSI:
				f, _ := e.Function()
				fmt.Println(f.Name, e.Number(0, 1), e.Number(1, 1))
			case escapestream.KindOSC:
				c, _ := escapestream.ReadCommand(e.Text)
				fmt.Println(c.Kind, c.Text(escapestream.FieldText))
			}
		}
	}
	// Output:
	// text "a"
	// CUP 2 5
	// SetWindowTitle title
}

func ExampleCommand_Bytes() {
	c := escapestream.Command{Kind: escapestream.CommandSetWindowTitle}
	title := escapestream.Field{Name: escapestream.FieldText, Kind: escapestream.ValueText}
	title.Text = []byte("hello")
	c.Fields = []escapestream.Field{title}
	text, err := c.Bytes()
	fmt.Printf("%q %v\n", text, err)
	// Output: "\x1b]2;hello\x1b\\" <nil>
}
