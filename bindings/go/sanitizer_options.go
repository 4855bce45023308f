// SPDX-License-Identifier: MIT

package escapestream

// #include "escape_stream.h"
import "C"

// SanitizerOptions say how a log is sanitized, as the options of escfilter do. The zero value has
// the same choices as the program without options.
type SanitizerOptions struct {
	// Limit is the number of bytes that are kept of an unfinished sequence or string; DefaultLimit if
	// it is 0.
	Limit int
	// Allow are the groups that pass besides those of the policy.
	Allow Group
	// Deny are the groups that do not pass, whatever the policy and Allow say.
	Deny Group
	// Links are the schemes of the links that pass; those of any if it is 0. The text of other links
	// stays.
	Links Links
	// Framing is the extent of a stream of its own; if it is 0, FramingLines by Text and Color
	// without Rows, and else FramingWhole.
	Framing Framing
	// Characters is the output for characters that hide or reorder text; if it is 0, CharactersJoin
	// by Text and Color, and else CharactersKeep.
	Characters Characters
	// Returns is the output for carriage returns within a line; if it is 0, ReturnsShow by Text and
	// Color without Rows, and else ReturnsKeep, as always by FramingWhole.
	Returns Returns
	// Encoding says how bytes are read.
	Encoding Encoding
	// Show says how sequences that do not pass are shown in their place, as ^[]0;title^G; if it is 0,
	// they are left out.
	Show Show
	// Rows is the number of rows that may be written again, at most MostRows: text that is, as of a
	// progress bar, is written as a terminal leaves it. The Account is of the text before that.
	Rows int
	// Columns is, with Rows, the number of columns of these rows, at most MostColumns: a longer line
	// goes on in the next row. If it is 0, there are 512.
	Columns int
	// NoAccount says that no account is kept, which costs time and memory.
	NoAccount bool
}

// MostRows is how many rows may be written again at most.
const MostRows = 4096

// MostColumns is how many columns these rows have at most.
const MostColumns = 16384

// A Group is a set of actions, or several, joined by |. Text passes the first two, Color the first
// five, Screen all up to GroupPalette, and All all.
type Group uint32

const (
	// GroupCharacters has characters but DEL.
	GroupCharacters Group = 1 << iota
	// GroupLayout has tab, line feed and carriage return.
	GroupLayout
	// GroupSGR has renditions, but those of GroupHidden.
	GroupSGR
	// GroupHidden has renditions with one that conceals text (SGR 8).
	GroupHidden
	// GroupLinks has hyperlinks (OSC 8).
	GroupLinks
	// GroupControls has bell, backspace, line tabulation and form feed.
	GroupControls
	// GroupCursor has cursor movement, the cursor's shape and saved state, and tab stops.
	GroupCursor
	// GroupErase has erasing, inserting, deleting, copying and filling.
	GroupErase
	// GroupScroll has scrolling, index and next line, and margins.
	GroupScroll
	// GroupModes has modes of the display.
	GroupModes
	// GroupCharsets has character sets, shifts, and the size of a line's characters.
	GroupCharsets
	// GroupPalette has colours of the palette.
	GroupPalette
	// GroupTitles has titles of the window and of the icon.
	GroupTitles
	// GroupClipboard has the clipboard, set and cleared.
	GroupClipboard
	// GroupImages has images of kitty and sixel.
	GroupImages
	// GroupOther has anything else, queries too.
	GroupOther
)

// Links are the schemes of links, joined by |.
type Links uint32

// The schemes of links.
const (
	LinksHTTP Links = 1 << iota
	LinksHTTPS
	LinksMailto
)

// A Framing is the extent of a stream of its own.
type Framing uint32

const (
	// FramingLines is each line: a sequence that it leaves unfinished hides nothing of the lines
	// after it. A rendition that goes on over a line feed is written again at the start of the next.
	FramingLines Framing = 1 + iota
	// FramingWhole is the whole.
	FramingWhole
	// FramingLinesReset is each line, and none goes on with a rendition.
	FramingLinesReset
)

// Characters says what is written for a character that hides or reorders text.
type Characters uint32

const (
	// CharactersKeep writes the character itself.
	CharactersKeep Characters = 1 + iota
	// CharactersJoin writes it if it belongs to the one before it, as in emoji, and else its number.
	CharactersJoin
	// CharactersShow writes its number, as <U+202E>.
	CharactersShow
	// CharactersDrop writes nothing.
	CharactersDrop
)

// Returns says what is written for a carriage return within a line.
type Returns uint32

const (
	// ReturnsKeep writes the carriage return itself.
	ReturnsKeep Returns = 1 + iota
	// ReturnsShow writes ^M.
	ReturnsShow
	// ReturnsDrop writes nothing.
	ReturnsDrop
)

// An Encoding says how bytes are read. One of 80 to 9F that is no part of a character is replaced
// by U+FFFD, and with C1 it is a control, as it is by each Show.
type Encoding uint32

// The encodings. The zero value is UTF-8.
const (
	UTF8 Encoding = iota
	UTF8C1
	Latin1
	Latin1C1
	Windows1250
	Windows1251
	Windows1252
	Windows1253
	Windows1254
	Windows1255
	Windows1256
	Windows1257
	Windows1258
	// UTF16 takes the order of bytes from a byte order mark, and is UTF16LE without one.
	UTF16
	UTF16LE
	UTF16BE
)

// Show says how sequences that do not pass are shown.
type Show uint32

const (
	// ShowPlain shows them as other text.
	ShowPlain Show = 1 + iota
	// ShowEscaped shows each ^ and < of other text too, as <5E> and <3C>: all can be read back.
	ShowEscaped
	// ShowReversed shows them in reverse video, if that passes.
	ShowReversed
)

// raw returns the options as the library takes them.
func (o SanitizerOptions) raw(policy Policy) (C.struct_escape_stream_sanitizer_options, error) {
	var raw C.struct_escape_stream_sanitizer_options
	if o.Limit == 0 {
		o.Limit = DefaultLimit
	}
	limit, err := limitOf(o.Limit)
	if err != nil {
		return raw, err
	}
	if o.Rows < 0 || o.Rows > MostRows || o.Columns < 0 || o.Columns > MostColumns {
		return raw, ErrOption
	}
	raw.size = C.sizeof_struct_escape_stream_sanitizer_options
	raw.policy, raw.limit = C.uint32_t(policy), C.uint64_t(limit)
	raw.allowed, raw.denied = C.uint32_t(o.Allow), C.uint32_t(o.Deny)
	raw.links, raw.framing = C.uint32_t(o.Links), C.uint32_t(o.Framing)
	raw.characters, raw.returns = C.uint32_t(o.Characters), C.uint32_t(o.Returns)
	raw.encoding, raw.show = C.uint32_t(o.Encoding), C.uint32_t(o.Show)
	raw.rows, raw.columns = C.uint32_t(o.Rows), C.uint32_t(o.Columns)
	if !o.NoAccount {
		raw.account = 1
	}
	return raw, nil
}
