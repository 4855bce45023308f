// SPDX-License-Identifier: MIT
//! How a stream is sanitized.
use crate::chunks::DEFAULT_LIMIT;
use crate::{Policy, ffi};

/// How a [`Sanitizer`](crate::Sanitizer) filters a stream, by the options of the program
/// `escfilter`. If one is not set, it is as the program has it.
///
/// ```
/// use escape_stream::{Group, Policy, SanitizerOptions, Scheme};
///
/// let options = SanitizerOptions::new(Policy::Color)
///     .allow(Group::Titles)
///     .deny(Group::Hidden)
///     .links(Scheme::Https);
/// ```
#[derive(Clone, Copy, Debug)]
#[must_use]
pub struct SanitizerOptions {
    pub(crate) raw: ffi::SanitizerOptions,
}

impl SanitizerOptions {
    /// Those of `escfilter --allow` this policy, with an account.
    pub fn new(policy: Policy) -> SanitizerOptions {
        let mut raw = ffi::SanitizerOptions::of(policy);
        raw.limit = DEFAULT_LIMIT as u64;
        raw.account = 1;
        SanitizerOptions { raw }
    }

    /// How many bytes are kept of an unfinished sequence or string, 1,048,576 if it is not set:
    /// a longer one is left out.
    pub fn limit(mut self, bytes: usize) -> SanitizerOptions {
        self.raw.limit = bytes as u64;
        self
    }

    /// Lets a group pass besides what the policy does.
    pub fn allow(mut self, group: Group) -> SanitizerOptions {
        self.raw.allowed |= 1 << group as u32;
        self
    }

    /// Lets a group not pass, whatever the policy and [`allow`](SanitizerOptions::allow) say.
    pub fn deny(mut self, group: Group) -> SanitizerOptions {
        self.raw.denied |= 1 << group as u32;
        self
    }

    /// Lets links to addresses of this scheme pass, and to those of others that were named so;
    /// if none is named, links to any. The text of other links stays.
    pub fn links(mut self, scheme: Scheme) -> SanitizerOptions {
        self.raw.links |= 1 << scheme as u32;
        self
    }

    /// Whether each line is a stream of its own; if it is not set, by [`Policy::Text`] and
    /// [`Policy::Color`] without [`rows`](SanitizerOptions::rows).
    pub fn framing(mut self, framing: Framing) -> SanitizerOptions {
        self.raw.framing = 1 + framing as u32;
        self
    }

    /// The output for characters that hide or reorder text; if it is not set,
    /// [`Characters::Join`] by [`Policy::Text`] and [`Policy::Color`], and else
    /// [`Characters::Keep`].
    pub fn characters(mut self, characters: Characters) -> SanitizerOptions {
        self.raw.characters = 1 + characters as u32;
        self
    }

    /// The output for carriage returns within a line; if it is not set, [`Returns::Show`] by
    /// [`Policy::Text`] and [`Policy::Color`] without [`rows`](SanitizerOptions::rows), and else
    /// [`Returns::Keep`], as always in a stream that is one.
    pub fn returns(mut self, returns: Returns) -> SanitizerOptions {
        self.raw.returns = 1 + returns as u32;
        self
    }

    /// How bytes are read; if it is not set, as [`Encoding::Utf8`].
    pub fn encoding(mut self, encoding: Encoding) -> SanitizerOptions {
        self.raw.encoding = encoding as u32;
        self
    }

    /// Shows sequences that do not pass, in their place, as `^[]0;title^G`; if it is not set, they
    /// are left out.
    pub fn show(mut self, marking: Marking) -> SanitizerOptions {
        self.raw.show = 1 + marking as u32;
        self
    }

    /// Writes text that is written again, as of a progress bar, as a terminal leaves it. `rows` is
    /// the number of rows that may be written again, at most 4,096. The account is of the text
    /// before that.
    pub fn rows(mut self, rows: u32) -> SanitizerOptions {
        self.raw.rows = rows;
        self
    }

    /// With [`rows`](SanitizerOptions::rows), the number of their columns, at most 16,384: a longer
    /// line goes on in the next row. If it is 0 or not set, there are 512.
    pub fn columns(mut self, columns: u32) -> SanitizerOptions {
        self.raw.columns = columns;
        self
    }

    /// Whether an account is kept. It costs time and memory.
    pub fn account(mut self, is_kept: bool) -> SanitizerOptions {
        self.raw.account = u32::from(is_kept);
        self
    }
}

/// A group of actions.
#[derive(Clone, Copy, Debug, PartialEq, Eq, Hash)]
pub enum Group {
    /// Characters but DEL.
    Characters,
    /// Tab, line feed and carriage return.
    Layout,
    /// Graphic renditions (SGR), but those of `Hidden`.
    Sgr,
    /// Graphic renditions of which one conceals text (SGR 8).
    Hidden,
    /// Hyperlinks (OSC 8).
    Links,
    /// Bell, backspace, line tabulation and form feed.
    Controls,
    /// Cursor movement, its shape, its saved state, and tab stops.
    Cursor,
    /// Erasing, inserting, deleting, copying and filling.
    Erase,
    /// Scrolling, index and next line, and margins.
    Scroll,
    /// Modes of the display.
    Modes,
    /// Character sets, shifts, and the size of a line's characters.
    Charsets,
    /// Colours of the palette.
    Palette,
    /// Titles of the window and of the icon.
    Titles,
    /// The clipboard, set and cleared.
    Clipboard,
    /// Images of kitty and sixel.
    Images,
    /// Anything else, queries too.
    Other,
}

/// The scheme of a link's address.
#[derive(Clone, Copy, Debug, PartialEq, Eq, Hash)]
pub enum Scheme {
    /// `http`.
    Http,
    /// `https`.
    Https,
    /// `mailto`.
    Mailto,
}

/// The extent of a stream of its own.
#[derive(Clone, Copy, Debug, PartialEq, Eq, Hash)]
pub enum Framing {
    /// Each line: a sequence that it leaves unfinished hides nothing of the lines after it. A
    /// rendition that goes on over a line feed is written again at the start of the next line.
    Lines,
    /// The whole.
    Whole,
    /// Each line, which begins plain: no rendition goes on over a line feed.
    LinesReset,
}

/// The output for a character that hides or reorders text.
#[derive(Clone, Copy, Debug, PartialEq, Eq, Hash)]
pub enum Characters {
    /// The character itself.
    Keep,
    /// The character itself if it belongs to the one before it, as in emoji, and else its
    /// number.
    Join,
    /// Its number, as `<U+202E>`.
    Show,
    /// Nothing.
    Drop,
}

/// The output for a carriage return within a line.
#[derive(Clone, Copy, Debug, PartialEq, Eq, Hash)]
pub enum Returns {
    /// The carriage return itself.
    Keep,
    /// `^M`.
    Show,
    /// Nothing.
    Drop,
}

/// How sequences that do not pass are shown.
#[derive(Clone, Copy, Debug, PartialEq, Eq, Hash)]
pub enum Marking {
    /// As other text.
    Plain,
    /// As other text, whose `^` and `<` are shown too, as `<5E>` and `<3C>`, so that all can be
    /// read back.
    Escaped,
    /// In reverse video, if that passes.
    Reversed,
}

/// How the bytes of a stream are read. A byte 80 to 9F that is no part of a character is replaced
/// by U+FFFD; with C1 it is a control, as it is wherever what does not pass is shown.
#[derive(Clone, Copy, Debug, PartialEq, Eq, Hash)]
pub enum Encoding {
    /// UTF-8.
    Utf8,
    /// UTF-8 with C1.
    Utf8C1,
    /// ISO/IEC 8859-1.
    Latin1,
    /// ISO/IEC 8859-1 with C1.
    Latin1C1,
    /// windows-1250, of Central Europe.
    Windows1250,
    /// windows-1251, Cyrillic.
    Windows1251,
    /// windows-1252, of Western Europe.
    Windows1252,
    /// windows-1253, Greek.
    Windows1253,
    /// windows-1254, Turkish.
    Windows1254,
    /// windows-1255, Hebrew.
    Windows1255,
    /// windows-1256, Arabic.
    Windows1256,
    /// windows-1257, Baltic.
    Windows1257,
    /// windows-1258, Vietnamese.
    Windows1258,
    /// UTF-16 in the order of bytes that its byte order mark says; `Utf16Le` if it has none.
    Utf16,
    /// UTF-16, the lower byte first.
    Utf16Le,
    /// UTF-16, the higher byte first.
    Utf16Be,
}
