// SPDX-License-Identifier: MIT
//! The cells of a screen.
use crate::Error;
use crate::ffi::RawCell;
use alloc::vec;
use alloc::vec::Vec;
use core::fmt;

const PALETTE: u32 = 0x100_0000;
const DIRECT: u32 = 0x200_0000;

/// A colour of characters, of what is around them, or of their underline.
#[derive(Clone, Copy, Debug, Default, PartialEq, Eq, Hash)]
pub enum Color {
    /// The terminal's own.
    #[default]
    Default,
    /// An entry of the palette of 256 colours, whose first 16 are those of SGR 30 to 37 and 90 to
    /// 97.
    Idx(u8),
    /// Red, green and blue.
    Rgb(u8, u8, u8),
}

impl Color {
    fn of(number: u32) -> Color {
        let [_, red, green, blue] = number.to_be_bytes();
        match number {
            DIRECT.. => Color::Rgb(red, green, blue),
            PALETTE.. => Color::Idx(blue),
            _ => Color::Default,
        }
    }
}

/// How a character is underlined.
#[derive(Clone, Copy, Debug, Default, PartialEq, Eq, Hash)]
#[non_exhaustive]
pub enum Underline {
    /// Not.
    #[default]
    None,
    /// SGR 4 or `4:1`: by one line.
    Single,
    /// SGR 21 or `4:2`: by two lines.
    Double,
    /// SGR `4:3`: by a wavy line.
    Curly,
    /// SGR `4:4`: by a line of dots.
    Dotted,
    /// SGR `4:5`: by a line of dashes.
    Dashed,
}

/// A cell of a screen: what stands in it, how it looks, and where it leads. A character of two
/// columns has two cells, and the second has no contents.
#[derive(Clone, Copy, Default, PartialEq, Eq)]
pub struct Cell {
    text: [u8; 12],
    length: u8,
    raw: RawCell,
}

impl Cell {
    pub(super) fn of(raw: RawCell) -> Cell {
        let mut cell = Cell {
            raw,
            ..Cell::default()
        };
        for code in [raw.character, raw.first_mark, raw.second_mark] {
            if code != 0 {
                cell.push(char::from_u32(code).unwrap_or(char::REPLACEMENT_CHARACTER));
            }
        }
        cell
    }

    // Each of the three characters takes at most four bytes.
    fn push(&mut self, c: char) {
        let length = usize::from(self.length);
        if let Some(room) = self.text.get_mut(length..length + c.len_utf8()) {
            c.encode_utf8(room);
            self.length += c.len_utf8() as u8;
        }
    }

    /// The character in it and at most two marks on it; nothing where it is blank, or the second
    /// cell of a character.
    pub fn contents(&self) -> &str {
        let text = self.text.get(..usize::from(self.length));
        text.and_then(|text| core::str::from_utf8(text).ok())
            .unwrap_or_default()
    }

    /// Whether a character stands in it.
    pub fn has_contents(&self) -> bool {
        self.length > 0
    }

    /// Whether it is the first cell of a character of two columns.
    pub fn is_wide(&self) -> bool {
        self.raw.width == 2
    }

    /// Whether it is the second cell of a character of two columns.
    pub fn is_wide_continuation(&self) -> bool {
        self.raw.width == 0
    }

    /// The colour of the character.
    pub fn fgcolor(&self) -> Color {
        Color::of(self.raw.foreground)
    }

    /// The colour around it.
    pub fn bgcolor(&self) -> Color {
        Color::of(self.raw.background)
    }

    /// The colour of its underline.
    pub fn underline_color(&self) -> Color {
        Color::of(self.raw.underline_color)
    }

    /// SGR 1.
    pub fn bold(&self) -> bool {
        self.raw.bold
    }

    /// SGR 2.
    pub fn dim(&self) -> bool {
        self.raw.faint
    }

    /// SGR 3.
    pub fn italic(&self) -> bool {
        self.raw.italic
    }

    /// Whether it is underlined in any way.
    pub fn underline(&self) -> bool {
        self.raw.underline != 0
    }

    /// How it is underlined.
    pub fn underline_kind(&self) -> Underline {
        match self.raw.underline {
            1 => Underline::Single,
            2 => Underline::Double,
            3 => Underline::Curly,
            4 => Underline::Dotted,
            5 => Underline::Dashed,
            _ => Underline::None,
        }
    }

    /// SGR 5 or 6.
    pub fn blink(&self) -> bool {
        self.raw.blink
    }

    /// SGR 7.
    pub fn inverse(&self) -> bool {
        self.raw.inverse
    }

    /// SGR 8.
    pub fn concealed(&self) -> bool {
        self.raw.concealed
    }

    /// SGR 9.
    pub fn strikethrough(&self) -> bool {
        self.raw.strikethrough
    }

    /// SGR 53.
    pub fn overline(&self) -> bool {
        self.raw.overline
    }

    /// Whether there were more marks on the character than the two that are kept.
    pub fn has_more_marks(&self) -> bool {
        self.raw.more_marks
    }

    /// The place of the link to which it leads among [`Screen::links`](super::Screen::links).
    pub fn link(&self) -> Option<usize> {
        (self.raw.link as usize).checked_sub(1)
    }

    // In the last cell of a row: whether the row goes on in the next one.
    pub(super) fn is_joined(&self) -> bool {
        self.raw.joined
    }
}

impl fmt::Debug for Cell {
    fn fmt(&self, f: &mut fmt::Formatter<'_>) -> fmt::Result {
        f.debug_struct("Cell")
            .field("contents", &self.contents())
            .field("fgcolor", &self.fgcolor())
            .field("bgcolor", &self.bgcolor())
            .finish_non_exhaustive()
    }
}

/// The cells of a row, which this call writes and says how many there are, mostly so many.
pub(super) fn read(
    columns: usize,
    mut write: impl FnMut(&mut [RawCell]) -> Result<usize, Error>,
) -> Result<Vec<Cell>, Error> {
    let mut room = vec![RawCell::default(); columns];
    let mut count = write(&mut room)?;
    if count > columns {
        room.resize(count, RawCell::default());
        count = write(&mut room)?.min(count);
    }
    Ok(room[..count].iter().copied().map(Cell::of).collect())
}
