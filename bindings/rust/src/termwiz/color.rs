// SPDX-License-Identifier: MIT
//! Colours.
pub use crate::dcs::RgbColor;

/// The place of a colour in the palette.
pub type PaletteIndex = u8;

/// A colour of characters, of what lies behind them, or of their underline.
#[derive(Clone, Copy, Debug, Default, PartialEq)]
#[cfg_attr(feature = "serde", derive(serde::Serialize, serde::Deserialize))]
pub enum ColorSpec {
    /// It is the colour that the terminal uses if none is asked for.
    #[default]
    Default,
    /// It is a colour of the palette.
    PaletteIndex(PaletteIndex),
    /// It is given by its channels.
    TrueColor(SrgbaTuple),
}

/// Red, green, blue and opacity, each from 0 to 1.
#[derive(Clone, Copy, Debug, Default, PartialEq)]
#[cfg_attr(feature = "serde", derive(serde::Serialize, serde::Deserialize))]
pub struct SrgbaTuple(pub f32, pub f32, pub f32, pub f32);

/// The first 16 colours of the palette, by the names of HTML.
#[derive(Clone, Copy, Debug, PartialEq, Eq, Hash)]
#[cfg_attr(feature = "serde", derive(serde::Serialize, serde::Deserialize))]
#[repr(u8)]
pub enum AnsiColor {
    /// It is black.
    Black = 0,
    /// It is a dark red.
    Maroon,
    /// It is a dark green.
    Green,
    /// It is a dark yellow.
    Olive,
    /// It is a dark blue.
    Navy,
    /// It is a dark magenta.
    Purple,
    /// It is a dark cyan.
    Teal,
    /// It is a light grey.
    Silver,
    /// It is a dark grey.
    Grey,
    /// It is a bright red.
    Red,
    /// It is a bright green.
    Lime,
    /// It is a bright yellow.
    Yellow,
    /// It is a bright blue.
    Blue,
    /// It is a bright magenta.
    Fuchsia,
    /// It is a bright cyan.
    Aqua,
    /// It is white.
    White,
}

impl SrgbaTuple {
    /// The channels, in order.
    #[must_use]
    pub fn to_tuple_rgba(self) -> (f32, f32, f32, f32) {
        (self.0, self.1, self.2, self.3)
    }

    /// The channels as numbers up to 255.
    #[must_use]
    pub fn to_srgb_u8(self) -> (u8, u8, u8, u8) {
        let channel = |it: f32| (it * 255.0 + 0.5) as u8;
        (
            channel(self.0),
            channel(self.1),
            channel(self.2),
            channel(self.3),
        )
    }
}

impl From<(u8, u8, u8, u8)> for SrgbaTuple {
    fn from((red, green, blue, alpha): (u8, u8, u8, u8)) -> SrgbaTuple {
        let channel = |it: u8| f32::from(it) / 255.0;
        SrgbaTuple(channel(red), channel(green), channel(blue), channel(alpha))
    }
}

impl From<(u8, u8, u8)> for SrgbaTuple {
    fn from((red, green, blue): (u8, u8, u8)) -> SrgbaTuple {
        SrgbaTuple::from((red, green, blue, 255))
    }
}

impl From<(f32, f32, f32, f32)> for SrgbaTuple {
    fn from((red, green, blue, alpha): (f32, f32, f32, f32)) -> SrgbaTuple {
        SrgbaTuple(red, green, blue, alpha)
    }
}

impl From<RgbColor> for SrgbaTuple {
    fn from(color: RgbColor) -> SrgbaTuple {
        SrgbaTuple::from(color.to_tuple_rgb8())
    }
}

impl From<AnsiColor> for u8 {
    fn from(color: AnsiColor) -> u8 {
        color as u8
    }
}

impl From<AnsiColor> for ColorSpec {
    fn from(color: AnsiColor) -> ColorSpec {
        ColorSpec::PaletteIndex(color.into())
    }
}

impl From<RgbColor> for ColorSpec {
    fn from(color: RgbColor) -> ColorSpec {
        ColorSpec::TrueColor(color.into())
    }
}

impl From<SrgbaTuple> for ColorSpec {
    fn from(color: SrgbaTuple) -> ColorSpec {
        ColorSpec::TrueColor(color)
    }
}
