// SPDX-License-Identifier: MIT
//! Renditions.
use super::sequence::CsiParam;
use crate::termwiz::cell::{Blink, Intensity, Underline, VerticalAlign};
use crate::termwiz::color::{ColorSpec, SrgbaTuple};
use core::fmt;

/// How the characters are shown that follow.
#[derive(Clone, Copy, Debug, PartialEq)]
#[cfg_attr(feature = "serde", derive(serde::Serialize, serde::Deserialize))]
pub enum Sgr {
    /// They are shown as at first.
    Reset,
    /// They are bold, faint or neither.
    Intensity(Intensity),
    /// They have this line below.
    Underline(Underline),
    /// That line has this colour.
    UnderlineColor(ColorSpec),
    /// They blink, or do not.
    Blink(Blink),
    /// Whether they slant.
    Italic(bool),
    /// Whether their colours change places.
    Inverse(bool),
    /// Whether they are hidden.
    Invisible(bool),
    /// Whether a line goes through them.
    StrikeThrough(bool),
    /// They are of this font.
    Font(Font),
    /// They have this colour.
    Foreground(ColorSpec),
    /// The ground behind them has this colour.
    Background(ColorSpec),
    /// Whether a line is above them.
    Overline(bool),
    /// They are raised, lowered or neither.
    VerticalAlign(VerticalAlign),
}

/// A font.
#[derive(Clone, Copy, Debug, PartialEq, Eq, Hash)]
#[cfg_attr(feature = "serde", derive(serde::Serialize, serde::Deserialize))]
pub enum Font {
    /// It is the first one.
    Default,
    /// It is one of nine others.
    Alternate(u8),
}

type Params<'a> = &'a [CsiParam];

/// The first rendition of these parameters and, after a `;`, those that follow. `None` if it is not
/// known.
pub fn first_of(params: Params<'_>) -> Option<(Sgr, Option<Params<'_>>)> {
    let (first, rest) = split(params);
    match *first {
        [] => Some((Sgr::Reset, rest)),
        [CsiParam::Integer(number @ (38 | 48 | 58))] => {
            let (color, rest) = spaced(rest?)?;
            Some((colored(number, color), rest))
        }
        [CsiParam::Integer(number)] => numbered(number).map(|it| (it, rest)),
        [
            CsiParam::Integer(4),
            CsiParam::P(b':'),
            CsiParam::Integer(kind),
        ] => Underline::of(kind).map(|it| (Sgr::Underline(it), rest)),
        [
            CsiParam::Integer(number @ (38 | 48 | 58)),
            CsiParam::P(b':'),
            ..,
        ] => joined(&first[2..]).map(|color| (colored(number, color), rest)),
        _ => None,
    }
}

/// The parameters up to the first `;`, and those after it.
#[inline]
pub fn split(params: Params<'_>) -> (Params<'_>, Option<Params<'_>>) {
    match params.iter().position(|it| *it == CsiParam::P(b';')) {
        Some(place) => (&params[..place], Some(&params[place + 1..])),
        None => (params, None),
    }
}

// The rendition of a number.
fn numbered(number: i64) -> Option<Sgr> {
    let color = |first: i64| u8::try_from(number - first).map(ColorSpec::PaletteIndex);
    Some(match number {
        0 => Sgr::Reset,
        1 => Sgr::Intensity(Intensity::Bold),
        2 => Sgr::Intensity(Intensity::Half),
        22 => Sgr::Intensity(Intensity::Normal),
        3 | 23 => Sgr::Italic(number == 3),
        4 => Sgr::Underline(Underline::Single),
        21 => Sgr::Underline(Underline::Double),
        24 => Sgr::Underline(Underline::None),
        5 => Sgr::Blink(Blink::Slow),
        6 => Sgr::Blink(Blink::Rapid),
        25 => Sgr::Blink(Blink::None),
        7 | 27 => Sgr::Inverse(number == 7),
        8 | 28 => Sgr::Invisible(number == 8),
        9 | 29 => Sgr::StrikeThrough(number == 9),
        10 => Sgr::Font(Font::Default),
        11..=19 => Sgr::Font(Font::Alternate(u8::try_from(number - 10).ok()?)),
        30..=37 => Sgr::Foreground(color(30).ok()?),
        39 => Sgr::Foreground(ColorSpec::Default),
        40..=47 => Sgr::Background(color(40).ok()?),
        49 => Sgr::Background(ColorSpec::Default),
        53 | 55 => Sgr::Overline(number == 53),
        59 => Sgr::UnderlineColor(ColorSpec::Default),
        73 => Sgr::VerticalAlign(VerticalAlign::SuperScript),
        74 => Sgr::VerticalAlign(VerticalAlign::SubScript),
        75 => Sgr::VerticalAlign(VerticalAlign::BaseLine),
        90..=97 => Sgr::Foreground(color(82).ok()?),
        100..=107 => Sgr::Background(color(92).ok()?),
        _ => return None,
    })
}

// The rendition by this number of a colour.
fn colored(number: i64, color: ColorSpec) -> Sgr {
    match number {
        38 => Sgr::Foreground(color),
        48 => Sgr::Background(color),
        _ => Sgr::UnderlineColor(color),
    }
}

// A colour with `;` between its numbers, and what follows it.
fn spaced(params: Params<'_>) -> Option<(ColorSpec, Option<Params<'_>>)> {
    let (kind, rest) = split(params);
    let (first, rest) = split(rest?);
    if *kind == [CsiParam::Integer(5)] {
        return Some((ColorSpec::PaletteIndex(channel(first)?), rest));
    }
    let (second, rest) = split(rest?);
    let (third, rest) = split(rest?);
    if *kind != [CsiParam::Integer(2)] {
        return None;
    }
    let color = (channel(first)?, channel(second)?, channel(third)?);
    Some((ColorSpec::TrueColor(color.into()), rest))
}

// A colour with `:` between its numbers. A colour space may come before the channels, and what
// xterm says of tolerance after them.
fn joined(params: Params<'_>) -> Option<ColorSpec> {
    let mut parts: [Params<'_>; 9] = [&[]; 9];
    let mut count = 0;
    for part in params.split(|it| *it == CsiParam::P(b':')) {
        *parts.get_mut(count)? = part;
        count += 1;
    }
    let channels = |at: usize| {
        let (red, green, blue) = (parts[at], parts[at + 1], parts[at + 2]);
        Some((channel(red)?, channel(green)?, channel(blue)?))
    };
    match (parts[0], count) {
        ([CsiParam::Integer(5)], 2) => Some(ColorSpec::PaletteIndex(channel(parts[1])?)),
        ([CsiParam::Integer(2)], 4) => Some(ColorSpec::TrueColor(channels(1)?.into())),
        ([CsiParam::Integer(2)], 5..=8) => Some(ColorSpec::TrueColor(channels(2)?.into())),
        ([CsiParam::Integer(6)], 5 | 6) => {
            let (red, green, blue) = channels(count - 4)?;
            let color = (red, green, blue, channel(parts[count - 1])?);
            Some(ColorSpec::TrueColor(color.into()))
        }
        _ => None,
    }
}

// A number up to 255.
fn channel(part: Params<'_>) -> Option<u8> {
    match *part {
        [CsiParam::Integer(number)] => u8::try_from(number).ok(),
        _ => None,
    }
}

// Writes a colour: `first` is the number of the first one of the palette, if there is one.
fn write_color(
    number: u8,
    first: Option<u8>,
    color: ColorSpec,
    f: &mut fmt::Formatter<'_>,
) -> fmt::Result {
    match (color, first) {
        (ColorSpec::Default, _) => write!(f, "{}", number + 1),
        (ColorSpec::PaletteIndex(index @ 0..=7), Some(first)) => write!(f, "{}", first + index),
        (ColorSpec::PaletteIndex(index @ 8..=15), Some(first)) => {
            write!(f, "{}", first + 52 + index)
        }
        (ColorSpec::PaletteIndex(index), _) => write!(f, "{number}:5:{index}"),
        (ColorSpec::TrueColor(color), _) => write_channels(number, color, f),
    }
}

fn write_channels(number: u8, color: SrgbaTuple, f: &mut fmt::Formatter<'_>) -> fmt::Result {
    match color.to_srgb_u8() {
        (red, green, blue, 255) => write!(f, "{number}:2::{red}:{green}:{blue}"),
        (red, green, blue, alpha) => write!(f, "{number}:6::{red}:{green}:{blue}:{alpha}"),
    }
}

// The text after `ESC [`.
impl fmt::Display for Sgr {
    fn fmt(&self, f: &mut fmt::Formatter<'_>) -> fmt::Result {
        let number = match *self {
            Sgr::Reset => 0,
            Sgr::Intensity(Intensity::Bold) => 1,
            Sgr::Intensity(Intensity::Half) => 2,
            Sgr::Intensity(Intensity::Normal) => 22,
            Sgr::Underline(Underline::Single) => 4,
            Sgr::Underline(Underline::Double) => 21,
            Sgr::Underline(Underline::None) => 24,
            Sgr::Underline(kind) => return write!(f, "4:{}m", kind.number()),
            Sgr::Blink(Blink::Slow) => 5,
            Sgr::Blink(Blink::Rapid) => 6,
            Sgr::Blink(Blink::None) => 25,
            Sgr::Italic(is_on) => either(is_on, 3, 23),
            Sgr::Inverse(is_on) => either(is_on, 7, 27),
            Sgr::Invisible(is_on) => either(is_on, 8, 28),
            Sgr::StrikeThrough(is_on) => either(is_on, 9, 29),
            Sgr::Overline(is_on) => either(is_on, 53, 55),
            Sgr::Font(Font::Default) => 10,
            Sgr::Font(Font::Alternate(font)) => font.saturating_add(10),
            Sgr::VerticalAlign(VerticalAlign::SuperScript) => 73,
            Sgr::VerticalAlign(VerticalAlign::SubScript) => 74,
            Sgr::VerticalAlign(VerticalAlign::BaseLine) => 75,
            Sgr::Foreground(color) => {
                write_color(38, Some(30), color, f)?;
                return f.write_str("m");
            }
            Sgr::Background(color) => {
                write_color(48, Some(40), color, f)?;
                return f.write_str("m");
            }
            Sgr::UnderlineColor(color) => {
                write_color(58, None, color, f)?;
                return f.write_str("m");
            }
        };
        write!(f, "{number}m")
    }
}

fn either(is_on: bool, on: u8, off: u8) -> u8 {
    if is_on { on } else { off }
}
