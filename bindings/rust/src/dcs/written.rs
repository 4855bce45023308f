// SPDX-License-Identifier: MIT
//! The bytes of sixel images.
use super::{Sixel, SixelData};
use crate::Error;
use crate::action::Action;
use crate::written::{checked_string, displayed};
use alloc::string::String;
use alloc::vec::Vec;
use core::fmt::{self, Write};

displayed!(Sixel);

impl Sixel {
    /// The bytes of this image: a device control string with its terminator, which reads back as
    /// this image.
    ///
    /// ```
    /// use escape_stream::dcs::Sixel;
    ///
    /// let sixel = Sixel::parse(&[9, 1], b"~!03?-")?;
    /// assert_eq!(sixel.to_bytes()?, b"\x1bP7;1q~!3?-\x1b\\");
    /// # Ok::<(), escape_stream::Error>(())
    /// ```
    ///
    /// # Errors
    ///
    /// [`Error::NotWritable`] if no bytes would read back as it: a number is negative, six
    /// pixels are more than 63, it has one size of two or too large ones, or a channel of a colour
    /// is none that a percentage gives. [`Error::Memory`] if the library was refused memory.
    pub fn to_bytes(&self) -> Result<Vec<u8>, Error> {
        let mut text = String::new();
        self.spell(&mut text).map_err(|_| Error::NotWritable)?;
        checked_string(
            text.as_bytes(),
            |found| matches!(found, Action::Sixel(it) if **it == *self),
        )
    }

    fn spell(&self, text: &mut String) -> fmt::Result {
        let (pan, pad) = (self.pan, self.pad);
        // The first parameter, if it says pan and pad.
        let first = match (self.pixel_width, pan, pad) {
            (None, 2, 1) => "0",
            (None, 5, 1) => "2",
            (None, 3, 1) => "3",
            (None, 1, 1) => "7",
            _ => "",
        };
        let flag = u8::from(self.background_is_transparent);
        write!(text, "\x1bP{first};{flag}")?;
        if let Some(size) = self.horizontal_grid_size {
            write!(text, ";{size}")?;
        }
        text.push('q');
        if first.is_empty() {
            write!(text, "\"{pan};{pad}")?;
        }
        if let (Some(width), Some(height)) = (self.pixel_width, self.pixel_height) {
            write!(text, ";{width};{height}")?;
        }
        for item in &self.data {
            item.spell(text)?;
        }
        text.push_str("\x1b\\");
        Ok(())
    }
}

impl SixelData {
    fn spell(&self, text: &mut String) -> fmt::Result {
        match *self {
            SixelData::Data(pixels) => text.push(pixels_char(pixels)),
            SixelData::Repeat { repeat_count, data } => {
                write!(text, "!{repeat_count}{}", pixels_char(data))?;
            }
            SixelData::DefineColorMapRGB { color_number, rgb } => {
                let [red, green, blue] = [rgb.red, rgb.green, rgb.blue].map(percentage);
                write!(text, "#{color_number};2;{red};{green};{blue}")?;
            }
            SixelData::DefineColorMapHSL {
                color_number,
                hue_angle,
                saturation,
                lightness,
            } => write!(
                text,
                "#{color_number};1;{hue_angle};{lightness};{saturation}"
            )?,
            SixelData::SelectColorMapEntry(number) => write!(text, "#{number}")?,
            SixelData::CarriageReturn => text.push('$'),
            SixelData::NewLine => text.push('-'),
        }
        Ok(())
    }
}

// The character of six pixels. A number over 63 gives none of a sixel.
fn pixels_char(pixels: u8) -> char {
    char::from(pixels.saturating_add(b'?'))
}

// The percentage that gives this channel, if there is one.
fn percentage(channel: u8) -> u32 {
    (u32::from(channel) * 100 + 254) / 255
}
