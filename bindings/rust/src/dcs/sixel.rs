// SPDX-License-Identifier: MIT
//! Sixel images.
use super::read_sixel;
use crate::fields::Room;
use crate::{Error, ffi};
use alloc::vec::Vec;

/// A sixel image.
#[derive(Clone, Debug, PartialEq, Eq)]
#[cfg_attr(feature = "serde", derive(serde::Serialize, serde::Deserialize))]
pub struct Sixel {
    /// The pixel aspect ratio is pan to pad: a pixel is so many units high.
    pub pan: i64,
    /// A pixel is so many units wide.
    pub pad: i64,
    /// The width in pixels, if raster attributes gave one.
    pub pixel_width: Option<u32>,
    /// The height in pixels, if raster attributes gave one.
    pub pixel_height: Option<u32>,
    /// Whether pixels of 0 leave the old pixels; else they are drawn in the background colour.
    pub background_is_transparent: bool,
    /// The horizontal grid size, if the header has one.
    pub horizontal_grid_size: Option<i64>,
    /// The data.
    pub data: Vec<SixelData>,
}

/// Six pixels, one above the other, as the bits of a number from 0 to 63. The lowest bit is the top
/// pixel.
pub type SixelValue = u8;

/// One command of sixel data, or six pixels.
#[derive(Clone, Copy, Debug, PartialEq, Eq)]
#[cfg_attr(feature = "serde", derive(serde::Serialize, serde::Deserialize))]
pub enum SixelData {
    /// Six pixels.
    Data(SixelValue),
    /// Six pixels so many times.
    Repeat {
        /// How many times.
        repeat_count: u32,
        /// The pixels.
        data: SixelValue,
    },
    /// Gives a colour to a number, and selects it.
    DefineColorMapRGB {
        /// The number.
        color_number: u16,
        /// The colour.
        rgb: RgbColor,
    },
    /// Gives a colour to a number, and selects it.
    DefineColorMapHSL {
        /// The number.
        color_number: u16,
        /// The angle of the hue, from 0 to 360 degrees. Larger ones are kept as they are.
        hue_angle: u16,
        /// The saturation, from 0 to 100. Larger ones are kept as they are.
        saturation: u8,
        /// The lightness, from 0 to 100. Larger ones are kept as they are.
        lightness: u8,
    },
    /// Selects the colour of this number.
    SelectColorMapEntry(u16),
    /// Back to the start of the line, so that the next pixels are drawn over it.
    CarriageReturn,
    /// To the start of the next band of six lines.
    NewLine,
}

/// A colour as the intensities of red, green and blue, each from 0 to 255.
#[derive(Clone, Copy, Debug, PartialEq, Eq, Hash)]
#[cfg_attr(feature = "serde", derive(serde::Serialize, serde::Deserialize))]
pub struct RgbColor {
    /// Red.
    pub red: u8,
    /// Green.
    pub green: u8,
    /// Blue.
    pub blue: u8,
}

impl RgbColor {
    /// The colour of these intensities.
    #[must_use]
    pub const fn new_8bpc(red: u8, green: u8, blue: u8) -> RgbColor {
        RgbColor { red, green, blue }
    }

    /// The intensities of red, green and blue.
    #[must_use]
    pub const fn to_tuple_rgb8(self) -> (u8, u8, u8) {
        (self.red, self.green, self.blue)
    }
}

impl Sixel {
    /// The image of these parameters and this data: those of [`Event::Dcs`](crate::Event::Dcs) with
    /// the byte `q` and no intermediate, and the bytes up to their end. Any are such an image.
    ///
    /// ```
    /// use escape_stream::dcs::{Sixel, SixelData};
    ///
    /// let sixel = Sixel::parse(&[9, 1], b"~!3?-")?;
    /// assert_eq!((sixel.pan, sixel.pad, sixel.dimensions()), (1, 1, (4, 6)));
    /// assert_eq!(sixel.data[0], SixelData::Data(63));
    /// assert_eq!(sixel.data[2], SixelData::NewLine);
    /// # Ok::<(), escape_stream::Error>(())
    /// ```
    ///
    /// # Errors
    ///
    /// Those of [`OperatingSystemCommand::parse`](crate::osc::OperatingSystemCommand::parse).
    pub fn parse(params: &[i64], data: &[u8]) -> Result<Sixel, Error> {
        read_sixel(params, data, &mut Room::default())
    }

    /// Width and height in pixels: both sizes of the raster attributes, if both are there. Else
    /// the width of the widest line, and six times the number of the last band that has a sixel.
    #[must_use]
    pub fn dimensions(&self) -> (u32, u32) {
        if let (Some(width), Some(height)) = (self.pixel_width, self.pixel_height) {
            return (width, height);
        }
        let (mut width, mut height, mut column, mut band) = (0, 0, 0u32, 1u32);
        for item in &self.data {
            let count = match item {
                SixelData::Data(_) => 1,
                SixelData::Repeat { repeat_count, .. } => *repeat_count,
                SixelData::CarriageReturn => {
                    column = 0;
                    continue;
                }
                SixelData::NewLine => {
                    (column, band) = (0, band.saturating_add(1));
                    continue;
                }
                _ => continue,
            };
            column = column.saturating_add(count);
            width = column.max(width);
            height = band.saturating_mul(6);
        }
        (width, height)
    }
}

impl SixelData {
    // The item of a row. Kinds are as the header has them.
    pub(super) fn of(row: &ffi::SixelItem) -> Option<SixelData> {
        Some(match row.kind {
            0 => SixelData::Data(row.pixels),
            1 => SixelData::Repeat {
                repeat_count: row.count,
                data: row.pixels,
            },
            2 => SixelData::DefineColorMapRGB {
                color_number: row.color,
                rgb: RgbColor {
                    red: row.red,
                    green: row.green,
                    blue: row.blue,
                },
            },
            3 => SixelData::DefineColorMapHSL {
                color_number: row.color,
                hue_angle: row.hue,
                saturation: row.saturation,
                lightness: row.lightness,
            },
            4 => SixelData::SelectColorMapEntry(row.color),
            5 => SixelData::CarriageReturn,
            6 => SixelData::NewLine,
            _ => return None,
        })
    }
}
