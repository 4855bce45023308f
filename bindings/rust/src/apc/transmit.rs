// SPDX-License-Identifier: MIT
//! Images on their way to the terminal.
use crate::borrowed;
use crate::fields::{Fields, name};
use alloc::string::String;
use alloc::vec::Vec;
use core::fmt;

/// An image on its way to the terminal.
#[derive(Clone, Debug, PartialEq, Eq)]
#[cfg_attr(feature = "serde", derive(serde::Serialize, serde::Deserialize))]
pub struct KittyImageTransmit {
    /// The format of its pixels. If there is none the terminal takes `Rgba`.
    pub format: Option<KittyImageFormat>,
    /// Its data.
    pub data: KittyImageData,
    /// Its width in pixels.
    pub width: Option<u32>,
    /// Its height in pixels.
    pub height: Option<u32>,
    /// Its id.
    pub image_id: Option<u32>,
    /// Its number, in place of an id that the terminal chooses.
    pub image_number: Option<u32>,
    /// How its pixels are compressed.
    pub compression: KittyImageCompression,
    /// Whether more of it follows in further commands.
    pub more_data_follows: bool,
}

/// The data of an image, or its place.
#[derive(Clone, PartialEq, Eq)]
#[cfg_attr(feature = "serde", derive(serde::Serialize, serde::Deserialize))]
pub enum KittyImageData {
    /// The payload as it is in the command, in base64. It is not decoded.
    Direct(String),
    /// Bytes that are written as base64. They are never read.
    DirectBin(Vec<u8>),
    /// A file.
    File {
        /// Its path.
        path: String,
        /// The number of its bytes that are the image; if there is none, all.
        data_size: Option<u32>,
        /// How many bytes of it come before them.
        data_offset: Option<u32>,
    },
    /// A file that the terminal deletes once it is read.
    TemporaryFile {
        /// Its path.
        path: String,
        /// The number of its bytes that are the image; if there is none, all.
        data_size: Option<u32>,
        /// How many bytes of it come before them.
        data_offset: Option<u32>,
    },
    /// A shared memory object.
    SharedMem {
        /// Its name.
        name: String,
        /// The number of its bytes that are the image; if there is none, all.
        data_size: Option<u32>,
        /// How many bytes of it come before them.
        data_offset: Option<u32>,
    },
}

/// It writes only the number of bytes in the command, since they may be many.
impl fmt::Debug for KittyImageData {
    fn fmt(&self, f: &mut fmt::Formatter<'_>) -> fmt::Result {
        borrowed::KittyImageData::from(self).fmt(f)
    }
}

/// The format of an image's pixels.
#[derive(Clone, Copy, Debug, PartialEq, Eq, Hash)]
#[cfg_attr(feature = "serde", derive(serde::Serialize, serde::Deserialize))]
pub enum KittyImageFormat {
    /// Three bytes a pixel: red, green and blue.
    Rgb,
    /// Four bytes a pixel: red, green, blue and alpha.
    Rgba,
    /// A PNG file.
    Png,
}

impl KittyImageFormat {
    pub(crate) fn of(fields: &mut Fields<'_>) -> Option<Option<KittyImageFormat>> {
        match fields.optional::<u8>(name::FORMAT)? {
            None => Some(None),
            Some(24) => Some(Some(KittyImageFormat::Rgb)),
            Some(32) => Some(Some(KittyImageFormat::Rgba)),
            Some(100) => Some(Some(KittyImageFormat::Png)),
            Some(_) => None,
        }
    }
}

/// How an image's pixels are compressed.
#[derive(Clone, Copy, Debug, PartialEq, Eq, Hash)]
#[cfg_attr(feature = "serde", derive(serde::Serialize, serde::Deserialize))]
pub enum KittyImageCompression {
    /// Not at all.
    None,
    /// By deflate, in the zlib format (RFC 1950).
    Deflate,
}

impl KittyImageCompression {
    pub(crate) fn of(fields: &mut Fields<'_>) -> Option<KittyImageCompression> {
        match fields.number::<u8>(name::COMPRESSION)? {
            0 => Some(KittyImageCompression::None),
            1 => Some(KittyImageCompression::Deflate),
            _ => None,
        }
    }
}
